/*
 * Hashes the cases in its input by the calls of blake3.h. It is built with the library or with another implementation,
 * to compare the outputs. A case is, as 64-bit numbers, the mode (0: hash, 1: keyed, 2: derived), the length of the
 * context, the number of pieces, the offset and the length of the output; then the 32 bytes of the key, and the
 * context; and then each piece after its length. It writes the bytes of the output.
 */
#include <blake3.h>

#include <stdio.h>
#include <stdlib.h>

enum { MODE, CONTEXT_LEN, PIECES, SEEK, OUT_LEN, NUMBERS };

static int take(void *memory, size_t len) {
    return fread(memory, 1, len, stdin) == len;
}

/* Memory with the next bytes of the input. */
static void *taken(size_t len) {
    void *memory = malloc(len + 1);
    if (memory == NULL || !take(memory, len)) {
        exit(2);
    }
    return memory;
}

int main(void) {
    uint64_t numbers[NUMBERS];
    uint8_t key[BLAKE3_KEY_LEN];
    while (take(numbers, sizeof numbers) && take(key, sizeof key)) {
        void *context = taken(numbers[CONTEXT_LEN]);
        blake3_hasher hasher;
        if (numbers[MODE] == 0) {
            blake3_hasher_init(&hasher);
        } else if (numbers[MODE] == 1) {
            blake3_hasher_init_keyed(&hasher, key);
        } else {
            blake3_hasher_init_derive_key_raw(&hasher, context, numbers[CONTEXT_LEN]);
        }
        for (uint64_t i = 0; i < numbers[PIECES]; i++) {
            uint64_t len;
            if (!take(&len, sizeof len)) {
                return 2;
            }
            void *piece = taken(len);
            blake3_hasher_update(&hasher, piece, len);
            free(piece);
        }
        uint8_t *out = malloc(numbers[OUT_LEN] + 1);
        blake3_hasher_finalize_seek(&hasher, numbers[SEEK], out, numbers[OUT_LEN]);
        fwrite(out, 1, numbers[OUT_LEN], stdout);
        free(out);
        free(context);
    }
    return 0;
}
