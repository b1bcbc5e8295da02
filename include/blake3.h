/*
 * BLAKE3 hashes, by a library whose code is proved to give what the BLAKE3 specification says. Names, arguments and
 * meanings are those of the header of the same name of the BLAKE3 project, from release 1.3 on; the size of a hasher is
 * not, so a program is compiled with this header and linked with libb3, and not one of them alone.
 *
 * No call fails, takes memory from the system, or keeps a pointer. Each takes valid memory for what it is given, which
 * nobody else writes during the call; a length of 0 may come with NULL. The library runs on x86-64 processors of the
 * level that `pkg-config --variable=cpu b3` names, and of later ones.
 */
#ifndef B3_BLAKE3_H
#define B3_BLAKE3_H

#include <stddef.h>
#include <stdint.h>
#include <string.h>

#ifdef __cplusplus
extern "C" {
#endif

/* The release whose calls these are, and lengths in bytes: of a key, of a digest where no other length is wanted, of a
 * block and of a chunk. A tree has at most 54 levels above its chunks. */
#define BLAKE3_VERSION_STRING "1.3.1"
#define BLAKE3_KEY_LEN 32
#define BLAKE3_OUT_LEN 32
#define BLAKE3_BLOCK_LEN 64
#define BLAKE3_CHUNK_LEN 1024
#define BLAKE3_MAX_DEPTH 54

/*
 * A hasher. Its bytes are for the calls below alone. It owns nothing else: it needs no end, and a copy of its bytes (by
 * `=` or memcpy) is a hasher of its own. Before any other call one of the four init calls must have been made on it;
 * these take it as it is, also uninitialised. One call at a time may be made on a hasher, also one that only reads it;
 * calls on different hashers may be made at the same time.
 */
typedef struct {
    uint64_t opaque[253];
} blake3_hasher;

/* Refuses a platform on which the library's hasher would be of another size. */
typedef char b3_size_is_the_library_s[sizeof(blake3_hasher) == 2024 && sizeof(size_t) == 8 ? 1 : -1];

/* Begins a hash of an input of which no bytes have come. */
void blake3_hasher_init(blake3_hasher *self);

/* The same, keyed by 32 bytes. */
void blake3_hasher_init_keyed(blake3_hasher *self, const uint8_t key[BLAKE3_KEY_LEN]);

/* The same, for a key that is derived: the input is the key material, and the context says what the key is for. It is
 * best hardcoded, unique, and never made from an input. */
void blake3_hasher_init_derive_key_raw(blake3_hasher *self, const void *context, size_t context_len);

/* The same, of a context that ends before its first NUL. It stands here, and is no symbol of the library. */
static inline void blake3_hasher_init_derive_key(blake3_hasher *self, const char *context) {
    blake3_hasher_init_derive_key_raw(self, context, strlen(context));
}

/* Takes in the next bytes of the input. Where the input would then have 2^64 bytes or more it takes in none, and the
 * hasher stays as it was. */
void blake3_hasher_update(blake3_hasher *self, const void *input, size_t input_len);

/* Writes the first `out_len` bytes of the output of the input so far. The hasher stays as it is, and can go on. */
void blake3_hasher_finalize(const blake3_hasher *self, uint8_t *out, size_t out_len);

/* The same from byte `seek` of the output on. Where `seek + out_len` would be 2^64 or more, nothing is written. */
void blake3_hasher_finalize_seek(const blake3_hasher *self, uint64_t seek, uint8_t *out, size_t out_len);

/* Begins again, in the same mode, with the same key or context, and an input of which no bytes have come. */
void blake3_hasher_reset(blake3_hasher *self);

/* The release of BLAKE3's header whose calls these are. It stands here, and is no symbol of the library. */
static inline const char *blake3_version(void) {
    return BLAKE3_VERSION_STRING;
}

#ifdef __cplusplus
}
#endif

#endif
