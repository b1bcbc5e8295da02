/*
 * Times two libraries with the calls of blake3.h, which are both loaded and take turns: speed OURS THEIRS.
 * Writes a line for each work: the length of a message, the length of the pieces in which it is given, and for each
 * library the least time, in nanoseconds, to hash such a message. The exit status is 1 if the digests differ.
 */
#define _DEFAULT_SOURCE
#include <blake3.h>

#include <dlfcn.h>
#include <stdio.h>
#include <stdlib.h>
#include <string.h>
#include <time.h>

/* A turn hashes one message, or as many short ones as make up TURN_LEN bytes. */
enum { LIBRARIES = 2, TURNS = 300, LONGEST = 1 << 20, STREAM = 20000, TURN_LEN = 1 << 17 };

/* Each message is one init, an update for each piece, of which the last may be shorter, and one finalize. */
static const struct work {
    size_t len, piece;
} WORKS[] = {
    {16, 16}, {64, 64}, {100, 100}, {1 << 10, 1 << 10}, {1 << 14, 1 << 14}, {LONGEST, LONGEST},
    {STREAM, 1}, {STREAM, 16}, {STREAM, 64}, {STREAM, 100}, {STREAM, 1000},
};

struct library {
    void (*init)(blake3_hasher *self);
    void (*update)(blake3_hasher *self, const void *input, size_t input_len);
    void (*finalize)(const blake3_hasher *self, uint8_t *out, size_t out_len);
};

static uint8_t input[LONGEST];

static void *symbol(void *handle, const char *name) {
    void *found = handle == NULL ? NULL : dlsym(handle, name);
    if (found == NULL) {
        fprintf(stderr, "speed: %s\n", dlerror());
        exit(2);
    }
    return found;
}

static struct library load(const char *path) {
    struct library loaded;
    void *handle = dlopen(path, RTLD_NOW | RTLD_LOCAL);
    *(void **)&loaded.init = symbol(handle, "blake3_hasher_init");
    *(void **)&loaded.update = symbol(handle, "blake3_hasher_update");
    *(void **)&loaded.finalize = symbol(handle, "blake3_hasher_finalize");
    return loaded;
}

static double now(void) {
    struct timespec time;
    clock_gettime(CLOCK_MONOTONIC, &time);
    return (double)time.tv_sec * 1e9 + (double)time.tv_nsec;
}

static void hash(const struct library *library, struct work work, uint8_t digest[BLAKE3_OUT_LEN]) {
    blake3_hasher hasher;
    library->init(&hasher);
    for (size_t at = 0; at < work.len; at += work.piece) {
        size_t left = work.len - at;
        library->update(&hasher, input + at, left < work.piece ? left : work.piece);
    }
    library->finalize(&hasher, digest, BLAKE3_OUT_LEN);
}

/* The nanoseconds for each message of a turn. Stores the last digest. */
static double turn(const struct library *library, struct work work, uint8_t digest[BLAKE3_OUT_LEN]) {
    size_t times = work.len < TURN_LEN ? TURN_LEN / work.len : 1;
    double start = now();
    for (size_t i = 0; i < times; i++) {
        hash(library, work, digest);
    }
    return (now() - start) / (double)times;
}

static void time_work(const struct library libraries[LIBRARIES], struct work work) {
    double best[LIBRARIES];
    for (int round = 0; round < TURNS; round++) {
        uint8_t digests[LIBRARIES][BLAKE3_OUT_LEN];
        for (int i = 0; i < LIBRARIES; i++) {
            double took = turn(&libraries[i], work, digests[i]);
            best[i] = round == 0 || took < best[i] ? took : best[i];
        }
        if (memcmp(digests[0], digests[1], BLAKE3_OUT_LEN) != 0) {
            fprintf(stderr, "speed: the digests of %zu bytes by %zu differ\n", work.len, work.piece);
            exit(1);
        }
    }
    printf("%zu %zu %.1f %.1f\n", work.len, work.piece, best[0], best[1]);
}

int main(int count, char **words) {
    struct library libraries[LIBRARIES];
    if (count != 1 + LIBRARIES) {
        fprintf(stderr, "usage: speed OURS THEIRS\n");
        return 2;
    }
    for (int i = 0; i < LIBRARIES; i++) {
        libraries[i] = load(words[1 + i]);
    }
    for (size_t i = 0; i < LONGEST; i++) {
        input[i] = (uint8_t)(i % 251);
    }
    for (size_t i = 0; i < sizeof WORKS / sizeof *WORKS; i++) {
        time_work(libraries, WORKS[i]);
    }
    return 0;
}
