/* Calls each function of the library as C programs do. The exit status is 1 if an output is wrong. */
#define _DEFAULT_SOURCE
#include <blake3.h>

#include <pthread.h>
#include <stdio.h>
#include <stdlib.h>
#include <sys/mman.h>
#include <unistd.h>

/* STEP divides LONGEST. */
enum { LONGEST = 1025, STEP = 41, THREADS = 8, TURNS = 200, OFFSETS = 64 };

enum mode { HASH, KEYED, DERIVED };

/* The official test vectors, whose bytes are i mod 251, with their key and their context. */
static const uint8_t KEY[] = "whats the Elvish word for friend";
static const char CONTEXT[] = "BLAKE3 2019-12-27 16:29:52 test vectors context";
static const struct vector {
    enum mode mode;
    size_t len;
    const char *digest;
} VECTORS[] = {
    {HASH, 0, "af1349b9f5f9a1a6a0404dea36dcc9499bcb25c9adc112b7cc9a93cae41f3262"},
    {HASH, 1, "2d3adedff11b61f14c886e35afa036736dcd87a74d27b5c1510225d0f592e213"},
    {HASH, 1024, "42214739f095a406f3fc83deb889744ac00df831c10daa55189b5d121c855af7"},
    {HASH, 1025, "d00278ae47eb27b34faecf67b4fe263f82d5412916c1ffd97c8cb7fb814b8444"},
    {KEYED, 0, "92b2b75604ed3c761f9d6f62392c8a9227ad0ea3f09573e783f1498a4ed60d26"},
    {DERIVED, 0, "2cc39783c223154fea8dfb7c1b1660f2ac2dcbd1c1de8277b0b0dd39b7e50d7d"},
};
enum { VECTOR_COUNT = sizeof VECTORS / sizeof *VECTORS };

static uint8_t pattern[LONGEST];
static int failures;

static void expect(int holds, const char *what) {
    if (!holds) {
        __atomic_fetch_add(&failures, 1, __ATOMIC_SEQ_CST);
        fprintf(stderr, "wrong: %s\n", what);
    }
}

static void begin(blake3_hasher *hasher, enum mode mode) {
    if (mode == HASH) {
        blake3_hasher_init(hasher);
    } else if (mode == KEYED) {
        blake3_hasher_init_keyed(hasher, KEY);
    } else {
        blake3_hasher_init_derive_key(hasher, CONTEXT);
    }
}

/* Whether these are the first bytes of the output of a vector. */
static int is_digest(const uint8_t *bytes, const char *digest) {
    char digits[2 * BLAKE3_OUT_LEN + 1];
    for (size_t i = 0; i < BLAKE3_OUT_LEN; i++) {
        sprintf(digits + 2 * i, "%02x", bytes[i]);
    }
    return strcmp(digits, digest) == 0;
}

static int gives(const blake3_hasher *hasher, const char *digest) {
    uint8_t out[BLAKE3_OUT_LEN];
    blake3_hasher_finalize(hasher, out, sizeof out);
    return is_digest(out, digest);
}

static void check_vectors(void) {
    blake3_hasher hasher;
    memset(&hasher, 0xff, sizeof hasher);
    for (size_t i = 0; i < VECTOR_COUNT; i++) {
        begin(&hasher, VECTORS[i].mode);
        blake3_hasher_update(&hasher, pattern, VECTORS[i].len);
        expect(gives(&hasher, VECTORS[i].digest), "a vector in one piece");
        blake3_hasher_reset(&hasher);
        for (size_t place = 0; place < VECTORS[i].len; place++) {
            blake3_hasher_update(&hasher, pattern + place, 1);
        }
        expect(gives(&hasher, VECTORS[i].digest), "a vector byte by byte, after a reset");
    }
}

static void check_contexts(void) {
    blake3_hasher hasher;
    blake3_hasher_init_derive_key_raw(&hasher, CONTEXT, strlen(CONTEXT));
    expect(gives(&hasher, VECTORS[5].digest), "a context with its length");
    blake3_hasher_init_derive_key_raw(&hasher, CONTEXT, sizeof CONTEXT);
    expect(!gives(&hasher, VECTORS[5].digest), "the NUL is not of the context");
    blake3_hasher_init_derive_key(&hasher, "BLAKE3 2019-12-27 16:29:52 test vectors context\0more");
    expect(gives(&hasher, VECTORS[5].digest), "a context ends before its first NUL");
}

static void check_no_bytes(void) {
    blake3_hasher hasher, other;
    uint8_t outs[2][BLAKE3_OUT_LEN];
    blake3_hasher_init(&hasher);
    blake3_hasher_update(&hasher, NULL, 0);
    blake3_hasher_finalize(&hasher, NULL, 0);
    blake3_hasher_finalize_seek(&hasher, UINT64_MAX, NULL, 0);
    expect(gives(&hasher, VECTORS[0].digest), "no bytes at NULL");
    blake3_hasher_init_derive_key_raw(&hasher, NULL, 0);
    blake3_hasher_init_derive_key(&other, "");
    blake3_hasher_finalize(&hasher, outs[0], BLAKE3_OUT_LEN);
    blake3_hasher_finalize(&other, outs[1], BLAKE3_OUT_LEN);
    expect(memcmp(outs[0], outs[1], BLAKE3_OUT_LEN) == 0, "no context at NULL");
}

static void check_seeks(void) {
    blake3_hasher hasher, before;
    uint8_t whole[1000], part[1000];
    blake3_hasher_init(&hasher);
    before = hasher;
    blake3_hasher_finalize(&hasher, whole, sizeof whole);
    expect(is_digest(whole, VECTORS[0].digest), "a long output begins with the digest");
    for (size_t seek = 0; seek < sizeof whole; seek += 7) {
        size_t len = sizeof whole - seek;
        blake3_hasher_finalize_seek(&hasher, seek, part, len);
        expect(memcmp(part, whole + seek, len) == 0, "a part of the output");
    }
    expect(memcmp(&hasher, &before, sizeof hasher) == 0, "an output leaves the hasher as it is");
}

/* The last byte of the output is at offset 2^64 - 2: nothing is written after it. */
static void check_end(void) {
    blake3_hasher hasher;
    uint8_t zeros[3] = {0, 0, 0}, ones[3] = {0xff, 0xff, 0xff};
    const uint8_t kept[3] = {0xff, 0xff, 0xff};
    blake3_hasher_init(&hasher);
    blake3_hasher_finalize_seek(&hasher, UINT64_MAX - 2, ones, 3);
    expect(memcmp(ones, kept, 3) == 0, "an output past its end");
    blake3_hasher_finalize_seek(&hasher, UINT64_MAX, ones, 1);
    expect(memcmp(ones, kept, 3) == 0, "an output from its end on");
    blake3_hasher_finalize_seek(&hasher, UINT64_MAX - 3, ones, 3);
    blake3_hasher_finalize_seek(&hasher, UINT64_MAX - 3, zeros, 3);
    expect(memcmp(ones, zeros, 3) == 0, "an output up to its end");
}

static void check_offsets(void) {
    uint8_t memory[OFFSETS + LONGEST], outs[OFFSETS + BLAKE3_OUT_LEN];
    blake3_hasher hasher;
    for (size_t offset = 0; offset < OFFSETS; offset++) {
        memcpy(memory + offset, pattern, LONGEST);
        blake3_hasher_init(&hasher);
        blake3_hasher_update(&hasher, memory + offset, LONGEST);
        blake3_hasher_finalize(&hasher, outs + offset, BLAKE3_OUT_LEN);
        expect(is_digest(outs + offset, VECTORS[3].digest), "an input and an output at any address");
        memcpy(memory + offset, KEY, BLAKE3_KEY_LEN);
        blake3_hasher_init_keyed(&hasher, memory + offset);
        expect(gives(&hasher, VECTORS[4].digest), "a key at any address");
    }
}

/* A hasher that is copied at any offset of an input and its copy are independent. */
static void check_copies(void) {
    blake3_hasher hasher, copy;
    blake3_hasher *moved = malloc(sizeof *moved);
    blake3_hasher_init(&hasher);
    for (size_t place = 0; place < LONGEST; place += STEP) {
        copy = hasher;
        memcpy(moved, &hasher, sizeof hasher);
        blake3_hasher_update(&copy, pattern + place, LONGEST - place);
        expect(gives(&copy, VECTORS[3].digest), "a copy goes on");
        blake3_hasher_reset(&copy);
        blake3_hasher_update(moved, pattern + place, LONGEST - place);
        expect(gives(moved, VECTORS[3].digest), "a copy that was moved goes on");
        blake3_hasher_update(&hasher, pattern + place, STEP);
    }
    expect(gives(&hasher, VECTORS[3].digest), "a hasher goes on after its copies");
    free(moved);
}

/* Memory with an inaccessible page before or after it. */
static uint8_t *guarded(size_t len, int after) {
    size_t page = (size_t)sysconf(_SC_PAGESIZE), inside = (len + page - 1) / page * page;
    uint8_t *all = mmap(NULL, inside + 2 * page, PROT_NONE, MAP_PRIVATE | MAP_ANONYMOUS, -1, 0);
    if (all == MAP_FAILED || mprotect(all + page, inside, PROT_READ | PROT_WRITE) != 0) {
        perror("mmap");
        exit(2);
    }
    return all + page + (after ? inside - len : 0);
}

static void check_bounds(void) {
    for (int after = 0; after < 2; after++) {
        blake3_hasher *hasher = (blake3_hasher *)(void *)guarded(sizeof *hasher, after);
        uint8_t *key = guarded(BLAKE3_KEY_LEN, after), *out = guarded(BLAKE3_OUT_LEN, after);
        char *context = (char *)guarded(strlen(CONTEXT), after);
        memcpy(key, KEY, BLAKE3_KEY_LEN);
        memcpy(context, CONTEXT, strlen(CONTEXT));
        blake3_hasher_init_keyed(hasher, key);
        blake3_hasher_finalize(hasher, out, BLAKE3_OUT_LEN);
        expect(is_digest(out, VECTORS[4].digest), "a key between guards");
        blake3_hasher_init_derive_key_raw(hasher, context, strlen(CONTEXT));
        blake3_hasher_finalize_seek(hasher, 0, out, BLAKE3_OUT_LEN);
        expect(is_digest(out, VECTORS[5].digest), "a context between guards");
        for (size_t i = 0; i < 4; i++) {
            uint8_t *input = guarded(VECTORS[i].len, after);
            memcpy(input, pattern, VECTORS[i].len);
            blake3_hasher_init(hasher);
            blake3_hasher_update(hasher, input, VECTORS[i].len);
            expect(gives(hasher, VECTORS[i].digest), "an input between guards");
        }
        for (size_t len = 0; len < 40000; len += 1 + len / 3) {
            uint8_t *long_input = guarded(len, after), *long_output = guarded(len, after);
            blake3_hasher_reset(hasher);
            blake3_hasher_update(hasher, long_input, len);
            blake3_hasher_finalize(hasher, long_output, len);
        }
    }
}

static void *hash_in_a_thread(void *input) {
    for (int turn = 0; turn < TURNS; turn++) {
        const struct vector *vector = &VECTORS[turn % VECTOR_COUNT];
        blake3_hasher hasher;
        begin(&hasher, vector->mode);
        blake3_hasher_update(&hasher, input, vector->len);
        expect(gives(&hasher, vector->digest), "a vector in a thread");
    }
    return NULL;
}

static void check_threads(void) {
    pthread_t threads[THREADS];
    for (int i = 0; i < THREADS; i++) {
        if (pthread_create(&threads[i], NULL, hash_in_a_thread, pattern) != 0) {
            exit(2);
        }
    }
    for (int i = 0; i < THREADS; i++) {
        pthread_join(threads[i], NULL);
    }
}

int main(void) {
    for (size_t i = 0; i < LONGEST; i++) {
        pattern[i] = (uint8_t)(i % 251);
    }
    check_vectors();
    check_contexts();
    check_no_bytes();
    check_seeks();
    check_end();
    check_offsets();
    check_copies();
    check_bounds();
    check_threads();
    expect(strcmp(blake3_version(), BLAKE3_VERSION_STRING) == 0, "the version");
    return failures != 0;
}
