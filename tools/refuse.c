/* To be preloaded: refuses one memory allocation, whose number, counted from 1, is in REFUSED_GROWTH, and writes a byte
   to the descriptor in REFUSAL_TOLD when that happens. */
#include <errno.h>
#include <stdatomic.h>
#include <stdlib.h>
#include <unistd.h>

extern void *__libc_malloc(size_t);
extern void *__libc_calloc(size_t, size_t);
extern void *__libc_realloc(void *, size_t);
extern void *__libc_memalign(size_t, size_t);

static atomic_long left;
static int told;

static long setting(const char *name) {
    const char *value = getenv(name);
    return value ? atol(value) : 0;
}

__attribute__((constructor)) static void begin(void) {
    told = (int)setting("REFUSAL_TOLD");
    left = setting("REFUSED_GROWTH");
}

static int is_refused(void) {
    if (atomic_fetch_sub(&left, 1) != 1) return 0;
    if (write(told, "", 1) != 1) abort();
    errno = ENOMEM;
    return 1;
}

void *malloc(size_t size) { return is_refused() ? NULL : __libc_malloc(size); }

void *calloc(size_t count, size_t size) { return is_refused() ? NULL : __libc_calloc(count, size); }

void *realloc(void *block, size_t size) { return is_refused() ? NULL : __libc_realloc(block, size); }

void *aligned_alloc(size_t alignment, size_t size) {
    return is_refused() ? NULL : __libc_memalign(alignment, size);
}

int posix_memalign(void **block, size_t alignment, size_t size) {
    *block = is_refused() ? NULL : __libc_memalign(alignment, size);
    return *block ? 0 : ENOMEM;
}
