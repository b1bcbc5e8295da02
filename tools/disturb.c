/* To be preloaded: disturbs the reads of the file whose path is in DISTURBED_FILE. Reads from the offset FAILS_FROM on
   fail, and each read is first interrupted INTERRUPTIONS times in a row. */
#define _GNU_SOURCE
#include <errno.h>
#include <limits.h>
#include <stdio.h>
#include <stdlib.h>
#include <string.h>
#include <sys/syscall.h>
#include <unistd.h>

static _Thread_local long calls;

static long setting(const char *name, long otherwise) {
    const char *value = getenv(name);
    return value ? atol(value) : otherwise;
}

static int is_disturbed(int descriptor) {
    char link[32], path[PATH_MAX];
    snprintf(link, sizeof link, "/proc/self/fd/%d", descriptor);
    ssize_t length = readlink(link, path, sizeof path - 1);
    if (length < 0) return 0;
    path[length] = 0;
    const char *disturbed = getenv("DISTURBED_FILE");
    return disturbed && strcmp(path, disturbed) == 0;
}

/* How many of the requested bytes may be read from an offset on; -1 if the read fails. */
static ssize_t allowed(off_t offset, size_t asked) {
    long interruptions = setting("INTERRUPTIONS", 0);
    if (calls++ % (interruptions + 1) < interruptions) {
        errno = EINTR;
        return -1;
    }
    off_t left = setting("FAILS_FROM", LONG_MAX) - offset;
    if (left > 0) return left < (off_t)asked ? left : (ssize_t)asked;
    errno = EIO;
    return -1;
}

ssize_t read(int descriptor, void *buffer, size_t count) {
    ssize_t most = count;
    if (is_disturbed(descriptor)) most = allowed(lseek(descriptor, 0, SEEK_CUR), count);
    return most < 0 ? -1 : syscall(SYS_read, descriptor, buffer, most);
}

ssize_t pread(int descriptor, void *buffer, size_t count, off_t offset) {
    ssize_t most = count;
    if (is_disturbed(descriptor)) most = allowed(offset, count);
    return most < 0 ? -1 : syscall(SYS_pread64, descriptor, buffer, most, offset);
}

ssize_t pread64(int descriptor, void *buffer, size_t count, off_t offset) {
    return pread(descriptor, buffer, count, offset);
}
