/* A read and a write in front of the C library's, for a program that is linked with it: MODE says what they do.
     interrupted   every second call is interrupted by a signal, and the others move a byte
     short         a call moves at most 7 bytes
     read-fails    40 bytes are read, and then reading fails
     write-fails   10 bytes are written, and then writing fails
     write-stops   10 bytes are written, and then writing moves nothing */
#define _GNU_SOURCE
#include <dlfcn.h>
#include <errno.h>
#include <stdlib.h>
#include <string.h>
#include <unistd.h>

typedef ssize_t (*reads)(int, void *, size_t);
typedef ssize_t (*writes)(int, const void *, size_t);

static int is(const char *mode) {
    const char *set = getenv("MODE");
    return set && !strcmp(set, mode);
}

/* How many bytes of a call may pass; 0 with errno set where it is to fail. */
static size_t allowed(size_t length, size_t *calls, size_t *left, int fails) {
    if (is("interrupted")) {
        errno = EINTR;
        return ++*calls % 2 ? 0 : 1;
    }
    if (is("short")) return length < 7 ? length : 7;
    if (!fails) return length;
    errno = EIO;
    return length < *left ? length : *left;
}

ssize_t read(int file, void *bytes, size_t length) {
    static size_t calls, left = 40;
    size_t most = file == 0 && length ? allowed(length, &calls, &left, is("read-fails")) : length;
    if (most == 0 && length) return -1;
    ssize_t got = ((reads)dlsym(RTLD_NEXT, "read"))(file, bytes, most);
    if (got > 0 && file == 0) left -= (size_t)got < left ? (size_t)got : left;
    return got;
}

ssize_t write(int file, const void *bytes, size_t length) {
    static size_t calls, left = 10;
    int fails = is("write-fails") || is("write-stops");
    size_t most = file == 1 && length ? allowed(length, &calls, &left, fails) : length;
    if (most == 0 && length) return is("write-stops") ? 0 : -1;
    ssize_t put = ((writes)dlsym(RTLD_NEXT, "write"))(file, bytes, most);
    if (put > 0 && file == 1) left -= (size_t)put < left ? (size_t)put : left;
    return put;
}
