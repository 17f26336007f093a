/* Loaded before the C library: the write whose number is in REFUSED_WRITE, counted from 1, fails as a broken disk's does, and where
 * REFUSED_SYNC is set no file can be told to keep its bytes. */
#define _GNU_SOURCE
#include <dlfcn.h>
#include <errno.h>
#include <stdlib.h>
#include <unistd.h>

ssize_t write(int file, const void *bytes, size_t count) {
    static ssize_t (*next)(int, const void *, size_t);
    static long asked;
    const char *number = getenv("REFUSED_WRITE");
    if (!next)
        next = (ssize_t(*)(int, const void *, size_t))dlsym(RTLD_NEXT, "write");
    asked += 1;
    if (number && asked == atol(number)) {
        errno = EIO;
        return -1;
    }
    return next(file, bytes, count);
}

int fsync(int file) {
    static int (*next)(int);
    if (!next)
        next = (int (*)(int))dlsym(RTLD_NEXT, "fsync");
    if (getenv("REFUSED_SYNC")) {
        errno = EIO;
        return -1;
    }
    return next(file);
}
