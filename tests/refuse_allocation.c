/* Loaded before the C library: refuses the allocation whose number is in REFUSED_ALLOCATION, counted
 * from 1, and at the end of the run writes how many were asked for to the file ALLOCATION_COUNT. */
#define _GNU_SOURCE
#include <dlfcn.h>
#include <fcntl.h>
#include <stdio.h>
#include <stdlib.h>
#include <unistd.h>

static long asked;

static int is_refused(void) {
    static long refused = -1;
    if (refused < 0) {
        const char *number = getenv("REFUSED_ALLOCATION");
        refused = number ? atol(number) : 0;
    }
    asked += 1;
    return asked == refused;
}

void *malloc(size_t size) {
    static void *(*next)(size_t);
    if (!next)
        next = (void *(*)(size_t))dlsym(RTLD_NEXT, "malloc");
    return is_refused() ? NULL : next(size);
}

void *realloc(void *old, size_t size) {
    static void *(*next)(void *, size_t);
    if (!next)
        next = (void *(*)(void *, size_t))dlsym(RTLD_NEXT, "realloc");
    return is_refused() ? NULL : next(old, size);
}

__attribute__((destructor)) static void tell(void) {
    const char *name = getenv("ALLOCATION_COUNT");
    char text[32];
    int length = snprintf(text, sizeof text, "%ld", asked);
    int file = name ? open(name, O_WRONLY | O_CREAT | O_TRUNC, 0600) : -1;
    if (file >= 0 && write(file, text, (size_t)length) != length)
        _exit(99);
}
