/* A preloaded library that refuses one allocation of a program: that with the number FAIL_ALLOC,
 * counted from 1. With COUNT_ALLOC set it tells at the end, on standard error, how many there were. */
#define _GNU_SOURCE
#include <dlfcn.h>
#include <errno.h>
#include <stdio.h>
#include <stdlib.h>

static long count;

static int is_refused(void) {
    static long refused = -1;
    if (refused < 0) {
        const char *text = getenv("FAIL_ALLOC");
        refused = text ? atol(text) : 0;
    }
    return ++count == refused;
}

void *malloc(size_t size) {
    static void *(*next)(size_t);
    if (!next) next = dlsym(RTLD_NEXT, "malloc");
    if (is_refused()) { errno = ENOMEM; return NULL; }
    return next(size);
}

void *realloc(void *old, size_t size) {
    static void *(*next)(void *, size_t);
    if (!next) next = dlsym(RTLD_NEXT, "realloc");
    if (is_refused()) { errno = ENOMEM; return NULL; }
    return next(old, size);
}

int posix_memalign(void **place, size_t alignment, size_t size) {
    static int (*next)(void **, size_t, size_t);
    if (!next) next = dlsym(RTLD_NEXT, "posix_memalign");
    if (is_refused()) return ENOMEM;
    return next(place, alignment, size);
}

void *aligned_alloc(size_t alignment, size_t size) {
    static void *(*next)(size_t, size_t);
    if (!next) next = dlsym(RTLD_NEXT, "aligned_alloc");
    if (is_refused()) { errno = ENOMEM; return NULL; }
    return next(alignment, size);
}

__attribute__((destructor)) static void tell(void) {
    if (getenv("COUNT_ALLOC")) dprintf(2, "%ld\n", count);
}
