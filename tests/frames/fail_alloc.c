/* Loaded by LD_PRELOAD, fails the nth allocation of the program; FAIL_ALLOC is n. */
#define _GNU_SOURCE
#include <dlfcn.h>
#include <errno.h>
#include <stddef.h>
#include <stdlib.h>

static int fails(void) {
    static long count, wanted = -1;
    if (wanted < 0) {
        const char *number = getenv("FAIL_ALLOC");
        wanted = number ? atol(number) : 0;
    }
    if (++count != wanted) return 0;
    errno = ENOMEM;
    return 1;
}

void *malloc(size_t size) {
    static void *(*real)(size_t);
    if (!real) real = (void *(*)(size_t))dlsym(RTLD_NEXT, "malloc");
    return fails() ? NULL : real(size);
}

void *realloc(void *old, size_t size) {
    static void *(*real)(void *, size_t);
    if (!real) real = (void *(*)(void *, size_t))dlsym(RTLD_NEXT, "realloc");
    return fails() ? NULL : real(old, size);
}
