/* Refuses one allocation of a program, by LD_PRELOAD: the one of the number REFUSED, counted from 1, and writes a line of it
 * to standard error. */
#define _GNU_SOURCE
#include <dlfcn.h>
#include <stdatomic.h>
#include <stdlib.h>
#include <unistd.h>

static atomic_ulong made;

static int is_refused(void) {
    static const char line[] = "one allocation was refused\n";
    const char *refused = getenv("REFUSED");
    if (!refused || atomic_fetch_add(&made, 1) + 1 != strtoul(refused, NULL, 10))
        return 0;
    return write(2, line, sizeof line - 1) > 0;
}

void *malloc(size_t size) {
    static void *(*next)(size_t);
    if (!next)
        next = (void *(*)(size_t))dlsym(RTLD_NEXT, "malloc");
    return is_refused() ? NULL : next(size);
}

void *realloc(void *old, size_t size) {
    static void *(*next)(void *, size_t);
    if (!next)
        next = (void *(*)(void *, size_t))dlsym(RTLD_NEXT, "realloc");
    return is_refused() ? NULL : next(old, size);
}
