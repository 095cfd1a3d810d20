/* Lets one sync of a file's bytes fail, by LD_PRELOAD: the one of the number UNSYNCED, counted from 1. */
#define _GNU_SOURCE
#include <dlfcn.h>
#include <errno.h>
#include <stdatomic.h>
#include <stdlib.h>

static atomic_ulong made;

int fdatasync(int file) {
    static int (*next)(int);
    const char *unsynced = getenv("UNSYNCED");
    if (!next)
        next = (int (*)(int))dlsym(RTLD_NEXT, "fdatasync");
    if (unsynced && atomic_fetch_add(&made, 1) + 1 == strtoul(unsynced, NULL, 10)) {
        errno = EIO;
        return -1;
    }
    return next(file);
}
