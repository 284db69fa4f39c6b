/* Preloaded into a program: while there is a file at the path FULL, the disk has no room for a byte more of a temporary file, or, where FULL_AT is a path, of those
   files whose paths begin with it. */
#define _GNU_SOURCE
#include <dlfcn.h>
#include <errno.h>
#include <stdio.h>
#include <stdlib.h>
#include <string.h>
#include <sys/types.h>
#include <unistd.h>

static int is_refused(int file) {
    char link[64], path[4096];
    const char *full = getenv("FULL"), *at = getenv("FULL_AT");
    snprintf(link, sizeof link, "/proc/self/fd/%d", file);
    ssize_t count = readlink(link, path, sizeof path - 1);
    if (!full || count < 4) return 0;
    path[count] = 0;
    if (at ? strncmp(path, at, strlen(at)) : strcmp(path + count - 4, ".tmp")) return 0;
    if (access(full, F_OK)) return 0;
    errno = ENOSPC;
    return 1;
}

ssize_t write(int file, const void *from, size_t count) {
    static ssize_t (*next)(int, const void *, size_t);
    if (!next) next = dlsym(RTLD_NEXT, "write");
    return is_refused(file) ? -1 : next(file, from, count);
}

ssize_t pwrite(int file, const void *from, size_t count, off_t at) {
    static ssize_t (*next)(int, const void *, size_t, off_t);
    if (!next) next = dlsym(RTLD_NEXT, "pwrite");
    return is_refused(file) ? -1 : next(file, from, count, at);
}

ssize_t pwrite64(int file, const void *from, size_t count, off64_t at) {
    static ssize_t (*next)(int, const void *, size_t, off64_t);
    if (!next) next = dlsym(RTLD_NEXT, "pwrite64");
    return is_refused(file) ? -1 : next(file, from, count, at);
}
