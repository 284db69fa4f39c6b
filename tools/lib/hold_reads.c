/* Preloaded into a program: while there is a file at the path HOLDING, what reads a file named "held" at an offset waits. */
#define _GNU_SOURCE
#include <dlfcn.h>
#include <stdio.h>
#include <stdlib.h>
#include <string.h>
#include <sys/types.h>
#include <unistd.h>

static void hold(int file) {
    char link[64], path[4096];
    const char *holding = getenv("HOLDING");
    snprintf(link, sizeof link, "/proc/self/fd/%d", file);
    ssize_t count = readlink(link, path, sizeof path - 1);
    if (!holding || count < 5 || memcmp(path + count - 5, "/held", 5)) return;
    while (access(holding, F_OK) == 0) usleep(1000);
}

ssize_t pread(int file, void *to, size_t count, off_t at) {
    static ssize_t (*next)(int, void *, size_t, off_t);
    if (!next) next = dlsym(RTLD_NEXT, "pread");
    hold(file);
    return next(file, to, count, at);
}

ssize_t pread64(int file, void *to, size_t count, off64_t at) {
    static ssize_t (*next)(int, void *, size_t, off64_t);
    if (!next) next = dlsym(RTLD_NEXT, "pread64");
    hold(file);
    return next(file, to, count, at);
}

ssize_t read(int file, void *to, size_t count) {
    static ssize_t (*next)(int, void *, size_t);
    if (!next) next = dlsym(RTLD_NEXT, "read");
    hold(file);
    return next(file, to, count);
}
