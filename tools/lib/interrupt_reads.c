/* Preloaded into a program: each second read of its standard input, from the first on, is interrupted and gives nothing. */
#define _GNU_SOURCE
#include <dlfcn.h>
#include <errno.h>
#include <unistd.h>

ssize_t read(int file, void *to, size_t count) {
    static ssize_t (*next)(int, void *, size_t);
    static unsigned calls;
    if (!next) next = dlsym(RTLD_NEXT, "read");
    if (file == 0 && calls++ % 2 == 0) {
        errno = EINTR;
        return -1;
    }
    return next(file, to, count);
}
