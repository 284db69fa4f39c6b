/* Preloaded into a program by tools/runs/peer_runs: the file REFUSING has four numbers of 64 bits, which the script changes while the program runs. The
   allocation of the first number fails, counted from when it was set, and none where it is 0; the second number counts them meanwhile. By the third and the fourth a thread
   can't be begun in the same way, as where there is no room for one. */
#define _GNU_SOURCE
#include <dlfcn.h>
#include <errno.h>
#include <fcntl.h>
#include <pthread.h>
#include <stdatomic.h>
#include <stddef.h>
#include <stdint.h>
#include <stdlib.h>
#include <sys/mman.h>
#include <unistd.h>

struct Refusing {
    _Atomic uint64_t which, seen;
};

static struct Refusing *allocations, *threads;

__attribute__((constructor)) static void begin(void) {
    const char *path = getenv("REFUSING");
    int file = path ? open(path, O_RDWR) : -1;
    if (file < 0) return;
    struct Refusing *both = mmap(NULL, 2 * sizeof *both, PROT_READ | PROT_WRITE, MAP_SHARED, file, 0);
    if (both == MAP_FAILED) abort();
    close(file);
    allocations = both;
    threads = both + 1;
}

static int is_refused(struct Refusing *it) {
    if (!it) return 0;
    uint64_t which = it->which;
    return which && ++it->seen == which;
}

void *malloc(size_t size) {
    static void *(*next)(size_t);
    if (!next) next = dlsym(RTLD_NEXT, "malloc");
    if (!is_refused(allocations)) return next(size);
    errno = ENOMEM;
    return NULL;
}

void *realloc(void *old, size_t size) {
    static void *(*next)(void *, size_t);
    if (!next) next = dlsym(RTLD_NEXT, "realloc");
    if (!is_refused(allocations)) return next(old, size);
    errno = ENOMEM;
    return NULL;
}

int pthread_create(pthread_t *thread, const pthread_attr_t *attr, void *(*start)(void *), void *given) {
    static int (*next)(pthread_t *, const pthread_attr_t *, void *(*)(void *), void *);
    if (!next) next = dlsym(RTLD_NEXT, "pthread_create");
    return is_refused(threads) ? EAGAIN : next(thread, attr, start, given);
}
