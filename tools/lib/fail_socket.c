/* Preloaded into a program by tools/runs/node_runs: the file FAILING has two numbers of 64 bits, which the script changes while the program runs. The read or write of a
   connection with the first number fails, as one that the other end has reset, counted from when it was set, and none where it is 0; the second number counts them
   meanwhile. Only that one call fails: what is done with the connection after it would succeed. */
#define _GNU_SOURCE
#include <dlfcn.h>
#include <errno.h>
#include <fcntl.h>
#include <stdatomic.h>
#include <stdint.h>
#include <stdlib.h>
#include <sys/mman.h>
#include <sys/socket.h>
#include <unistd.h>

struct Failing {
    _Atomic uint64_t which, seen;
};

static struct Failing *failing;

__attribute__((constructor)) static void begin(void) {
    const char *path = getenv("FAILING");
    int file = path ? open(path, O_RDWR) : -1;
    if (file < 0) return;
    failing = mmap(NULL, sizeof *failing, PROT_READ | PROT_WRITE, MAP_SHARED, file, 0);
    if (failing == MAP_FAILED) abort();
    close(file);
}

static int fails(void) {
    if (!failing) return 0;
    uint64_t which = failing->which;
    if (!which || ++failing->seen != which) return 0;
    errno = ECONNRESET;
    return 1;
}

ssize_t recv(int file, void *to, size_t count, int flags) {
    static ssize_t (*next)(int, void *, size_t, int);
    if (!next) next = dlsym(RTLD_NEXT, "recv");
    return fails() ? -1 : next(file, to, count, flags);
}

ssize_t send(int file, const void *from, size_t count, int flags) {
    static ssize_t (*next)(int, const void *, size_t, int);
    if (!next) next = dlsym(RTLD_NEXT, "send");
    return fails() ? -1 : next(file, from, count, flags);
}
