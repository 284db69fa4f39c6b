/* Preloaded into `bepd` by tools/runs/bepd_refusals: lets the REFUSE-th allocation of the process fail (none where it
   is 0), or with a + behind the number that one and all after it, and keeps the number of allocations so far in the
   file COUNT. Of a program of several threads the order of allocations, and so which one fails, may differ from run to run. */
#define _GNU_SOURCE
#include <dlfcn.h>
#include <errno.h>
#include <fcntl.h>
#include <stdio.h>
#include <stdlib.h>
#include <unistd.h>

static unsigned long refuse, seen;
static int all_after, count = -1;
static void *(*next_malloc)(size_t);
static void *(*next_realloc)(void *, size_t);

__attribute__((constructor)) static void begin(void) {
    const char *nth = getenv("REFUSE"), *path = getenv("COUNT");
    next_malloc = dlsym(RTLD_NEXT, "malloc");
    next_realloc = dlsym(RTLD_NEXT, "realloc");
    char *behind = "";
    refuse = nth ? strtoul(nth, &behind, 10) : 0;
    all_after = refuse && *behind == '+';
    count = path ? open(path, O_WRONLY | O_CREAT | O_TRUNC, 0600) : -1;
    if (count >= 0 && pwrite(count, "0\n", 2, 0) != 2) abort();
    seen = 0;
}

static int is_refused(void) {
    char text[24];
    unsigned long nth = __atomic_add_fetch(&seen, 1, __ATOMIC_SEQ_CST);
    int len = snprintf(text, sizeof text, "%lu\n", nth);
    if (count >= 0 && pwrite(count, text, len, 0) != len) abort();
    if (all_after ? nth < refuse : nth != refuse) return 0;
    errno = ENOMEM;
    return 1;
}

void *malloc(size_t size) {
    if (!next_malloc) next_malloc = dlsym(RTLD_NEXT, "malloc");
    return is_refused() ? NULL : next_malloc(size);
}

void *realloc(void *old, size_t size) {
    if (!next_realloc) next_realloc = dlsym(RTLD_NEXT, "realloc");
    return is_refused() ? NULL : next_realloc(old, size);
}
