/* Preloaded into a program by tools/runs/wire_runs: what sends bytes over a socket adds a line with their number to the file SENDS first, and then waits while there is
   a file at the path HOLDING. */
#define _GNU_SOURCE
#include <dlfcn.h>
#include <fcntl.h>
#include <stdio.h>
#include <stdlib.h>
#include <sys/types.h>
#include <unistd.h>

ssize_t send(int file, const void *from, size_t count, int flags) {
    static ssize_t (*next)(int, const void *, size_t, int);
    const char *sends = getenv("SENDS"), *holding = getenv("HOLDING");
    int noted = sends ? open(sends, O_WRONLY | O_APPEND | O_CREAT, 0600) : -1;
    if (!next) next = dlsym(RTLD_NEXT, "send");
    if (noted >= 0) {
        dprintf(noted, "%zu\n", count);
        close(noted);
    }
    while (holding && access(holding, F_OK) == 0) usleep(1000);
    return next(file, from, count, flags);
}
