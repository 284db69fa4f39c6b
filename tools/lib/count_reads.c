/* Preloaded into a program: for each regular file below the directory UNDER that it opens to read, a line is added to the file COUNTED, by one write: the time in
   nanoseconds (of the clock that never goes back), the thread, the number of the file on its disk, when it was changed there, in nanoseconds too, and its path in the directory,
   with a line feed in it as `?`. */
#define _GNU_SOURCE
#include <dlfcn.h>
#include <errno.h>
#include <fcntl.h>
#include <stdarg.h>
#include <stdio.h>
#include <stdlib.h>
#include <string.h>
#include <sys/stat.h>
#include <sys/syscall.h>
#include <time.h>
#include <unistd.h>

static int counted = -1;
static char under[4096];

__attribute__((constructor)) static void begin(void) {
    const char *to = getenv("COUNTED"), *from = getenv("UNDER");
    if (!to || !from || !realpath(from, under)) return;
    int file = syscall(SYS_openat, AT_FDCWD, to, O_WRONLY | O_APPEND | O_CREAT | O_CLOEXEC, 0600);
    if (file < 0) abort();
    /* (so that the program's own files have the numbers that they have without this) */
    counted = fcntl(file, F_DUPFD_CLOEXEC, 500);
    close(file);
    if (counted < 0) abort();
}

static int opened(int file, int flags) {
    int error = errno;
    struct stat found;
    if (file >= 0 && counted >= 0 && (flags & O_ACCMODE) != O_WRONLY && !(flags & O_PATH) && fstat(file, &found) == 0 && S_ISREG(found.st_mode)) {
        char link[64], path[4096], line[4300];
        snprintf(link, sizeof link, "/proc/self/fd/%d", file);
        ssize_t count = readlink(link, path, sizeof path - 1), at = strlen(under);
        if (count > at + 1 && memcmp(path, under, at) == 0 && path[at] == '/') {
            path[count] = 0;
            for (char *it = path; *it; it++) if (*it == '\n') *it = '?';
            struct timespec now;
            clock_gettime(CLOCK_MONOTONIC, &now);
            int size = snprintf(line, sizeof line, "%lld %ld %llu %lld %s\n", now.tv_sec * 1000000000LL + now.tv_nsec, syscall(SYS_gettid),
                                (unsigned long long)found.st_ino, found.st_ctim.tv_sec * 1000000000LL + found.st_ctim.tv_nsec, path + at + 1);
            if (write(counted, line, size) != size) abort();
        }
    }
    errno = error;
    return file;
}

#define OPENS(name, first, given) \
    int name(first const char *path, int flags, ...) { \
        static int (*next)(first const char *, int, ...); \
        if (!next) next = dlsym(RTLD_NEXT, #name); \
        va_list rest; \
        va_start(rest, flags); \
        mode_t mode = flags & (O_CREAT | __O_TMPFILE) ? va_arg(rest, mode_t) : 0; \
        va_end(rest); \
        return opened(next(given path, flags, mode), flags); \
    }
#define NOTHING
#define AT int at,
#define GIVEN at,

OPENS(open, NOTHING, NOTHING)
OPENS(open64, NOTHING, NOTHING)
OPENS(openat, AT, GIVEN)
OPENS(openat64, AT, GIVEN)
