/* Preloaded into a program by tools/runs/disk_runs: what is wrong with the disk that the folder UNDER is on. Each call of the system on that folder, or on what is below it,
   adds a line to the file `calls` of the directory TROUBLES: `CALL PATH`, or `CALL PATH TO`. A path is the one from the folder on, which is `.` itself, whether the program
   names it so or by an open directory (`/proc/self/fd/N/NAME`). The file `lines` there has a line for each thing that is wrong from now on, and is read at each call:
       CALL END NUMBER          a call on a path with this end fails with this error
       CALL END later NUMBER    so does each but the first one on an open file or directory
       CALL END short           it takes one byte
       CALL END wait            it makes the file `here`, and waits while there is the file `latch`
   The end `*` is that of every path. The file `numbers` there has four numbers of 64 bits, which the script changes while the program runs: the call with the first number fails with the error that is the
   second, counted from when it was set, and none where it is 0; the call with the third number waits; the fourth counts the calls. */
#define _GNU_SOURCE
#include <dlfcn.h>
#include <errno.h>
#include <fcntl.h>
#include <stdarg.h>
#include <stdatomic.h>
#include <stdint.h>
#include <stdio.h>
#include <stdlib.h>
#include <string.h>
#include <sys/mman.h>
#include <sys/stat.h>
#include <time.h>
#include <unistd.h>

#define SHORT (-1)
#define FILES 1024
#define LENGTH 8192

struct Numbers {
    _Atomic uint64_t fails, error, waits, seen;
};

static const char *troubles, *under;
static struct Numbers *numbers;
/* How often each open file or directory was read. */
static atomic_int times[FILES];

static void *next(const char *name) { return dlsym(RTLD_NEXT, name); }

static int next_open(const char *path, int flags, int mode) { return ((int (*)(const char *, int, ...))next("open"))(path, flags, mode); }

static int next_close(int file) { return ((int (*)(int))next("close"))(file); }

static int open_here(const char *name, int flags) {
    char path[LENGTH];
    snprintf(path, sizeof path, "%s/%s", troubles, name);
    return next_open(path, flags | O_CLOEXEC, 0600);
}

__attribute__((constructor)) static void begin(void) {
    troubles = getenv("TROUBLES");
    under = getenv("UNDER");
    if (!troubles || !under) abort();
    int file = open_here("numbers", O_RDWR);
    if (file < 0) abort();
    numbers = mmap(NULL, sizeof *numbers, PROT_READ | PROT_WRITE, MAP_SHARED, file, 0);
    if (numbers == MAP_FAILED) abort();
    next_close(file);
}

/* The path of what is open as this; nothing where there is none. */
static void path_of(int file, char *found, size_t size) {
    char link[32];
    snprintf(link, sizeof link, "/proc/self/fd/%d", file);
    ssize_t length = ((ssize_t (*)(const char *, char *, size_t))next("readlink"))(link, found, size - 1);
    found[length < 0 ? 0 : length] = 0;
}

/* A path from the folder on; nothing where it isn't there. */
static const char *noted(int at, const char *path, char *made) {
    char whole[LENGTH];
    int file = -1, end = 0;
    *made = 0;
    if (!numbers) return made;
    if (!*path || (at != AT_FDCWD && *path != '/')) {
        path_of(at, whole, sizeof whole / 2);
        if (*path) snprintf(whole + strlen(whole), sizeof whole / 2, "/%s", path);
    } else if (sscanf(path, "/proc/self/fd/%d%n", &file, &end) == 1 && path[end] == '/') {
        path_of(file, whole, sizeof whole / 2);
        snprintf(whole + strlen(whole), sizeof whole / 2, "%s", path + end);
    } else {
        snprintf(whole, sizeof whole, "%s", path);
    }
    size_t size = strlen(whole), above = strlen(under);
    while (size > 1 && whole[size - 1] == '/') whole[--size] = 0;
    if (strncmp(whole, under, above) || (whole[above] && whole[above] != '/')) return made;
    snprintf(made, LENGTH, "%s", whole[above] ? whole + above + 1 : ".");
    return made;
}

static int has_end(const char *path, const char *end) {
    size_t all = strlen(path), some = strlen(end);
    if (!strcmp(end, "*")) return 1;
    return some <= all && !strcmp(path + all - some, end);
}

static void wait_here(void) {
    int file = open_here("here", O_WRONLY | O_CREAT);
    struct timespec pause = {0, 500000};
    char latch[LENGTH];
    if (file >= 0) next_close(file);
    snprintf(latch, sizeof latch, "%s/latch", troubles);
    while (!access(latch, F_OK)) nanosleep(&pause, NULL);
}

/* What is wrong by a line: the number of an error, SHORT or 0. */
static int wrong_by(const char *line, const char *call, const char *path, int before) {
    char name[16], end[300], what[16];
    int error = 0;
    if (sscanf(line, "%15s %299s %15s %d", name, end, what, &error) < 3 || strcmp(name, call) || !has_end(path, end)) return 0;
    if (!strcmp(what, "short")) return SHORT;
    if (!strcmp(what, "later")) return before ? error : 0;
    if (strcmp(what, "wait")) return atoi(what);
    wait_here();
    return 0;
}

/* What is wrong with a call, of which so many were before on what is open. */
static int wrong(const char *call, const char *path, const char *to, int before) {
    char text[4000];
    int file = open_here("calls", O_WRONLY | O_APPEND | O_CREAT), found = 0;
    if (file >= 0) {
        dprintf(file, *to ? "%s %s %s\n" : "%s %s\n", call, path, to);
        next_close(file);
    }
    uint64_t seen = ++numbers->seen;
    if (numbers->waits && seen == numbers->waits) wait_here();
    if (numbers->fails && seen == numbers->fails) return numbers->error;
    file = open_here("lines", O_RDONLY);
    if (file < 0) return 0;
    ssize_t size = ((ssize_t (*)(int, void *, size_t))next("read"))(file, text, sizeof text - 1);
    next_close(file);
    text[size < 0 ? 0 : size] = 0;
    for (char *line = text; line && *line && !found; line = strchr(line, '\n')) {
        if (*line == '\n') line++;
        found = wrong_by(line, call, path, before);
    }
    return found;
}

static int fails(int error) {
    if (error <= 0) return 0;
    errno = error;
    return 1;
}

static int opened(int file) {
    if (file >= 0 && file < FILES) times[file] = 0;
    return file;
}

int open(const char *path, int flags, ...) {
    va_list rest;
    va_start(rest, flags);
    int mode = flags & O_CREAT ? va_arg(rest, int) : 0;
    va_end(rest);
    char made[LENGTH];
    const char *name = noted(AT_FDCWD, path, made);
    if (*name && fails(wrong("open", name, "", 0))) return -1;
    return opened(next_open(path, flags, mode));
}

int openat(int at, const char *path, int flags, ...) {
    va_list rest;
    va_start(rest, flags);
    int mode = flags & O_CREAT ? va_arg(rest, int) : 0;
    va_end(rest);
    char made[LENGTH];
    const char *name = noted(at, path, made);
    if (*name && fails(wrong("open", name, "", 0))) return -1;
    return opened(((int (*)(int, const char *, int, ...))next("openat"))(at, path, flags, mode));
}

int statx(int at, const char *restrict path, int flags, unsigned mask, struct statx *restrict found) {
    char made[LENGTH];
    const char *call = !*path ? "fstat" : flags & AT_SYMLINK_NOFOLLOW ? "lstat" : "stat", *name = noted(at, path, made);
    if (*name && fails(wrong(call, name, "", 0))) return -1;
    return ((int (*)(int, const char *, int, unsigned, struct statx *))next("statx"))(at, path, flags, mask, found);
}

#define ON_A_PATH(name, given, passed)                              \
    int name given {                                                \
        char made[LENGTH];                                          \
        const char *it = noted(AT_FDCWD, path, made);               \
        if (*it && fails(wrong(#name, it, "", 0))) return -1;       \
        return ((int (*) given)next(#name)) passed;                 \
    }
ON_A_PATH(mkdir, (const char *path, mode_t mode), (path, mode))
ON_A_PATH(rmdir, (const char *path), (path))
ON_A_PATH(unlink, (const char *path), (path))

#define ON_TWO_PATHS(name)                                                            \
    int name(const char *path, const char *to) {                                      \
        char made[LENGTH], also[LENGTH];                                              \
        const char *it = noted(AT_FDCWD, path, made);                                 \
        if (*it && fails(wrong(#name, it, noted(AT_FDCWD, to, also), 0))) return -1;  \
        return ((int (*)(const char *, const char *))next(#name))(path, to);          \
    }
ON_TWO_PATHS(link)
ON_TWO_PATHS(rename)

#define ON_A_FILE(type, name, given, passed)                                                              \
    type name given {                                                                                     \
        char made[LENGTH];                                                                                \
        const char *path = noted(file, "", made);                                                         \
        int error = *path ? wrong(#name, path, "", file < FILES ? times[file]++ : 1) : 0;                 \
        if (fails(error)) return -1;                                                                      \
        if (error == SHORT && size > 1) size = 1;                                                         \
        return ((type (*) given)next(#name)) passed;                                                      \
    }
ON_A_FILE(ssize_t, read, (int file, void *bytes, size_t size), (file, bytes, size))
ON_A_FILE(ssize_t, write, (int file, const void *bytes, size_t size), (file, bytes, size))

#define ON_ALL_OF_A_FILE(type, name, given, passed)                                                       \
    type name given {                                                                                     \
        char made[LENGTH];                                                                                \
        const char *path = noted(file, "", made);                                                         \
        if (*path && fails(wrong(#name, path, "", file < FILES ? times[file]++ : 1))) return -1;          \
        return ((type (*) given)next(#name)) passed;                                                      \
    }
ON_ALL_OF_A_FILE(ssize_t, getdents64, (int file, void *names, size_t size), (file, names, size))
ON_ALL_OF_A_FILE(off_t, lseek, (int file, off_t to, int from), (file, to, from))
ON_ALL_OF_A_FILE(int, fsync, (int file), (file))
ON_ALL_OF_A_FILE(int, fdatasync, (int file), (file))
ON_ALL_OF_A_FILE(int, fchmod, (int file, mode_t mode), (file, mode))
ON_ALL_OF_A_FILE(int, futimens, (int file, const struct timespec both[2]), (file, both))
