/* Preloaded into a program by tools/runs/crashes: numbers, over all threads and from 1 on, each call that changes the disk or waits for it, of regular files and directories
   below the directories UNDER (`:` between them). Before the call with the number KILL_AT the program kills itself. Of those that wait for the disk the one with the
   number FAIL_AT, counted alone, fails with EIO and isn't made. One call is made at a time, and after it a line is added to the file CALLS, by one write, with a blank
   between its words, in which a byte that doesn't print, a blank and a `%` are `%` and two hexadecimal digits:
       NUMBER TIME create INO MODE PATH       a file is made
       NUMBER TIME cut INO LENGTH PATH        it has this length now
       NUMBER TIME write INO OFFSET HEX PATH  these bytes were written
       NUMBER TIME sync INO PATH              a file or a directory has reached the disk
       NUMBER TIME lost INO PATH              that failed, so that what was written is not waited for any more
       NUMBER TIME times INO NANOSECONDS PATH
       NUMBER TIME mode INO MODE PATH
       NUMBER TIME make INO MODE PATH         a directory is made
       NUMBER TIME remove INO PATH            and removed
       NUMBER TIME unlink INO PATH
       NUMBER TIME link INO PATH TO
       NUMBER TIME rename INO PATH TO
       NUMBER TIME failed KIND ERROR PATH     a call that changed nothing
       NUMBER TIME other KIND PATH            a call that a model of the disk doesn't know
       NUMBER TIME killed KIND PATH           the call that was not made
   TIME is in nanoseconds. A path is the whole one, through no link, that the file had just before the call. Calls that would change nothing, as they name what isn't
   there or make what is, have no number. */
#define _GNU_SOURCE
#include <dlfcn.h>
#include <errno.h>
#include <fcntl.h>
#include <pthread.h>
#include <signal.h>
#include <stdarg.h>
#include <stdint.h>
#include <stdio.h>
#include <stdlib.h>
#include <string.h>
#include <sys/stat.h>
#include <sys/syscall.h>
#include <sys/types.h>
#include <sys/uio.h>
#include <time.h>
#include <unistd.h>

#define LENGTH 8192
#define LONGEST (1 << 22)

static pthread_mutex_t one = PTHREAD_MUTEX_INITIALIZER;
static long number, syncs;
static int calls = -1;
static char *line;
static size_t filled;

static void *next(const char *name) { return dlsym(RTLD_NEXT, name); }

/* A call of the system, past what is defined here. */
static long raw(long which, long a, long b, long c, long d, long e, long f) {
    static long (*found)(long, ...);
    if (!found) found = next("syscall");
    return found(which, a, b, c, d, e, f);
}

__attribute__((constructor)) static void begin(void) {
    const char *path = getenv("CALLS");
    line = malloc(2 * LONGEST + 4 * LENGTH);
    if (!line) abort();
    if (!path) return;
    int file = raw(SYS_openat, AT_FDCWD, (long)path, O_WRONLY | O_APPEND | O_CREAT | O_CLOEXEC, 0600, 0, 0);
    if (file < 0) abort();
    /* (so that the program's own files have the numbers that they have without this) */
    calls = raw(SYS_fcntl, file, F_DUPFD_CLOEXEC, 500, 0, 0, 0);
    raw(SYS_close, file, 0, 0, 0, 0, 0);
    if (calls < 0) abort();
}

/* ---- what is noted */

static void put(const char *format, ...) {
    va_list rest;
    va_start(rest, format);
    filled += vsnprintf(line + filled, LENGTH, format, rest);
    va_end(rest);
}

static void put_path(const char *path) {
    put(" ");
    for (; *path; path++) {
        unsigned char it = *path;
        if (it <= ' ' || it > '~' || it == '%') put("%%%02x", it);
        else line[filled++] = it;
    }
}

static void put_bytes(const unsigned char *from, size_t size) {
    static const char digits[] = "0123456789abcdef";
    put(" ");
    if (!size) put("-");
    for (size_t at = 0; at < size; at++) {
        line[filled++] = digits[from[at] >> 4];
        line[filled++] = digits[from[at] & 15];
    }
}

/* Begins a line of the call that has the number now. */
static void note(const char *kind) {
    struct timespec now;
    clock_gettime(CLOCK_REALTIME, &now);
    filled = 0;
    put("%ld %lld %s", number, now.tv_sec * 1000000000LL + now.tv_nsec, kind);
}

static void end_note(void) {
    put("\n");
    if (calls >= 0 && raw(SYS_write, calls, (long)line, filled, 0, 0, 0) != (long)filled) abort();
}

static void enter(void) { pthread_mutex_lock(&one); }

static void leave(void) {
    int error = errno;
    pthread_mutex_unlock(&one);
    errno = error;
}

static int is_at(const char *name, long which) {
    const char *at = getenv(name);
    return at && *at && atol(at) == which;
}

/* Gives a call its number. */
static void number_it(const char *kind, const char *path) {
    number++;
    if (!is_at("KILL_AT", number)) return;
    note("killed");
    put(" %s", kind);
    put_path(path);
    end_note();
    for (;;) raw(SYS_kill, getpid(), SIGKILL, 0, 0, 0, 0);
}

static void note_failed(const char *kind, const char *path) {
    int error = errno;
    note("failed");
    put(" %s %d", kind, error);
    put_path(path);
    end_note();
    errno = error;
}

/* ---- which files count */

static int is_under(const char *path) {
    const char *at = getenv("UNDER");
    while (at && *at) {
        size_t size = strcspn(at, ":");
        if (size && !strncmp(path, at, size) && (!path[size] || path[size] == '/')) return 1;
        at += size + (at[size] == ':');
    }
    return 0;
}

/* The whole path of what is open, through no link; nothing where there is none. */
static void path_of(int file, char *found) {
    char link[40];
    snprintf(link, sizeof link, "/proc/self/fd/%d", file);
    long length = raw(SYS_readlinkat, AT_FDCWD, (long)link, (long)found, LENGTH - 1, 0, 0);
    found[length < 0 ? 0 : length] = 0;
}

/* Whether a file is one that counts; then its path and its number are known. */
static int is_file(int file, char *path, ino_t *ino, int with_directories) {
    struct stat facts;
    int error = errno, found = 0;
    if (!fstat(file, &facts) && (S_ISREG(facts.st_mode) || (with_directories && S_ISDIR(facts.st_mode)))) {
        path_of(file, path);
        *ino = facts.st_ino;
        found = is_under(path);
    }
    errno = error;
    return found;
}

/* The whole path of a name that need not be there, of which no directory is a link. */
static int place_of(int at, const char *path, char *found) {
    char copy[LENGTH];
    size_t size = strlen(path);
    int error = errno;
    if (!size || size >= LENGTH - 1) return 0;
    memcpy(copy, path, size + 1);
    while (size > 1 && copy[size - 1] == '/') copy[--size] = 0;
    char *last = strrchr(copy, '/');
    const char *folder = !last ? "." : last == copy ? "/" : copy;
    char *name = last ? last + 1 : copy;
    if (last) *last = 0;
    int open = raw(SYS_openat, at, (long)folder, O_PATH | O_DIRECTORY | O_CLOEXEC, 0, 0, 0);
    if (open >= 0) {
        path_of(open, found);
        raw(SYS_close, open, 0, 0, 0, 0, 0);
        size = strlen(found);
        snprintf(found + size, LENGTH - size, "/%s", name);
    }
    errno = error;
    return open >= 0 && is_under(found);
}

/* What is at a path: its number, or 0. */
static ino_t number_of(const char *path, struct stat *facts) {
    int error = errno;
    ino_t found = lstat(path, facts) ? 0 : facts->st_ino;
    errno = error;
    return found;
}

/* ---- calls with a path */

static int opened(int at, const char *path, int flags, mode_t mode) {
    char whole[LENGTH];
    struct stat facts;
    if (!(flags & (O_CREAT | O_TRUNC)) || (flags & O_TMPFILE) == O_TMPFILE || !place_of(at, path, whole)) return raw(SYS_openat, at, (long)path, flags, mode, 0, 0);
    enter();
    int is_new = !number_of(whole, &facts), is_cut = !is_new && flags & O_TRUNC && S_ISREG(facts.st_mode) && facts.st_size;
    int counts = is_cut || (is_new && flags & O_CREAT);
    if (counts) number_it(is_new ? "create" : "cut", whole);
    int file = raw(SYS_openat, at, (long)path, flags, mode, 0, 0);
    if (counts && file < 0) {
        note_failed("open", whole);
    } else if (counts) {
        fstat(file, &facts);
        note(is_new ? "create" : "cut");
        put(is_new ? " %lu %o" : " %lu 0", (unsigned long)facts.st_ino, facts.st_mode & 07777);
        put_path(whole);
        end_note();
    }
    leave();
    return file;
}

/* A call that removes what is at a path, or makes a directory there. */
static int at_path(const char *kind, int at, const char *path, int is_made, long which, long flags) {
    char whole[LENGTH];
    struct stat facts;
    if (!place_of(at, path, whole)) return raw(which, at, (long)path, flags, 0, 0, 0);
    enter();
    ino_t ino = number_of(whole, &facts);
    int counts = is_made == !ino && (!ino || S_ISREG(facts.st_mode) || S_ISDIR(facts.st_mode));
    if (counts) number_it(kind, whole);
    int answer = raw(which, at, (long)path, flags, 0, 0, 0);
    if (counts && answer) {
        note_failed(kind, whole);
    } else if (counts) {
        if (is_made) ino = number_of(whole, &facts);
        note(kind);
        put(is_made ? " %lu %o" : " %lu", (unsigned long)ino, facts.st_mode & 07777);
        put_path(whole);
        end_note();
    }
    leave();
    return answer;
}

/* A call that gives what is at a path a second name, or another one. */
static int to_path(const char *kind, int at, const char *path, int to_at, const char *to, long which, long flags) {
    char whole[LENGTH], also[LENGTH];
    struct stat facts;
    if (!place_of(at, path, whole) || !place_of(to_at, to, also)) return raw(which, at, (long)path, to_at, (long)to, flags, 0);
    enter();
    ino_t ino = number_of(whole, &facts);
    int counts = ino && (which != SYS_linkat || !number_of(also, &facts));
    if (counts) number_it(kind, whole);
    int answer = raw(which, at, (long)path, to_at, (long)to, flags, 0);
    if (counts && answer) {
        note_failed(kind, whole);
    } else if (counts && which == SYS_renameat2 && flags & ~1L) {
        note("other");
        put(" exchange");
        put_path(whole);
        end_note();
    } else if (counts) {
        note(kind);
        put(" %lu", (unsigned long)ino);
        put_path(whole);
        put_path(also);
        end_note();
    }
    leave();
    return answer;
}

#define OPENS(name, given, at)                                                 \
    int name given {                                                           \
        mode_t mode = 0;                                                       \
        if (flags & (O_CREAT | O_TMPFILE)) {                                   \
            va_list rest;                                                      \
            va_start(rest, flags);                                             \
            mode = va_arg(rest, mode_t);                                       \
            va_end(rest);                                                      \
        }                                                                      \
        return opened(at, path, flags, mode);                                  \
    }
OPENS(open, (const char *path, int flags, ...), AT_FDCWD)
OPENS(open64, (const char *path, int flags, ...), AT_FDCWD)
OPENS(openat, (int at, const char *path, int flags, ...), at)
OPENS(openat64, (int at, const char *path, int flags, ...), at)

int creat(const char *path, mode_t mode) { return opened(AT_FDCWD, path, O_WRONLY | O_CREAT | O_TRUNC, mode); }
int mkdir(const char *path, mode_t mode) { return at_path("make", AT_FDCWD, path, 1, SYS_mkdirat, mode); }
int mkdirat(int at, const char *path, mode_t mode) { return at_path("make", at, path, 1, SYS_mkdirat, mode); }
int rmdir(const char *path) { return at_path("remove", AT_FDCWD, path, 0, SYS_unlinkat, AT_REMOVEDIR); }
int unlink(const char *path) { return at_path("unlink", AT_FDCWD, path, 0, SYS_unlinkat, 0); }
int unlinkat(int at, const char *path, int flags) { return at_path(flags & AT_REMOVEDIR ? "remove" : "unlink", at, path, 0, SYS_unlinkat, flags); }
int link(const char *path, const char *to) { return to_path("link", AT_FDCWD, path, AT_FDCWD, to, SYS_linkat, 0); }
int linkat(int at, const char *path, int to_at, const char *to, int flags) { return to_path("link", at, path, to_at, to, SYS_linkat, flags); }
int rename(const char *path, const char *to) { return to_path("rename", AT_FDCWD, path, AT_FDCWD, to, SYS_renameat2, 0); }
int renameat(int at, const char *path, int to_at, const char *to) { return to_path("rename", at, path, to_at, to, SYS_renameat2, 0); }
int renameat2(int at, const char *path, int to_at, const char *to, unsigned flags) { return to_path("rename", at, path, to_at, to, SYS_renameat2, flags); }

/* ---- calls with an open file */

/* Where a write without an offset begins. */
static off_t offset_of(int file) {
    struct stat facts;
    int flags = raw(SYS_fcntl, file, F_GETFL, 0, 0, 0, 0);
    if (flags >= 0 && flags & O_APPEND && !fstat(file, &facts)) return facts.st_size;
    return raw(SYS_lseek, file, 0, SEEK_CUR, 0, 0, 0);
}

/* A write, at an offset unless that is -1. It may take less than all, as any write. */
static ssize_t written(int file, const void *from, size_t size, off_t at) {
    char path[LENGTH];
    ino_t ino;
    if (!is_file(file, path, &ino, 0)) return at < 0 ? raw(SYS_write, file, (long)from, size, 0, 0, 0) : raw(SYS_pwrite64, file, (long)from, size, at, 0, 0);
    if (size > LONGEST) size = LONGEST;
    enter();
    number_it("write", path);
    off_t begin = at < 0 ? offset_of(file) : at;
    ssize_t done = at < 0 ? raw(SYS_write, file, (long)from, size, 0, 0, 0) : raw(SYS_pwrite64, file, (long)from, size, at, 0, 0);
    if (done < 0) {
        note_failed("write", path);
    } else {
        note("write");
        put(" %lu %lld", (unsigned long)ino, (long long)begin);
        put_bytes(from, done);
        put_path(path);
        end_note();
    }
    leave();
    return done;
}

static ssize_t written_parts(int file, const struct iovec *parts, int count, off_t at) {
    for (int it = 0; it < count; it++)
        if (parts[it].iov_len) return written(file, parts[it].iov_base, parts[it].iov_len, at);
    return 0;
}

static int synced(int file, long which) {
    char path[LENGTH];
    ino_t ino;
    if (!is_file(file, path, &ino, 1)) return raw(which, file, 0, 0, 0, 0, 0);
    enter();
    number_it("sync", path);
    int fails = is_at("FAIL_AT", ++syncs), answer = fails ? -1 : raw(which, file, 0, 0, 0, 0, 0);
    if (fails) errno = EIO;
    int error = errno;
    note(answer ? "lost" : "sync");
    put(" %lu", (unsigned long)ino);
    put_path(path);
    end_note();
    errno = error;
    leave();
    return answer;
}

static int is_cut_to(int file, off_t length) {
    char path[LENGTH];
    struct stat facts;
    ino_t ino;
    if (!is_file(file, path, &ino, 0) || (!fstat(file, &facts) && facts.st_size == length)) return raw(SYS_ftruncate, file, length, 0, 0, 0, 0);
    enter();
    number_it("cut", path);
    int answer = raw(SYS_ftruncate, file, length, 0, 0, 0, 0);
    if (answer) {
        note_failed("cut", path);
    } else {
        note("cut");
        put(" %lu %lld", (unsigned long)ino, (long long)length);
        put_path(path);
        end_note();
    }
    leave();
    return answer;
}

static int is_changed(const char *kind, int file, long which, long a, long b, long c) {
    char path[LENGTH];
    struct stat facts;
    ino_t ino;
    if (!is_file(file, path, &ino, 1)) return raw(which, file, a, b, c, 0, 0);
    enter();
    number_it(kind, path);
    int answer = raw(which, file, a, b, c, 0, 0);
    if (answer || fstat(file, &facts)) {
        note_failed(kind, path);
    } else {
        note(kind);
        if (!strcmp(kind, "times")) put(" %lu %lld", (unsigned long)ino, facts.st_mtim.tv_sec * 1000000000LL + facts.st_mtim.tv_nsec);
        else put(" %lu %o", (unsigned long)ino, facts.st_mode & 07777);
        put_path(path);
        end_note();
    }
    leave();
    return answer;
}

/* A call that the model of tools/runs/crashes doesn't know. */
static long is_other(const char *kind, int file, long which, long a, long b, long c, long d, long e, long f) {
    char path[LENGTH];
    ino_t ino;
    if (!is_file(file, path, &ino, 1)) return raw(which, a, b, c, d, e, f);
    enter();
    number_it(kind, path);
    long answer = raw(which, a, b, c, d, e, f);
    int error = errno;
    note("other");
    put(" %s", kind);
    put_path(path);
    end_note();
    errno = error;
    leave();
    return answer;
}

ssize_t write(int file, const void *from, size_t size) { return written(file, from, size, -1); }
ssize_t __write(int file, const void *from, size_t size) { return written(file, from, size, -1); }
ssize_t pwrite(int file, const void *from, size_t size, off_t at) { return written(file, from, size, at); }
ssize_t pwrite64(int file, const void *from, size_t size, off64_t at) { return written(file, from, size, at); }
ssize_t writev(int file, const struct iovec *parts, int count) { return written_parts(file, parts, count, -1); }
ssize_t pwritev(int file, const struct iovec *parts, int count, off_t at) { return written_parts(file, parts, count, at); }
int fsync(int file) { return synced(file, SYS_fsync); }
int fdatasync(int file) { return synced(file, SYS_fdatasync); }
int ftruncate(int file, off_t length) { return is_cut_to(file, length); }
int ftruncate64(int file, off64_t length) { return is_cut_to(file, length); }
int futimens(int file, const struct timespec times[2]) { return is_changed("times", file, SYS_utimensat, 0, (long)times, 0); }
int fchmod(int file, mode_t mode) { return is_changed("mode", file, SYS_fchmod, mode, 0, 0); }
int fallocate(int file, int mode, off_t at, off_t size) { return is_other("fallocate", file, SYS_fallocate, file, mode, at, size, 0, 0); }

static long called(long which, long a, long b, long c, long d, long e, long f) {
    switch (which) {
    case SYS_openat: return opened(a, (const char *)b, c, d);
    case SYS_write: return written(a, (const void *)b, c, -1);
    case SYS_pwrite64: return written(a, (const void *)b, c, d);
    case SYS_writev: return written_parts(a, (const struct iovec *)b, c, -1);
    case SYS_pwritev: return written_parts(a, (const struct iovec *)b, c, d);
    case SYS_fsync: case SYS_fdatasync: return synced(a, which);
    case SYS_ftruncate: return is_cut_to(a, b);
    case SYS_fchmod: return is_changed("mode", a, which, b, c, d);
    case SYS_utimensat: return b ? raw(which, a, b, c, d, e, f) : is_changed("times", a, which, b, c, d);
    case SYS_mkdirat: return at_path("make", a, (const char *)b, 1, which, c);
    case SYS_unlinkat: return at_path(c & AT_REMOVEDIR ? "remove" : "unlink", a, (const char *)b, 0, which, c);
    case SYS_linkat: return to_path("link", a, (const char *)b, c, (const char *)d, which, e);
    case SYS_renameat2: return to_path("rename", a, (const char *)b, c, (const char *)d, which, e);
#ifdef SYS_renameat
    case SYS_renameat: return to_path("rename", a, (const char *)b, c, (const char *)d, SYS_renameat2, 0);
#endif
#ifdef SYS_rename
    case SYS_rename: return to_path("rename", AT_FDCWD, (const char *)a, AT_FDCWD, (const char *)b, SYS_renameat2, 0);
#endif
    case SYS_fallocate: return is_other("fallocate", a, which, a, b, c, d, e, f);
    case SYS_copy_file_range: return is_other("copy_file_range", c, which, a, b, c, d, e, f);
    default: return raw(which, a, b, c, d, e, f);
    }
}

long syscall(long which, ...) {
    long given[6];
    va_list rest;
    va_start(rest, which);
    for (int it = 0; it < 6; it++) given[it] = va_arg(rest, long);
    va_end(rest);
    return called(which, given[0], given[1], given[2], given[3], given[4], given[5]);
}
