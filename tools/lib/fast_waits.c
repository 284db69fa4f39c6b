/* Preloaded into a program, behind tools/lib/fast_clock.c: it waits FASTER times as short a time, on a futex, a socket, or asleep. */
#define _GNU_SOURCE
#include <dlfcn.h>
#include <linux/futex.h>
#include <poll.h>
#include <stdlib.h>
#include <sys/socket.h>
#include <sys/syscall.h>
#include <sys/time.h>
#include <time.h>

static double shorter(double seconds) {
    static double faster;
    if (faster == 0) faster = getenv("FASTER") ? atof(getenv("FASTER")) : 1;
    return seconds / faster;
}

static struct timespec shorter_time(const struct timespec *time) {
    double seconds = shorter((double)time->tv_sec + time->tv_nsec / 1e9);
    struct timespec out = {(time_t)seconds, (long)((seconds - (time_t)seconds) * 1e9)};
    return out;
}

/* (who has six arguments gives all; what is taken for the others is never looked at) */
long syscall(long number, long a, long b, long c, long d, long e, long f) {
    static long (*next)(long, long, long, long, long, long, long);
    if (!next) next = dlsym(RTLD_NEXT, "syscall");
    if (number == SYS_futex && (b & FUTEX_CMD_MASK) == FUTEX_WAIT && d) {
        struct timespec time = shorter_time((const struct timespec *)d);
        return next(number, a, b, c, (long)&time, e, f);
    }
    return next(number, a, b, c, d, e, f);
}

int nanosleep(const struct timespec *time, struct timespec *left) {
    static int (*next)(const struct timespec *, struct timespec *);
    if (!next) next = dlsym(RTLD_NEXT, "nanosleep");
    struct timespec short_time = shorter_time(time);
    return next(&short_time, left);
}

int poll(struct pollfd *found, nfds_t count, int milliseconds) {
    static int (*next)(struct pollfd *, nfds_t, int);
    if (!next) next = dlsym(RTLD_NEXT, "poll");
    return next(found, count, milliseconds > 0 ? (int)shorter(milliseconds) + 1 : milliseconds);
}

int setsockopt(int socket, int level, int option, const void *value, socklen_t size) {
    static int (*next)(int, int, int, const void *, socklen_t);
    if (!next) next = dlsym(RTLD_NEXT, "setsockopt");
    if (level == SOL_SOCKET && (option == SO_RCVTIMEO || option == SO_SNDTIMEO) && size == sizeof(struct timeval)) {
        const struct timeval *given = value;
        double seconds = shorter(given->tv_sec + given->tv_usec / 1e6);
        struct timeval time = {(time_t)seconds, (suseconds_t)((seconds - (time_t)seconds) * 1e6)};
        if (seconds > 0 && time.tv_sec == 0 && time.tv_usec == 0) time.tv_usec = 1;
        return next(socket, level, option, &time, size);
    }
    return next(socket, level, option, value, size);
}
