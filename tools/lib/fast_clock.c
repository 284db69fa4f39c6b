/* Preloaded into a program: its clocks go FASTER times as fast from its start on, and the one that has the date is LATER seconds ahead, or behind where that is negative. */
#define _GNU_SOURCE
#include <dlfcn.h>
#include <stdlib.h>
#include <time.h>

static int (*next_gettime)(clockid_t, struct timespec *);

int clock_gettime(clockid_t clock, struct timespec *out) {
    static struct timespec begun[16];
    static double faster;
    if (!next_gettime) next_gettime = dlsym(RTLD_NEXT, "clock_gettime");
    int answer = next_gettime(clock, out);
    if (answer || clock < 0 || clock >= 16) return answer;
    if (faster == 0) faster = getenv("FASTER") ? atof(getenv("FASTER")) : 1;
    if (begun[clock].tv_sec == 0) begun[clock] = *out;
    double passed = (out->tv_sec - begun[clock].tv_sec) + (out->tv_nsec - begun[clock].tv_nsec) / 1e9;
    passed *= faster;
    out->tv_sec = begun[clock].tv_sec + (time_t)passed;
    out->tv_nsec = begun[clock].tv_nsec + (long)((passed - (time_t)passed) * 1e9);
    if (out->tv_nsec >= 1000000000) { out->tv_nsec -= 1000000000; out->tv_sec++; }
    if (clock == CLOCK_REALTIME && getenv("LATER")) out->tv_sec += atol(getenv("LATER"));
    return 0;
}
