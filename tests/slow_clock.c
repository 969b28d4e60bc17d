/* For LD_PRELOAD: each look at the monotonic clock finds it a second later, so that what is told after a second is told at once. */
#define _GNU_SOURCE
#include <sys/syscall.h>
#include <time.h>
#include <unistd.h>

int clock_gettime(clockid_t clock, struct timespec *now) {
    static time_t looks;
    int answer = (int)syscall(SYS_clock_gettime, clock, now);
    if (answer == 0 && clock == CLOCK_MONOTONIC) now->tv_sec += ++looks;
    return answer;
}
