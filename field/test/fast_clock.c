/* Loaded before the C library: the time of day goes faster. FAST_CLOCK has the machine's time at which that began, and what the clock
   shows then, both in nanoseconds since 1970, and how many times as fast it goes. All programs with the same FAST_CLOCK have one clock,
   whenever they were started. Timeouts and the other clocks stay as they are. */
#define _GNU_SOURCE
#include <stdio.h>
#include <stdlib.h>
#include <sys/syscall.h>
#include <sys/time.h>
#include <time.h>
#include <unistd.h>

#define SECOND 1000000000LL

static long long began, shown, speed;

static void go_faster(struct timespec *now) {
    if (!speed) {
        const char *text = getenv("FAST_CLOCK");
        if (!text || sscanf(text, "%lld %lld %lld", &began, &shown, &speed) != 3)
            began = shown = 0, speed = 1;
    }
    long long moment = shown + (now->tv_sec * SECOND + now->tv_nsec - began) * speed;
    now->tv_sec = moment / SECOND;
    now->tv_nsec = moment % SECOND;
}

int clock_gettime(clockid_t clock, struct timespec *now) {
    int status = syscall(SYS_clock_gettime, clock, now);
    if (!status && (clock == CLOCK_REALTIME || clock == CLOCK_REALTIME_COARSE))
        go_faster(now);
    return status;
}

int gettimeofday(struct timeval *restrict now, void *restrict zone) {
    struct timespec moment;
    (void)zone;
    clock_gettime(CLOCK_REALTIME, &moment);
    now->tv_sec = moment.tv_sec;
    now->tv_usec = moment.tv_nsec / 1000;
    return 0;
}

time_t time(time_t *now) {
    struct timespec moment;
    clock_gettime(CLOCK_REALTIME, &moment);
    if (now)
        *now = moment.tv_sec;
    return moment.tv_sec;
}
