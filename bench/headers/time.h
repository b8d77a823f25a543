/* Stand-in header: only what the benchmark uses. */
#ifndef STAND_IN_TIME_H
#define STAND_IN_TIME_H
struct timespec {
    long tv_sec, tv_nsec;
};
#define CLOCK_MONOTONIC 1
int clock_gettime(int, struct timespec *);
#endif
