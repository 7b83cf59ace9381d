// What the C programs of this repository use of C's <time.h>.
#pragma once
struct timespec {
    long tv_sec, tv_nsec;
};
#define CLOCK_MONOTONIC 1
int clock_gettime(int, struct timespec *);
