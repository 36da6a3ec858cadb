/* What the comparisons share: random numbers that are the same in every run, and the time. */
#ifndef COMMON_H
#define COMMON_H

#include <stdint.h>
#include <time.h>

/* xorshift64*, with a fixed seed: every run has the same cases. */
#define SEED 0x9e3779b97f4a7c15u
static uint64_t seed = SEED;

static inline uint32_t below(uint32_t limit)
{
    seed ^= seed >> 12;
    seed ^= seed << 25;
    seed ^= seed >> 27;
    return (uint32_t)((seed * 0x2545f4914f6cdd1du >> 32) * limit >> 32);
}

static inline double now_ns(void)
{
    struct timespec t;
    clock_gettime(CLOCK_MONOTONIC, &t);
    return (double)t.tv_sec * 1e9 + (double)t.tv_nsec;
}

/* For qsort, of times. */
static inline int by_size(const void *a, const void *b)
{
    double x = *(const double *)a, y = *(const double *)b;
    return (x > y) - (x < y);
}

#endif
