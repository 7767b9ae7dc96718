/* What the measurements share: numbers that look random and are the same in every run, nodes in
   order or shuffled, the clock, and medians. */
#ifndef TIMING_H
#define TIMING_H
#include <stdint.h>
#include <stdlib.h>
#include <time.h>

static uint32_t seed;

static inline uint32_t below(uint32_t n) {
    seed ^= seed << 13, seed ^= seed >> 17, seed ^= seed << 5;
    return seed % n;
}

/* The nodes from..to-1, in order or shuffled; answers how many. */
static inline uint32_t nodes_of(uint32_t *order, uint32_t from, uint32_t to, int shuffled) {
    uint32_t n = 0;
    for (uint32_t i = from; i < to; i++) order[n++] = i;
    for (uint32_t i = n; shuffled && i > 1; i--) {
        uint32_t j = below(i), k = order[i - 1];
        order[i - 1] = order[j], order[j] = k;
    }
    return n;
}

/* Nanoseconds. */
static inline double now(void) {
    struct timespec t;
    clock_gettime(CLOCK_MONOTONIC, &t);
    return t.tv_sec * 1e9 + t.tv_nsec;
}

static inline int by_size(const void *a, const void *b) {
    double x = *(const double *)a, y = *(const double *)b;
    return (x > y) - (x < y);
}

static inline double median(double *times, size_t n) {
    qsort(times, n, sizeof *times, by_size);
    return times[n / 2];
}
#endif
