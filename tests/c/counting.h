/* How tests in C count. */
#ifndef COUNTING_H
#define COUNTING_H
#include <stdio.h>
#include <stdlib.h>

static long passed, failed;

/* Counts a check; the first twenty that fail are told. One is enough to find a wrong library. */
static inline void check(int good, const char *what, const char *name, long n) {
    if (good) {
        passed++;
        return;
    }
    failed++;
    if (failed <= 20) printf("FAILED: %s, %s, %ld\n", what, name, n);
    if (getenv("WRONG")) exit(1);
}

/* Says how many, and answers the status to end with. */
static inline int tally(void) {
    printf("%ld passed, %ld failed\n", passed, failed);
    return failed == 0 ? 0 : 1;
}

#endif
