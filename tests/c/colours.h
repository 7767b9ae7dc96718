/* Counts the colours that calls change, not by the rules but by comparing [Changes 1]. */
#ifndef COLOURS_H
#define COLOURS_H

#include <stddef.h>
#include <stdint.h>
#include <string.h>

/* How many of n colours are other ones than before. Then they are those before the next call. */
static inline uint32_t recoloured(uint8_t *before, const uint8_t *colour, size_t n) {
    uint32_t count = 0;
    if (n == 0 || memcmp(before, colour, n) == 0) return 0;
    for (size_t i = 0; i < n; i++) count += before[i] != colour[i];
    memcpy(before, colour, n);
    return count;
}

#endif
