/* The collector in plain C over a record, to compare with: one step, and many with memchr. peer.c
   has every call over words. */
#ifndef PLAIN_H
#define PLAIN_H
#include <stddef.h>
#include <stdint.h>

enum phase { ROOTS, SCAN, LEFT, RIGHT, BLACK, APPEND, SHADE_LEFT, SHADE_RIGHT };
enum kind {
    REFUSED,
    STARTED,
    NAMED,
    LINKED,
    TAKEN,
    SHADED,
    LOOKED,
    BLACKENED,
    WHITENED,
    APPENDED,
    COUNTED
};

struct record {
    uint16_t m, r, phase, i;
    uint16_t k;          /* Scan's k; in the phases that shade, the number read */
    uint16_t owes, owed; /* whether a shade is owed, and for which node */
    uint16_t last;
    uint32_t steps, cycles, took;
    uint16_t blackened, lastblackened, free;
};

struct answer {
    uint16_t kind, code, detail, node;
};

struct table {
    uint16_t *left, *right;
    uint8_t *colour;
    size_t lefts, rights, colours; /* the lengths */
};

int plain_check(const struct table *t, const struct record *x);
struct answer plain_step(const struct table *t, struct record *x);
size_t plain_many(const struct table *t, struct record *x, size_t n, struct answer *last);
#endif
