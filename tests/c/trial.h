/* What the tests of the calls share: random numbers, sound tables. */
#ifndef TRIAL_H
#define TRIAL_H

#include "calls.h"
#include "counting.h"

static lent t;
static table after;
static uint64_t seed = 88172645463325252u;

static inline uint32_t below(uint32_t n) {
    seed ^= seed << 13, seed ^= seed >> 7, seed ^= seed << 17;
    return (uint32_t)(seed >> 32) % n;
}

static inline void trial_open(void) {
    lent_open(&t);
    fence_open(&call_steps);
}

static inline void make_fresh(table *s, uint32_t m, uint32_t r) {
    s->lefts = s->rights = s->colours = m;
    lend(&t, s, 1);
    jenturik_told a = jenturik_fresh(LENT(&t), m, r);
    if (a.code != 0) fence_fail("no fresh table");
    if (a.changed != 0) fence_fail("fresh tells colours that it changed");
    take_back(&t, s);
}

/* A sound table: fresh, then random edits and collector steps. */
static inline void make_sound(table *s, uint32_t m, uint32_t r, uint32_t edits) {
    make_fresh(s, m, r);
    lend(&t, s, 1);
    for (; edits > 0; edits--) {
        if (below(2))
            jenturik_take(LENT(&t), below(r), 0, 0, below(2));
        else if (jenturik_link(LENT(&t), below(r), 1, below(2), below(2), below(r), 1, below(2))
                     .code == 0)
            jenturik_shade(LENT(&t));
        jenturik_collect_many(LENT(&t), below(4 * m));
    }
    take_back(&t, s);
}

#endif
