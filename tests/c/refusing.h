/* A table that every call must refuse. */
#ifndef REFUSING_H
#define REFUSING_H

#include "trial.h"

static table bad;

/* The table in the given phase, at a position of it, with node 2 owed or nothing. */
static inline void set_phase(table *s, uint32_t phase, uint32_t owes) {
    s->words[JENTURIK_PHASE] = phase;
    s->words[JENTURIK_I] = 1;
    s->words[JENTURIK_K] = phase == 1 || phase > 5 ? 3 : 0; /* k, or the number read */
    s->words[JENTURIK_OWES] = owes;
    s->words[JENTURIK_OWED] = 2 * owes;
}

/* Whether a call on the bad table is refused with the code, tells nothing else and changes nothing,
 * whichever page the arrays lie against. */
static inline int refuses(int which, uint32_t code) {
    int good = 1;
    for (int high = 0; high < 2; high++) {
        lend(&t, &bad, high);
        answer a = call(&t, which);
        take_back(&t, &after);
        good = good && a.code == code && a.what == 0 && a.node == 0 && a.done == 0 &&
               a.detail == 0 && a.changed == 0 && same(&bad, &after);
    }
    return good;
}

static inline void all_refuse(uint32_t code, const char *why, long n) {
    for (int which = 0; which < CALLS; which++)
        check(refuses(which, code), why, call_names[which], n);
}

#endif
