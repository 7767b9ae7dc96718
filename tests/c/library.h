/* The library as C calls it here, over plain.h's tables and records. */
#ifndef LIBRARY_H
#define LIBRARY_H
#include "jenturik.h"
#include "plain.h"

static inline jenturik_told library_collect(const struct table *t, uint32_t *w) {
    return jenturik_collect(t->left, t->lefts, t->right, t->rights, t->colour, t->colours, w);
}

static inline jenturik_last library_many(const struct table *t, uint32_t *w, size_t n) {
    return jenturik_collect_many(t->left, t->lefts, t->right, t->rights, t->colour, t->colours, w,
                                 n);
}

/* What a call that counts nodes answers. */
static inline struct answer asked(__typeof__(jenturik_in_use) *call, const struct table *t,
                                  const uint32_t *w) {
    jenturik_told a = call(t->left, t->lefts, t->right, t->rights, t->colour, t->colours, w);
    struct answer all = {a.what, a.code, a.detail, a.node};
    return all;
}

static inline void words_of(uint32_t *w, const struct record *x) {
    for (int i = JENTURIK_USED; i < JENTURIK_WORDS; i++) w[i] = 0;
    w[JENTURIK_NODES] = x->m, w[JENTURIK_SLOTS] = x->r;
    w[JENTURIK_PHASE] = x->phase, w[JENTURIK_I] = x->i;
    w[JENTURIK_K] = x->phase == SCAN || x->phase > APPEND ? x->k : 0;
    w[JENTURIK_OWES] = x->owes, w[JENTURIK_OWED] = x->owes ? x->owed : 0;
    w[JENTURIK_LAST] = x->last, w[JENTURIK_STEPS] = x->steps, w[JENTURIK_CYCLES] = x->cycles;
    w[JENTURIK_TOOK] = x->took, w[JENTURIK_BLACKENED] = x->blackened;
    w[JENTURIK_BLACKENED_LAST_CYCLE] = x->lastblackened, w[JENTURIK_FREE_COUNT] = x->free;
}
#endif
