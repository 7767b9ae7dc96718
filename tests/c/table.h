/* A table with its record as the tests keep it, and as it is lent to the library between fences. */
#ifndef TABLE_H
#define TABLE_H

#include "colours.h"
#include "fence.h"
#include "jenturik.h"

/* The words of a step that have a use come first. */
enum { MOST = 16384, STEP_USED = offsetof(jenturik_step, unused) / sizeof(uint32_t) };

typedef struct {
    uint32_t words[JENTURIK_WORDS];
    size_t lefts, rights, colours;
    uint16_t left[MOST], right[MOST];
    uint8_t colour[MOST];
} table;

/* What is lent. */
typedef struct {
    fence lefts, rights, colours, words;
    uint16_t *l, *r;
    uint8_t *c;
    uint32_t *w;
    size_t nl, nr, nc;
} lent;

/* The three arrays and the words, in the order of every call. */
#define LENT(t) (t)->l, (t)->nl, (t)->r, (t)->nr, (t)->c, (t)->nc, (t)->w

static inline void lent_open(lent *t) {
    fence_open(&t->lefts);
    fence_open(&t->rights);
    fence_open(&t->colours);
    fence_open(&t->words);
}

static inline void lend(lent *t, const table *from, int high) {
    t->nl = from->lefts;
    t->nr = from->rights;
    t->nc = from->colours;
    t->l = fence_lay(&t->lefts, from->left, 2 * t->nl, high);
    t->r = fence_lay(&t->rights, from->right, 2 * t->nr, high);
    t->c = fence_lay(&t->colours, from->colour, t->nc, high);
    t->w = fence_lay(&t->words, from->words, sizeof from->words, high);
}

/* Takes back what was lent; nothing beside it may have changed. */
static inline void take_back(const lent *t, table *to) {
    if (!fence_kept(&t->lefts) || !fence_kept(&t->rights) || !fence_kept(&t->colours) ||
        !fence_kept(&t->words))
        fence_fail("a call wrote outside its arrays");
    to->lefts = t->nl;
    to->rights = t->nr;
    to->colours = t->nc;
    memcpy(to->words, t->w, sizeof to->words);
    if (t->nl != 0) memcpy(to->left, t->l, 2 * t->nl);
    if (t->nr != 0) memcpy(to->right, t->r, 2 * t->nr);
    if (t->nc != 0) memcpy(to->colour, t->c, t->nc);
}

static inline int same(const table *a, const table *b) {
    return memcmp(a->words, b->words, sizeof a->words) == 0 && a->lefts == b->lefts &&
           a->rights == b->rights && a->colours == b->colours &&
           memcmp(a->left, b->left, 2 * a->lefts) == 0 &&
           memcmp(a->right, b->right, 2 * a->rights) == 0 &&
           memcmp(a->colour, b->colour, a->colours) == 0;
}

/* How many nodes are on the free list, walked. */
static inline uint32_t free_nodes(const uint16_t *left) {
    uint32_t n = 0;
    for (uint32_t node = left[1]; node != 0 && n < MOST; node = left[node]) n++;
    return n;
}

/* How many colours differ between a table before a call and after it. */
static inline uint32_t changes(const table *before, const table *after) {
    static uint8_t colour[MOST];
    memcpy(colour, before->colour, before->colours);
    return recoloured(colour, after->colour, after->colours);
}

static inline void lent_forbid(const lent *t, int forbid) {
    fence_forbid(&t->lefts, forbid);
    fence_forbid(&t->rights, forbid);
    fence_forbid(&t->colours, forbid);
    fence_forbid(&t->words, forbid);
}

/* In use, to which all is lent for reading only: a write would end the program. */
static inline jenturik_told ask(const lent *t) {
    lent_forbid(t, 1);
    jenturik_told a = jenturik_in_use(LENT(t));
    lent_forbid(t, 0);
    return a;
}

/* Free count, the same way. */
static inline jenturik_told ask_free(const lent *t) {
    lent_forbid(t, 1);
    jenturik_told a = jenturik_free_count(LENT(t));
    lent_forbid(t, 0);
    return a;
}

/* A step of a kind up to 4 by its own call. */
static inline jenturik_told own_call(lent *t, const uint32_t *s) {
    switch (s[0]) {
    case 0:
        return jenturik_take(LENT(t), s[1], s[2], s[3], s[4]);
    case 1:
        return jenturik_link(LENT(t), s[1], s[2], s[3], s[4], s[5], s[6], s[7]);
    case 2:
        return jenturik_shade(LENT(t));
    case 3:
        return jenturik_collect(LENT(t));
    default:
        return jenturik_look(LENT(t), s[1], s[2], s[3]);
    }
}

#endif
