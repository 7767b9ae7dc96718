/* The two lists of edges that jenturik_load is given, as the tests keep them and as they are lent:
 * between fences, and where a write would end the program. */
#ifndef LISTS_H
#define LISTS_H

#include "table.h"

typedef struct {
    size_t lefts, rights;
    uint32_t left[MOST], right[MOST];
} lists;

static fence list_left, list_right;

static inline void lists_open(void) {
    fence_open(&list_left);
    fence_open(&list_right);
}

static inline jenturik_told load(lent *t, const lists *g, uint32_t nodes, uint32_t slots,
                                 int high) {
    const uint32_t *l = fence_lay(&list_left, g->left, 4 * g->lefts, high);
    const uint32_t *r = fence_lay(&list_right, g->right, 4 * g->rights, high);
    fence_forbid(&list_left, 1), fence_forbid(&list_right, 1);
    jenturik_told a = jenturik_load(LENT(t), l, g->lefts, r, g->rights, nodes, slots);
    fence_forbid(&list_left, 0), fence_forbid(&list_right, 0);
    return a;
}

#endif
