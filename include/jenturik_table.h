/* A table of Jenturik as one struct: the calls of jenturik.h, with one pointer in place of seven
 * arguments. With arrays of your own:
 *
 *     static uint16_t left[512], right[512];
 *     static uint8_t colour[512];
 *     static jenturik_table t = {left, right, colour, 512, {0}};
 *
 * or in one piece of memory, JENTURIK_TABLE_BYTES(nodes) bytes:
 *
 *     jenturik_table t = jenturik_table_in(malloc(JENTURIK_TABLE_BYTES(512)), 512);
 *
 * Then:
 *
 *     if (jenturik_table_fresh(&t, 8).code != 0) return 1;
 *     jenturik_told a = jenturik_table_take(&t, 0, 0, 0, 0);
 *
 * jenturik_table_X does what jenturik_X of jenturik.h does, with the same answer. The number of
 * nodes is the struct's. What holds for the arrays and the words there holds for the struct's here:
 * read them between two calls (t.left[n], t.words[JENTURIK_CYCLES]), and do not write to them.
 */
#ifndef JENTURIK_TABLE_H
#define JENTURIK_TABLE_H

#include "jenturik.h"

typedef struct {
    uint16_t *left, *right;
    uint8_t *colour;
    size_t nodes; /* how many entries each of the arrays has */
    uint32_t words[JENTURIK_WORDS];
} jenturik_table;

/* How much memory the arrays of a table of so many nodes take. */
#define JENTURIK_TABLE_BYTES(nodes) (5 * (size_t)(nodes))

/* How the plain calls are given a table. */
#define JENTURIK_LEND(t)                                                                           \
    (t)->left, (t)->nodes, (t)->right, (t)->nodes, (t)->colour, (t)->nodes, (t)->words

/* A table in a piece of memory, aligned for uint16_t. If the pointer is null, it is a table of no
 * nodes, for which jenturik_table_fresh is refused. */
static inline jenturik_table jenturik_table_in(void *memory, size_t nodes) {
    jenturik_table t = {0, 0, 0, 0, {0}};
    if (memory != 0) {
        t.left = (uint16_t *)memory;
        t.right = t.left + nodes;
        t.colour = (uint8_t *)(t.right + nodes);
        t.nodes = nodes;
    }
    return t;
}

/* A number of nodes that does not fit 32 bits is refused: the arrays have other lengths then. */
JENTURIK_NODISCARD
static inline jenturik_told jenturik_table_fresh(jenturik_table *t, uint32_t slots) {
    return jenturik_fresh(JENTURIK_LEND(t), (uint32_t)t->nodes, slots);
}

/* The two lists have as many entries as the table has nodes. */
JENTURIK_NODISCARD
static inline jenturik_told jenturik_table_load(jenturik_table *t, const uint32_t *given_left,
                                                const uint32_t *given_right, uint32_t slots) {
    return jenturik_load(JENTURIK_LEND(t), given_left, t->nodes, given_right, t->nodes,
                         (uint32_t)t->nodes, slots);
}

JENTURIK_NODISCARD
static inline jenturik_told jenturik_table_look(const jenturik_table *t, uint32_t slot,
                                                uint32_t count, uint32_t word) {
    return jenturik_look(JENTURIK_LEND(t), slot, count, word);
}

JENTURIK_NODISCARD
static inline jenturik_told jenturik_table_in_use(const jenturik_table *t) {
    return jenturik_in_use(JENTURIK_LEND(t));
}

JENTURIK_NODISCARD
static inline jenturik_told jenturik_table_free_count(const jenturik_table *t) {
    return jenturik_free_count(JENTURIK_LEND(t));
}

JENTURIK_NODISCARD
static inline jenturik_told jenturik_table_link(jenturik_table *t, uint32_t slot, uint32_t count,
                                                uint32_t word, uint32_t side, uint32_t toslot,
                                                uint32_t tocount, uint32_t toword) {
    return jenturik_link(JENTURIK_LEND(t), slot, count, word, side, toslot, tocount, toword);
}

static inline jenturik_told jenturik_table_shade(jenturik_table *t) {
    return jenturik_shade(JENTURIK_LEND(t));
}

JENTURIK_NODISCARD
static inline jenturik_told jenturik_table_take(jenturik_table *t, uint32_t slot, uint32_t count,
                                                uint32_t word, uint32_t side) {
    return jenturik_take(JENTURIK_LEND(t), slot, count, word, side);
}

static inline jenturik_told jenturik_table_collect(jenturik_table *t) {
    return jenturik_collect(JENTURIK_LEND(t));
}

static inline jenturik_last jenturik_table_collect_many(jenturik_table *t, size_t n) {
    return jenturik_collect_many(JENTURIK_LEND(t), n);
}

JENTURIK_NODISCARD
static inline jenturik_freed jenturik_table_collect_freed(jenturik_table *t, size_t n,
                                                          uint16_t *freed, size_t freeds) {
    return jenturik_collect_freed(JENTURIK_LEND(t), n, freed, freeds);
}

JENTURIK_NODISCARD
static inline jenturik_done jenturik_table_schedule(jenturik_table *t, const uint32_t *steps,
                                                    size_t numbers) {
    return jenturik_schedule(JENTURIK_LEND(t), steps, numbers);
}

JENTURIK_NODISCARD
static inline jenturik_done
jenturik_table_schedule_steps(jenturik_table *t, const jenturik_step *steps, size_t count) {
    return jenturik_schedule_steps(JENTURIK_LEND(t), steps, count);
}

#endif
