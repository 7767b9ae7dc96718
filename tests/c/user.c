/* What a program has beside the plain calls: the version [C 13], the bound [Record 11], what codes
 * mean, and the table as one struct, whose calls do and tell what the plain ones do. It is compiled
 * as C and as C++. The last line is 'N passed, M failed'. */
#include "jenturik_table.h"
#include <stdio.h>
#include <stdlib.h>
#include <string.h>

enum { M = 24, R = 3, CALLS = 4000 };

static unsigned passed, failed;
static jenturik_table t;

static void check(int good, const char *what, unsigned long n) {
    if (good) {
        passed++;
    } else {
        failed++;
        printf("user: %s (%lu)\n", what, n);
    }
}

static uint32_t below(uint32_t n) {
    static uint32_t x = 4;
    x = x * 1664525u + 1013904223u;
    return (uint32_t)(((uint64_t)x * n) >> 32);
}

static void version(void) {
    char text[32];
    snprintf(text, sizeof text, "%d.%d", JENTURIK_VERSION_MAJOR, JENTURIK_VERSION_MINOR);
    check(strcmp(text, JENTURIK_VERSION) == 0, "the version's text", 0);
    check(jenturik_version() == JENTURIK_VERSION_NUMBER, "the library's version",
          jenturik_version());
}

/* What a refusal means: a bad edge on each side of a slot, met by the collector. */
static void texts(void) {
    for (int side = 0; side < 2; side++) {
        check(jenturik_table_fresh(&t, R).code == 0, "a fresh table", M);
        (side == JENTURIK_LEFT ? t.left : t.right)[2] = M;
        jenturik_last a = jenturik_table_collect_many(&t, jenturik_bound(M, R));
        const char *text = jenturik_code_text(a.code, a.detail);
        check(a.code == JENTURIK_BAD_EDGE && a.detail == side && a.node == 2, "a bad edge", a.code);
        check(strstr(text, side == JENTURIK_LEFT ? "the left edge" : "the right edge") == text,
              "what a bad edge is", a.detail);
    }
}

/* As many steps of a cycle as the bound are too many, one less are not [Codes 2]. */
static void bound(uint32_t nodes, uint32_t slots) {
    void *memory = malloc(JENTURIK_TABLE_BYTES(nodes));
    jenturik_table t = jenturik_table_in(memory, nodes);
    check(jenturik_table_fresh(&t, slots).code == 0, "a fresh table", nodes);
    t.words[JENTURIK_STEPS] = (uint32_t)jenturik_bound(nodes, slots) - 1;
    check(jenturik_table_look(&t, 0, 0, 0).code == 0, "one step below the bound", nodes);
    t.words[JENTURIK_STEPS]++;
    check(jenturik_table_look(&t, 0, 0, 0).code == JENTURIK_BAD_RECORD, "the bound", nodes);
    free(memory);
}

/* The same table twice: for the plain calls and for the struct's. */
static uint16_t left[M], right[M];
static uint8_t colour[M];
static uint32_t words[JENTURIK_WORDS];
#define TABLE left, M, right, M, colour, M, words

static int same(void) {
    return memcmp(left, t.left, sizeof left) == 0 && memcmp(right, t.right, sizeof right) == 0 &&
           memcmp(colour, t.colour, sizeof colour) == 0 &&
           memcmp(words, t.words, sizeof words) == 0;
}

static int told(jenturik_told a, jenturik_told b) { return memcmp(&a, &b, sizeof a) == 0; }

static int done(jenturik_done a, jenturik_done b) { return memcmp(&a, &b, sizeof a) == 0; }

/* A random call by both ways: whether the answers are the same. */
static int both(void) {
    uint32_t slot = below(R + 1), count = below(3), word = below(2), side = below(2);
    uint32_t to = below(R), numbers[2 * JENTURIK_STEP_WORDS] = {3};
    jenturik_step steps[2] = {{below(5), slot, 0, 0, side, to, 1, word, {0}},
                              {3, 0, 0, 0, 0, 0, 0, 0, {0}}};
    uint16_t one[2] = {0, 0}, other[2] = {0, 0};
    jenturik_last a, b;
    jenturik_freed c, d;
    size_t n = below(60);
    switch (below(11)) {
    case 0:
        return told(jenturik_take(TABLE, slot, count, word, side),
                    jenturik_table_take(&t, slot, count, word, side));
    case 1:
        return told(jenturik_link(TABLE, slot, count, word, side, to, 1, word),
                    jenturik_table_link(&t, slot, count, word, side, to, 1, word));
    case 2:
        return told(jenturik_shade(TABLE), jenturik_table_shade(&t));
    case 3:
        return told(jenturik_look(TABLE, slot, count, word),
                    jenturik_table_look(&t, slot, count, word));
    case 4:
        return told(jenturik_in_use(TABLE), jenturik_table_in_use(&t));
    case 5:
        return told(jenturik_collect(TABLE), jenturik_table_collect(&t));
    case 6:
        return done(jenturik_schedule(TABLE, numbers, n), jenturik_table_schedule(&t, numbers, n));
    case 7:
        return done(jenturik_schedule_steps(TABLE, steps, n % 3),
                    jenturik_table_schedule_steps(&t, steps, n % 3));
    case 8:
        return told(jenturik_free_count(TABLE), jenturik_table_free_count(&t));
    case 9:
        c = jenturik_collect_freed(TABLE, 10 * n, one, n % 3);
        d = jenturik_table_collect_freed(&t, 10 * n, other, n % 3);
        return memcmp(&c, &d, sizeof c) == 0 && memcmp(one, other, sizeof one) == 0;
    default:
        a = jenturik_collect_many(TABLE, n);
        b = jenturik_table_collect_many(&t, n);
        return memcmp(&a, &b, sizeof a) == 0;
    }
}

static void calls(void) {
    uint32_t lefts[M], rights[M];
    unsigned wrong = 0;
    check(told(jenturik_fresh(TABLE, M, R), jenturik_table_fresh(&t, R)) && same(), "fresh", M);
    for (unsigned i = 0; i < CALLS; i++) wrong += !both() || !same();
    check(wrong == 0, "calls that differ", wrong);
    check(words[JENTURIK_CYCLES] > 10, "cycles completed", words[JENTURIK_CYCLES]);
    for (unsigned n = 0; n < M; n++) lefts[n] = left[n], rights[n] = right[n];
    check(told(jenturik_load(TABLE, lefts, M, rights, M, M, R),
               jenturik_table_load(&t, lefts, rights, R)) &&
              same() && words[JENTURIK_NODES] == M,
          "load", M);
}

/* Sizes that are refused: no memory, and a number of nodes that does not fit 32 bits. */
static void sizes(void) {
    jenturik_table none = jenturik_table_in(NULL, M), large = t;
    check(jenturik_table_fresh(&none, R).code == JENTURIK_BAD_SIZE, "no memory", 0);
    check(jenturik_table_in_use(&none).code == JENTURIK_BAD_SIZE, "a table of no nodes", 0);
    large.nodes = ((size_t)1 << 32) + M;
    check(jenturik_table_fresh(&large, R).code == JENTURIK_BAD_SIZE, "too many nodes", 0);
}

int main(void) {
    static uint16_t memory[(JENTURIK_TABLE_BYTES(M) + 1) / 2];
    t = jenturik_table_in(memory, M);
    version();
    texts();
    bound(3, 1);
    bound(66, 64);
    bound(500, 7);
    bound(4096, 64);
    calls();
    sizes();
    printf("%u passed, %u failed\n", passed, failed);
    return failed != 0;
}
