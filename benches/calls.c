/* Measures every call of the library as C links it against the same calls in plain C
   (tests/c/peer.c), compiled by gcc and by clang. calls OUT.csv [CALL]: prints a line for each
   call, table and number of nodes, and writes them to OUT.csv; with CALL only that one's. A time is
   the median of many rounds. In a round the variants take turns on the same table, another one
   first in each round, and all must leave the same table and record and answer the same. Each round
   has another random table of its kind, at another moment of the collector's cycle, so that the
   processor does not learn one table's branches by heart. */
#include "jenturik.h"
#include "timing.h"
#include <stdio.h>
#include <string.h>

#define NAMES(X)                                                                                   \
    X(fresh)                                                                                       \
    X(load) X(look) X(in_use) X(free_count) X(link) X(shade) X(take) X(collect) X(collect_many)    \
        X(schedule)
#define POINTER(name) __typeof__(jenturik_##name) *name;
#define OF_GCC(name) extern __typeof__(jenturik_##name) gcc_##name;
#define OF_CLANG(name) extern __typeof__(jenturik_##name) clang_##name;
#define OURS(name) jenturik_##name,
#define GCCS(name) gcc_##name,
#define CLANGS(name) clang_##name,
NAMES(OF_GCC)
NAMES(OF_CLANG)

enum { LIBRARY, GCC, CLANG, VARIANTS };
static const struct calls {
    NAMES(POINTER)
} variants[VARIANTS] = {{NAMES(OURS)}, {NAMES(GCCS)}, {NAMES(CLANGS)}};

enum { MOST = 4096, CALLS = 1000, ROUNDS = 301 };

/* A table, its record, and what was answered. */
static struct state {
    uint16_t left[MOST], right[MOST];
    uint8_t colour[MOST];
    uint32_t w[JENTURIK_WORDS];
    jenturik_told told[CALLS];
    jenturik_last last[CALLS];
    jenturik_done done;
} begun, now_at, first;
static uint32_t m, r;

#define TABLE now_at.left, m, now_at.right, m, now_at.colour, m, now_at.w

/* What the calls are given: places, sides, the steps of a schedule, lists. */
static struct place { uint32_t slot, count, word; } from[CALLS], to[CALLS];
static uint32_t sides[CALLS], nodes[CALLS], lefts[MOST], rights[MOST];
static jenturik_step steps[CALLS];

enum { IN_ORDER, SHUFFLED, HALF, EMPTY, TABLES };
static const char *const table_names[TABLES] = {"in order", "shuffled", "half live", "garbage"};

/* All nodes but the slots' are free, in order or shuffled; or the lower half is live, with random
   edges, and the upper half free and shuffled; or all but the slots' are garbage. */
static void make_table(int kind) {
    static uint32_t order[MOST];
    uint32_t live = kind == HALF ? m / 2 : r + 2, last = 1;
    memset(&begun, 0, sizeof begun);
    uint32_t n = kind == EMPTY ? 0 : nodes_of(order, live, m, kind != IN_ORDER);
    for (uint32_t i = 0; i < n; i++) begun.left[last] = order[i], last = order[i];
    for (uint32_t i = 2; kind == HALF && i < live; i++)
        begun.left[i] = 2 + below(live - 2), begun.right[i] = 2 + below(live - 2);
    for (uint32_t i = r + 2; kind == EMPTY && i < m; i++)
        begun.left[i] = 2 + below(m - 2), begun.right[i] = 2 + below(m - 2);
    for (uint32_t i = 0; i < m; i++) lefts[i] = begun.left[i], rights[i] = begun.right[i];
    begun.w[JENTURIK_NODES] = m, begun.w[JENTURIK_SLOTS] = r;
    begun.w[JENTURIK_LAST] = last, begun.w[JENTURIK_FREE_COUNT] = n;
}

/* How many steps the first cycle has. */
static size_t cycle(void) {
    now_at = begun;
    while (now_at.w[JENTURIK_CYCLES] == 0)
        if (jenturik_collect_many(TABLE, m).code != 0) exit(1);
    return now_at.w[JENTURIK_TOOK];
}

/* So many steps of the collector are made before what is measured. */
static void move_on(size_t n) {
    now_at = begun;
    if (jenturik_collect_many(TABLE, n).code != 0) exit(1);
    begun = now_at;
}

static struct place place(int kind) {
    uint32_t count = kind == HALF ? below(4) : 0;
    return (struct place){below(r), count, below(1u << count)};
}

/* A schedule that a program could make: takes, links with their shades, looks, collector steps. */
static void make_step(int k) {
    static const uint32_t kinds[8] = {3, 1, 2, 3, 4, 3, 0, 3};
    struct place q = to[k];
    uint32_t kind = k % 64 == 6 || kinds[k % 8] != 0 ? kinds[k % 8] : 3;
    steps[k] = (jenturik_step){kind, from[k].slot, 0, 0, sides[k], q.slot, q.count, q.word, {0}};
}

enum { FRESH, LOAD, IN_USE, FREE_COUNT, LOOK, LINK, SHADE, TAKE, COLLECT, SCHEDULE, MANY, PART };
enum { CYCLE, ROOTS, MARKING, SWEEP };
static const struct row {
    const char *name;
    int call, times, turns; /* how often it is called in a turn, and how many turns it has */
    size_t n;               /* how many steps a call makes, or which part of a cycle */
} rows[] = {{"fresh", FRESH, 10, 3, 1},
            {"load", LOAD, 1, 3, 1},
            {"in use", IN_USE, 1, 3, 1},
            {"free count", FREE_COUNT, CALLS, 1, 1},
            {"look", LOOK, CALLS, 1, 1},
            {"link", LINK, CALLS, 1, 1},
            {"shade", SHADE, CALLS, 1, 1},
            {"take", TAKE, 24, 40, 1},
            {"collect", COLLECT, CALLS, 1, 1},
            {"schedule, a step", SCHEDULE, 1, 1, CALLS},
            {"many, n = 1", MANY, CALLS, 1, 1},
            {"many, n = 10", MANY, CALLS, 1, 10},
            {"many, n = 100", MANY, 200, 1, 100},
            {"many, n = 1000", MANY, 50, 1, 1000},
            {"many, n = 10000", MANY, 10, 1, 10000},
            {"many, n = 1000000", MANY, 1, 1, 1000000},
            {"cycle, a node", PART, 1, 1, CYCLE},
            {"roots, a node", PART, 1, 1, ROOTS},
            {"marking, a node", PART, 1, 1, MARKING},
            {"sweep, a node", PART, 1, 1, SWEEP}};
static size_t part; /* the steps of the part of a cycle that is measured */

/* To the beginning of a part of the cycle. */
static void to_part(size_t which) {
    size_t all = cycle(), roots = r + 2, marking = all - m - roots;
    size_t before[] = {0, 0, roots, roots + marking}, steps_of[] = {all, roots, marking, m};
    part = steps_of[which];
    move_on(before[which]);
}

static void make(const struct row *row, int kind) {
    make_table(kind);
    if (row->call == PART)
        to_part(row->n);
    else
        move_on(below((uint32_t)cycle()));
    for (int k = 0; k < CALLS; k++) {
        from[k] = place(kind), to[k] = place(kind), sides[k] = below(2);
        nodes[k] = 2 + below(m - 2);
        make_step(k);
    }
}

/* A turn of a variant. Each link finds that nothing is owed, and each shade that a node is. */
static void turn(const struct calls *c, const struct row *row) {
    uint32_t *w = now_at.w;
    jenturik_told *told = now_at.told;
    for (int k = 0; k < row->times; k++) {
        struct place p = from[k], q = to[k];
        switch (row->call) {
        case FRESH:
            told[k] = c->fresh(TABLE, m, r);
            break;
        case LOAD:
            told[k] = c->load(TABLE, lefts, m, rights, m, m, r);
            break;
        case IN_USE:
            told[k] = c->in_use(TABLE);
            break;
        case FREE_COUNT:
            told[k] = c->free_count(TABLE);
            break;
        case LOOK:
            told[k] = c->look(TABLE, p.slot, p.count, p.word);
            break;
        case LINK:
            w[JENTURIK_OWES] = 0, w[JENTURIK_OWED] = 0;
            told[k] = c->link(TABLE, p.slot, p.count, p.word, sides[k], q.slot, q.count, q.word);
            break;
        case SHADE:
            w[JENTURIK_OWES] = 1, w[JENTURIK_OWED] = nodes[k];
            told[k] = c->shade(TABLE);
            break;
        case TAKE:
            told[k] = c->take(TABLE, p.slot, 0, 0, sides[k]);
            break;
        case COLLECT:
            told[k] = c->collect(TABLE);
            break;
        case SCHEDULE:
            now_at.done = c->schedule(TABLE, (const uint32_t *)steps, JENTURIK_STEP_WORDS * row->n);
            break;
        case MANY:
            now_at.last[k] = c->collect_many(TABLE, row->n);
            break;
        case PART:
            now_at.last[k] = c->collect_many(TABLE, part);
            break;
        }
    }
}

static double times[VARIANTS][ROUNDS], medians[VARIANTS];

/* What a call takes in the turns of a variant, in ns; in a schedule a step, and of a part of a
   cycle the time for each node of the table. */
static double timed(const struct calls *c, const struct row *row) {
    double spent = 0, of = row->call == SCHEDULE ? row->n : row->call == PART ? m : 1;
    for (int k = 0; k < row->turns; k++) {
        now_at = begun;
        double t = now();
        turn(c, row);
        spent += now() - t;
    }
    return spent / row->turns / row->times / of;
}

static void measure(const struct row *row, int kind) {
    seed = 2463534242u;
    for (int round = 0; round < ROUNDS; round++) {
        make(row, kind);
        for (int j = 0; j < VARIANTS; j++) {
            int v = (round + j) % VARIANTS;
            times[v][round] = timed(variants + v, row);
            if (j == 0) first = now_at;
            if (memcmp(&now_at, &first, sizeof first) != 0)
                fprintf(stderr, "calls: variants differ: %s, %s, M = %u\n", row->name,
                        table_names[kind], m),
                    exit(1);
        }
    }
    for (int v = 0; v < VARIANTS; v++) medians[v] = median(times[v], ROUNDS);
}

/* Whether every call of the last turn was done. */
static void must_be_done(const struct row *row, int kind) {
    uint32_t codes = first.done.code;
    for (int k = 0; k < row->times; k++) codes |= first.told[k].code | first.last[k].code;
    if (codes != 0)
        fprintf(stderr, "calls: refused: %s, %s, M = %u\n", row->name, table_names[kind], m),
            exit(1);
}

static void show(FILE *csv, const struct row *row, int kind) {
    double best = medians[GCC] < medians[CLANG] ? medians[GCC] : medians[CLANG];
    printf("%-18s %-9s %5u %10.4g %10.4g %10.4g %7.2f\n", row->name, table_names[kind], m,
           medians[LIBRARY], medians[GCC], medians[CLANG], medians[LIBRARY] / best);
    fflush(stdout);
    fprintf(csv, "\"%s\",%s,%u,%.5g,%.5g,%.5g,%.3f\n", row->name, table_names[kind], m,
            medians[LIBRARY], medians[GCC], medians[CLANG], medians[LIBRARY] / best);
}

int main(int argc, char **argv) {
    static const uint32_t sizes[] = {64, 512, 4096};
    FILE *csv = argc == 2 || argc == 3 ? fopen(argv[1], "w") : NULL;
    if (csv == NULL) return fprintf(stderr, "calls OUT.csv [CALL]\n"), 2;
    fputs("call,table,m,library_ns,gcc_ns,clang_ns,ratio\n", csv);
    printf("%-18s %-9s %5s %10s %10s %10s %7s\n", "call", "table", "M", "library", "gcc", "clang",
           "ratio");
    for (size_t k = 0; k < sizeof rows / sizeof *rows; k++)
        for (int kind = 0; kind < (rows[k].call == PART ? TABLES : EMPTY); kind++)
            for (int s = 0; s < 3; s++) {
                if (argc == 3 && strncmp(argv[2], rows[k].name, strlen(argv[2])) != 0) continue;
                m = sizes[s], r = m < 128 ? 16 : 64;
                measure(rows + k, kind);
                must_be_done(rows + k, kind);
                show(csv, rows + k, kind);
            }
    return fclose(csv);
}
