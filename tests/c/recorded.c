/* recorded SEED FILE: makes random calls, with arguments in range and out of it, records them in
 * FILE, and prints what ./jenturik must print for FILE: the code and the node of each call. The
 * node of a collector's line is the position before its last step [Program 14], which is seen on a
 * copy of the table. A copy has words of its own, so that its calls are not recorded. */
#include "jenturik_record.h"
#include "jenturik_table.h"
#include <stdlib.h>
#include <string.h>

enum { MOST = 40, OUT = 1 << 16 };

static uint16_t memory[3 * MOST], other[3 * MOST];
static jenturik_table t, copy;
static uint32_t r, x;
static char out[OUT];
static size_t length;

static uint32_t below(uint32_t n) {
    x = x * 1664525u + 1013904223u;
    return (uint32_t)(((uint64_t)x * n) >> 32);
}

static int one_in(uint32_t n) { return below(n) == 0; }

static uint32_t expect(uint32_t code, uint32_t node) {
    length += (size_t)snprintf(out + length, OUT - length, "code=%u node=%u\n", (unsigned)code,
                               (unsigned)node);
    return code;
}

static uint32_t expect_told(jenturik_told a) { return expect(a.code, a.node); }

static void make_copy(void) {
    copy = jenturik_table_in(other, t.nodes);
    memcpy(other, memory, sizeof memory);
    memcpy(copy.words, t.words, sizeof t.words);
}

/* Numbers in range more often than not. */
static uint32_t some_slot(void) {
    static const uint32_t beyond[] = {63, 64, 98, 99, 100, 10000000, UINT32_MAX};
    return one_in(12) ? beyond[below(7)] : below(r);
}

static uint32_t some_count(void) {
    static const uint32_t beyond[] = {11, 12, 13, 14, 32, 33, UINT32_MAX};
    return one_in(12) ? beyond[below(7)] : below(3);
}

static uint32_t some_word(uint32_t count) {
    if (one_in(12)) return x;
    return below(count < 12 ? 1u << count : 4096);
}

static uint32_t some_side(void) {
    static const uint32_t beyond[] = {2, 255, UINT32_MAX};
    return one_in(12) ? beyond[below(3)] : below(2);
}

/* A step, as a schedule is given it. */
static jenturik_step some_step(void) {
    static const uint32_t kinds[] = {0, 0, 0, 1, 1, 2, 2, 3, 3, 4};
    jenturik_step s = {0, 0, 0, 0, 0, 0, 0, 0, {0}};
    s.kind = kinds[below(10)];
    s.slot = some_slot(), s.count = some_count(), s.word = some_word(s.count);
    s.side = some_side();
    s.toslot = some_slot(), s.tocount = some_count(), s.toword = some_word(s.tocount);
    return s;
}

/* A step by its own call. */
static jenturik_told own_call(jenturik_table *to, const jenturik_step *s) {
    switch (s->kind) {
    case 0:
        return jenturik_table_take(to, s->slot, s->count, s->word, s->side);
    case 1:
        return jenturik_table_link(to, s->slot, s->count, s->word, s->side, s->toslot, s->tocount,
                                   s->toword);
    case 2:
        return jenturik_table_shade(to);
    case 3:
        return jenturik_table_collect(to);
    default:
        return jenturik_table_look(to, s->slot, s->count, s->word);
    }
}

/* What a line prints for a step, on the copy. */
static uint32_t expect_step(const jenturik_step *s) {
    uint32_t at = copy.words[JENTURIK_I];
    jenturik_told a;
    if (s->kind > 4 || s->unused[0] != 0) return expect(JENTURIK_UNREADABLE, 0);
    a = own_call(&copy, s);
    return expect(a.code, s->kind == 3 ? at : a.node);
}

static void step(void) {
    jenturik_step s = some_step();
    make_copy();
    expect_step(&s);
    own_call(&t, &s);
}

static void schedule(void) {
    jenturik_step steps[5];
    size_t count = below(6), done = 0;
    for (size_t i = 0; i < count; i++) {
        steps[i] = some_step();
        if (one_in(20)) steps[i].kind = 5 + below(3);
        if (one_in(20)) steps[i].unused[0] = 1;
    }
    make_copy();
    while (done < count && expect_step(&steps[done]) == 0) done++;
    if (jenturik_table_schedule_steps(&t, steps, count).done != done) abort();
    if (jenturik_table_schedule(&t, &steps[0].kind, 13).code != JENTURIK_UNREADABLE) abort();
}

/* n steps on the copy, and what their line prints. */
static void expect_collects(size_t n) {
    uint32_t at = 0;
    if (n > 0) {
        jenturik_table_collect_many(&copy, n - 1);
        at = copy.words[JENTURIK_I];
        jenturik_table_collect(&copy);
    }
    expect(0, at);
}

static void collect_many(void) {
    size_t n = one_in(8) ? 999999 + below(one_in(2) ? 3 : 2000000) : below(3) * below(400);
    size_t left = n;
    make_copy();
    for (; left > 1000000; left -= 1000000) expect_collects(1000000);
    expect_collects(left);
    if (jenturik_table_collect_many(&t, n).done != n) abort();
}

/* Steps until the list is full: as many as were done are in the file. */
static void collect_freed(void) {
    uint16_t freed[3];
    size_t n = 3 * jenturik_bound((uint32_t)t.nodes, r), length = below(4), done;
    make_copy();
    done = jenturik_table_collect_freed(&copy, n, freed, length).done;
    make_copy();
    expect_collects(done);
    if (jenturik_table_collect_freed(&t, n, freed, length).done != done) abort();
}

/* Makes a table, after which the file and what is expected begin anew; whether it was made. */
static int fresh(uint32_t nodes, uint32_t slots, uint32_t lengths) {
    length = 0;
    t.nodes = lengths;
    return expect_told(jenturik_fresh(JENTURIK_LEND(&t), nodes, slots)) == 0;
}

/* The edges of the table that is there, now and then with a fault. */
static int load(void) {
    uint32_t lefts[MOST], rights[MOST], m = (uint32_t)t.nodes;
    for (uint32_t n = 0; n < m; n++) lefts[n] = t.left[n], rights[n] = t.right[n];
    if (one_in(4)) lefts[below(m)] = one_in(3) ? UINT32_MAX : below(m + 1);
    if (one_in(8)) rights[below(m)] = one_in(2) ? 10000000 : below(m);
    length = 0;
    expect(0, m > r + 2 ? m - 1 : 1);
    return expect_told(jenturik_table_load(&t, lefts, rights, r)) == 0;
}

static int start(void) {
    uint32_t m = 3 + below(MOST - 2);
    r = 1 + below(m - 2 < 6 ? m - 2 : 6);
    t = jenturik_table_in(memory, m);
    if (one_in(20)) return fresh(m, r, m - 1);
    if (one_in(20)) return fresh(one_in(2) ? 2 : UINT32_MAX, r, m);
    if (one_in(20)) return fresh(m, one_in(2) ? 0 : UINT32_MAX, m);
    return fresh(m, r, m);
}

int main(int argc, char **argv) {
    int going;
    if (argc != 3) return 2;
    x = (uint32_t)atoi(argv[1]) * 2654435761u;
    if (!jenturik_record(argv[2], t.words)) return 2;
    going = start();
    for (int i = 0; going && i < 120; i++) {
        switch (below(12)) {
        case 0:
            collect_many();
            break;
        case 1:
            schedule();
            break;
        case 2:
            collect_freed();
            break;
        case 3:
            if (jenturik_table_in_use(&t).code != 0) abort();
            if (jenturik_table_free_count(&t).code != 0) abort();
            if (one_in(20)) going = one_in(2) ? start() : load();
            break;
        default:
            step();
        }
    }
    jenturik_record(NULL, NULL);
    fputs(out, stdout);
    return 0;
}
