/* Calls in a row: many collector steps at once against single ones, schedules against single steps,
 * every code from a sound table, NIL owed, nodes in use along runs, how many colours each call
 * changed [Changes 1] and how many all of them [Changes 2], and that what is lent for reading only
 * is not written.
 * The last line is 'N passed, M failed'. */
#define _DEFAULT_SOURCE
#include "trial.h"

static table start, many, single;

/* Each answer is of 16 bytes: two registers. Where its fields stand is the library's choice too. */
_Static_assert(sizeof(jenturik_told) == 16 && offsetof(jenturik_told, code) == 4 &&
                   offsetof(jenturik_told, detail) == 6 && offsetof(jenturik_told, changed) == 12,
               "jenturik_told");
_Static_assert(sizeof(jenturik_done) == 16 && offsetof(jenturik_done, code) == 8 &&
                   offsetof(jenturik_done, detail) == 10 && offsetof(jenturik_done, changed) == 12,
               "jenturik_done");
_Static_assert(sizeof(jenturik_last) == 16 && offsetof(jenturik_last, changed) == 8 &&
                   offsetof(jenturik_last, node) == 12,
               "jenturik_last");

static uint8_t before[MOST]; /* the colours before a call */
static long counted, miscounted;

/* Lends the table, and keeps its colours to compare with. */
static void lend_start(int high) {
    lend(&t, &start, high);
    memcpy(before, start.colour, start.colours);
}

/* How many colours a call changed, by comparing; the call must have told the same. */
static uint32_t compared(uint32_t changed) {
    uint32_t n = recoloured(before, t.c, t.nc);
    counted += n != 0;
    miscounted += n != changed;
    return n;
}

/* n single collector steps, or as many as are done before one is refused, and the answer that
 * jenturik_collect_many owes: with the sum of the colours that each of them changed. */
static answer one_by_one(size_t n) {
    answer a = {0, JENTURIK_NAMED, 0, 0, 0, 0};
    if (n == 0) {
        a.code = jenturik_schedule(LENT(&t), NULL, 0).code;
        if (a.code != 0) a.what = JENTURIK_REFUSED;
    }
    for (size_t done = 0; done < n && a.code == 0;) {
        jenturik_told told = jenturik_collect(LENT(&t));
        done += told.code == 0;
        a.done = done, a.what = told.what, a.code = told.code, a.node = told.node;
        a.detail = told.detail;
        a.changed += compared(told.changed);
    }
    return a;
}

static int alike(size_t n, int high) {
    lend_start(high);
    answer a = one_by_one(n);
    take_back(&t, &single);
    lend(&t, &start, high);
    jenturik_last b = jenturik_collect_many(LENT(&t), n);
    take_back(&t, &many);
    return a.done == b.done && a.what == b.what && a.code == b.code && a.detail == b.detail &&
           a.node == b.node && a.changed == b.changed && same(&single, &many);
}

/* A bad edge or colour, a gray node, or an invented number in the record. */
static void damage(uint32_t m) {
    uint32_t i = below(m);
    switch (below(6)) {
    case 0:
        start.left[i] = (uint16_t)(below(2) ? 1 : m + below(9));
        break;
    case 1:
        start.right[i] = (uint16_t)(below(2) ? 1 : m + below(9));
        break;
    case 2:
        start.colour[i] = (uint8_t)(3 + below(253));
        break;
    case 3:
        start.colour[i] = (uint8_t)below(3);
        break;
    case 4:
        start.words[below(JENTURIK_USED)] = below(m + 2);
        break;
    default:
        start.left[i] = (uint16_t)below(m);
        break;
    }
}

static void many_against_single(int damaged, uint32_t tables) {
    uint32_t wrong = 0;
    size_t refused = 0;
    for (uint32_t i = 0; i < tables; i++) {
        uint32_t m = 3 + below(30), r = 1 + below(m - 2), bound = m * m + 7 * m + r + 2;
        make_sound(&start, m, r, below(12));
        for (int n = 0; damaged && n < 3; n++) damage(m);
        wrong += !alike(0, (int)(i % 2)) || !alike(1, (int)(i % 2)) || !alike(below(bound), 0) ||
                 !alike(3 * bound, 1);
        lend(&t, &start, 1);
        refused += jenturik_collect_many(LENT(&t), 3 * bound).code != 0;
    }
    check(wrong == 0, "collect_many does what single steps do",
          damaged ? "damaged tables" : "sound tables", (long)wrong);
    check(damaged ? refused > tables / 4 : refused == 0, "collector steps refused",
          damaged ? "damaged tables" : "sound tables", (long)refused);
}

/* The steps by their own calls, until one is refused; a kind above 4 has none and is refused
 * with 10. The colours changed are the sum over the calls. */
static jenturik_done by_own_calls(const uint32_t *steps, size_t count) {
    static const jenturik_told unreadable = {0, JENTURIK_UNREADABLE, 0, 0, 0};
    jenturik_done d = {0, jenturik_schedule(LENT(&t), NULL, 0).code, 0, 0};
    while (d.code == 0 && d.done < count) {
        const uint32_t *s = steps + JENTURIK_STEP_WORDS * d.done;
        d.code = jenturik_schedule(LENT(&t), NULL, 0).code;
        if (d.code != 0) break;
        jenturik_told a = s[0] > 4 ? unreadable : own_call(&t, s);
        d.changed += compared(a.changed);
        d.code = a.code, d.detail = a.detail;
        d.done += d.code == 0;
    }
    return d;
}

/* Random schedules, of steps that may be done more often than not, with kinds and sides above the
 * largest among them. */
static void schedules_against_single(uint32_t tables) {
    static const uint32_t kinds[] = {0, 1, 2, 3, 3, 3, 4, 5};
    uint32_t steps[JENTURIK_STEP_WORDS * 20], wrong = 0;
    size_t done = 0;
    for (uint32_t i = 0; i < tables; i++) {
        uint32_t m = 3 + below(30), r = 1 + below(m - 2), count = below(21);
        make_sound(&start, m, r, below(12));
        if (i % 3 == 0) damage(m);
        for (uint32_t j = 0; j < count; j++) {
            const jenturik_step one = {kinds[below(j % 5 == 4 ? 8 : 7)],
                                       below(r),
                                       below(2),
                                       0,
                                       below(j % 7 == 6 ? 3 : 2),
                                       below(r),
                                       1,
                                       below(2),
                                       {0}};
            memcpy(steps + JENTURIK_STEP_WORDS * j, &one, sizeof one);
        }
        lend_start(0);
        jenturik_done a = by_own_calls(steps, count);
        take_back(&t, &single);
        lend(&t, &start, 1);
        jenturik_done b = jenturik_schedule(LENT(&t), steps, JENTURIK_STEP_WORDS * count);
        take_back(&t, &after);
        wrong += a.done != b.done || a.code != b.code || a.detail != b.detail ||
                 a.changed != b.changed || !same(&single, &after);
        done += b.done;
    }
    check(wrong == 0, "a schedule does what single steps do", "schedule", (long)wrong);
    check(done > tables, "steps of schedules done", "schedule", (long)done);
}

/* A table of 4,096 nodes, all reachable in one chain, for two whole cycles. */
static void large_table(void) {
    make_fresh(&start, 4096, 1);
    lend(&t, &start, 1);
    while (jenturik_take(LENT(&t), 0, 0, 0, 0).code == 0) {
    }
    take_back(&t, &start);
    check(alike(100000, 0), "collect_many does what single steps do", "4096 nodes", 100000);
    lend(&t, &start, 1);
    jenturik_last a = jenturik_collect_many(LENT(&t), (size_t)3 * (4096 * 4096 + 7 * 4096 + 3));
    check(a.code == 0 && t.w[JENTURIK_CYCLES] >= 3, "three cycles in so many steps", "4096 nodes",
          (long)t.w[JENTURIK_CYCLES]);
}

/* Whether an answer is this one; its detail is 0, and a refusal changes no colour. */
static int told(jenturik_told a, uint32_t what, uint32_t code, uint32_t node) {
    return a.what == what && a.code == code && a.detail == 0 && a.node == node &&
           (code == 0 || a.changed == 0);
}

/* Whether a done call changed so many colours, told and by comparing. */
static int changed(jenturik_told a, uint32_t count) {
    return a.code == 0 && a.changed == count && recoloured(before, t.c, t.nc) == count;
}

/* One call of each kind on five nodes and one slot, each with what it must answer; refused ones
 * change nothing. */
static void every_code(void) {
    make_fresh(&start, 5, 1);
    lend(&t, &start, 0);
    check(told(jenturik_shade(LENT(&t)), 0, JENTURIK_NOTHING_IS_OWED, 0),
          "shade where nothing is owed", "shade", 6);
    check(told(jenturik_look(LENT(&t), 1, 0, 0), 0, JENTURIK_NO_SLOT, 0), "slot 1 of one", "look",
          3);
    check(told(jenturik_look(LENT(&t), 65536, 0, 0), 0, JENTURIK_NO_SLOT, 0),
          "a slot above 16 bits", "look", 3);
    check(told(jenturik_look(LENT(&t), 0, 13, 0), 0, JENTURIK_BAD_TURNS, 0), "13 turns", "look", 4);
    check(told(jenturik_look(LENT(&t), 0, 1, 2), 0, JENTURIK_BAD_TURNS, 0), "a bit at the count",
          "look", 4);
    check(told(jenturik_take(LENT(&t), 0, 0, 0, 2), 0, JENTURIK_UNREADABLE, 0), "side 2", "take",
          10);
    check(told(jenturik_take(LENT(&t), 0, 1, 0, 0), 0, JENTURIK_SOURCE_IS_NIL, 0),
          "the source is NIL", "take", 8);
    check(told(jenturik_link(LENT(&t), 0, 1, 0, 0, 0, 0, 0), 0, JENTURIK_SOURCE_IS_NIL, 0),
          "the source is NIL", "link", 8);
    take_back(&t, &after);
    check(same(&start, &after), "refused calls change nothing", "all", 0);
    check(told(jenturik_look(LENT(&t), 0, 12, 4095), JENTURIK_NAMED, 0, 0), "12 turns to NIL",
          "look", 0);
    check(told(jenturik_take(LENT(&t), 0, 0, 0, 0), JENTURIK_TAKEN, 0, 3), "the first free node",
          "take", 3);
    check(told(jenturik_take(LENT(&t), 0, 0, 0, 1), JENTURIK_TAKEN, 0, 4), "the second", "take", 4);
    check(told(jenturik_take(LENT(&t), 0, 0, 0, 0), 0, JENTURIK_NO_FREE_NODE, 0), "no free node",
          "take", 9);
    check(told(jenturik_link(LENT(&t), 0, 0, 0, 0, 0, 1, 1), JENTURIK_LINKED, 0, 4),
          "left to what is on the right", "link", 4);
    check(told(jenturik_take(LENT(&t), 0, 0, 0, 0), 0, JENTURIK_SHADE_IS_OWED, 0),
          "a shade is owed", "take", 5);
    check(told(jenturik_shade(LENT(&t)), JENTURIK_SHADED, 0, 4), "the shade owed", "shade", 4);
    t.l[4] = 1;
    check(told(jenturik_look(LENT(&t), 0, 2, 0), 0, JENTURIK_BAD_EDGE, 4), "node 4's edge is bad",
          "look", 7);
}

/* Link to NIL: node 0 is owed, which is not the same as nothing. */
static void nil_owed(void) {
    make_fresh(&start, 5, 1);
    lend(&t, &start, 1);
    check(told(jenturik_link(LENT(&t), 0, 0, 0, 0, 0, 1, 0), JENTURIK_LINKED, 0, 0), "link to NIL",
          "link", 0);
    check(t.w[JENTURIK_OWES] == 1 && t.w[JENTURIK_OWED] == 0, "node 0 is owed", "link", 0);
    check(told(jenturik_link(LENT(&t), 0, 0, 0, 0, 0, 1, 0), 0, JENTURIK_SHADE_IS_OWED, 0),
          "a shade is owed", "link", 5);
    check(jenturik_collect(LENT(&t)).code == 0, "the collector steps while a shade is owed",
          "collect", 0);
    check(told(jenturik_shade(LENT(&t)), JENTURIK_SHADED, 0, 0), "node 0 is shaded", "shade", 0);
    check(t.w[JENTURIK_OWES] == 0 && t.w[JENTURIK_OWED] == 0, "nothing is owed", "shade", 0);
    check(told(jenturik_shade(LENT(&t)), 0, JENTURIK_NOTHING_IS_OWED, 0), "nothing is owed",
          "shade", 6);
}

/* Schedules: of structs, cut short by a refusal, ragged, empty. */
static void schedules(void) {
    static const jenturik_step steps[] = {
        {.kind = 0}, {.kind = 1, .side = 1, .tocount = 1}, {.kind = 0, .side = 1}, {.kind = 2}};
    make_fresh(&start, 5, 1);
    lend(&t, &start, 0);
    jenturik_done d = jenturik_schedule_steps(LENT(&t), steps, 4);
    check(d.done == 2 && d.code == JENTURIK_SHADE_IS_OWED && d.changed == 2,
          "the third step is refused", "schedule_steps", (long)d.done);
    take_back(&t, &after);
    lend(&t, &start, 0);
    jenturik_take(LENT(&t), 0, 0, 0, 0);
    jenturik_link(LENT(&t), 0, 0, 0, 1, 0, 1, 0);
    take_back(&t, &single);
    check(same(&after, &single), "the earlier steps stand", "schedule_steps", 2);
    d = jenturik_schedule_steps(LENT(&t), steps + 3, 1);
    check(d.done == 1 && d.code == 0 && d.changed == 0, "a schedule of one step", "schedule_steps",
          1);
    for (size_t numbers = 1; numbers < 4 * JENTURIK_STEP_WORDS; numbers++) {
        lend(&t, &start, (int)(numbers % 2));
        d = jenturik_schedule(LENT(&t), (const uint32_t *)steps, numbers);
        take_back(&t, &after);
        if (numbers % JENTURIK_STEP_WORDS == 0) continue;
        check(d.done == 0 && d.code == JENTURIK_UNREADABLE && d.changed == 0 &&
                  same(&start, &after),
              "a ragged schedule", "schedule", (long)numbers);
    }
    lend(&t, &start, 1);
    d = jenturik_schedule(LENT(&t), NULL, 0);
    take_back(&t, &after);
    check(d.done == 0 && d.code == 0 && d.changed == 0 && same(&start, &after), "an empty schedule",
          "schedule", 0);
}

/* A step of each kind with a word that is not 0 where it has no use, behind one that is done: 10,
 * and the first stands. Codes 1 and 2 come before it. */
static void unused_words(uint32_t kind) {
    static const uint32_t values[] = {1, 65536, 0x80000000u, UINT32_MAX};
    make_fresh(&start, 5, 1);
    lend(&t, &start, 0);
    jenturik_collect(LENT(&t));
    take_back(&t, &single);
    for (size_t i = 0; i < 4 * (JENTURIK_STEP_WORDS - STEP_USED); i++) {
        jenturik_step steps[] = {{.kind = 3}, {.kind = kind}, {.kind = 3}};
        steps[1].unused[i / 4] = values[i % 4];
        lend(&t, &start, (int)(i % 2));
        jenturik_done d = jenturik_schedule_steps(LENT(&t), steps, 3);
        take_back(&t, &after);
        check(d.done == 1 && d.code == JENTURIK_UNREADABLE && d.changed == 1 &&
                  same(&single, &after),
              "an unused word of a step", "schedule", (long)kind);
        t.w[JENTURIK_LAST] = 0;
        d = jenturik_schedule_steps(LENT(&t), steps + 1, 1);
        check(d.done == 0 && d.code == JENTURIK_BAD_RECORD && d.changed == 0, "code 2 comes before",
              "schedule", (long)kind);
    }
}

/* A fresh table of 7 nodes and a slot, lent with node n in this colour, and the collector in this
 * phase at it; where the phase shades a number read, that is n too. */
static void lend_coloured(uint32_t n, uint8_t colour, uint32_t phase) {
    make_fresh(&start, 7, 1);
    start.colour[n] = colour;
    start.words[JENTURIK_PHASE] = phase, start.words[JENTURIK_I] = n;
    start.words[JENTURIK_K] = phase == 1 ? 7 : phase > 5 ? n : 0;
    lend_start((int)(n % 2));
}

/* The collector's steps at a node of each colour: how many colours they change. */
static void colours_of_steps(void) {
    for (uint8_t colour = 0; colour < 3; colour++) {
        lend_coloured(2, colour, 0);
        check(changed(jenturik_collect(LENT(&t)), colour == 0), "shades a slot", "collect", colour);
        lend_coloured(2, colour, 1);
        check(changed(jenturik_collect(LENT(&t)), 0), "looks at a node", "collect", colour);
        lend_coloured(4, colour, 2), t.l[4] = 4;
        check(changed(jenturik_collect(LENT(&t)), 0), "reads the left edge", "collect", colour);
        lend_coloured(4, colour, 6), t.l[4] = 5;
        check(changed(jenturik_collect(LENT(&t)), colour == 0), "shades on the left", "collect",
              colour);
        lend_coloured(4, colour, 3), t.r[4] = 4;
        check(changed(jenturik_collect(LENT(&t)), 0), "reads the right edge", "collect", colour);
        lend_coloured(4, colour, 7), t.r[4] = 5;
        check(changed(jenturik_collect(LENT(&t)), colour == 0), "shades on the right", "collect",
              colour);
        lend_coloured(4, colour, 4);
        check(changed(jenturik_collect(LENT(&t)), colour != 2), "makes a node black", "collect",
              colour);
    }
    lend_coloured(4, 255, 4);
    check(changed(jenturik_collect(LENT(&t)), 1), "makes a node black", "collect", 255);
    lend_coloured(4, 2, 5);
    check(changed(jenturik_collect(LENT(&t)), 1), "makes a node white", "collect", 2);
    lend_coloured(4, 0, 5);
    check(changed(jenturik_collect(LENT(&t)), 0), "appends a node", "collect", 0);
    lend_coloured(4, 1, 5);
    check(told(jenturik_collect(LENT(&t)), 0, JENTURIK_NOT_TO_APPEND, 4), "refuses a gray node",
          "collect", 1);
}

/* Whether the record is in a phase, at node 2, with this number read, or 0 where none is. */
static int stands(uint32_t phase, uint32_t read) {
    return t.w[JENTURIK_PHASE] == phase && t.w[JENTURIK_I] == 2 && t.w[JENTURIK_READ] == read;
}

/* The two steps of Left and of Right at node 2: the first reads the edge and keeps the number; the
 * second shades it, although the edge has moved meanwhile [Edges 5], and judges its colour. A bad
 * edge is refused by the first alone. */
static void read_and_shade(uint32_t side) {
    lend_coloured(2, 1, 2 + side);
    (side == 0 ? t.l : t.r)[2] = 5;
    check(told(jenturik_collect(LENT(&t)), JENTURIK_LOOKED, 0, 2), "reads", "collect", (long)side);
    check(stands(6 + side, 5) && t.c[5] == 0, "keeps the number", "collect", (long)side);
    (side == 0 ? t.l : t.r)[2] = 1;
    t.c[5] = 3;
    check(told(jenturik_collect(LENT(&t)), 0, JENTURIK_BAD_COLOUR, 5), "judges the colour",
          "collect", (long)side);
    check(stands(6 + side, 5), "keeps the number", "collect", (long)side);
    (side == 0 ? t.l : t.r)[2] = 6;
    t.c[5] = 0;
    check(told(jenturik_collect(LENT(&t)), JENTURIK_SHADED, 0, 5), "shades the number", "collect",
          (long)side);
    check(stands(3 + side, 0) && t.c[5] == 1 && t.c[6] == 0, "the edge's node stays white",
          "collect", (long)side);
    lend_coloured(2, 1, 2 + side);
    (side == 0 ? t.l : t.r)[2] = 1;
    jenturik_told a = jenturik_collect(LENT(&t));
    check(a.code == JENTURIK_BAD_EDGE && a.node == 2 && a.detail == side && stands(2 + side, 0),
          "judges the edge", "collect", (long)side);
}

/* Many steps at once from a number read, stale or not, do what single ones do [Many 1]. */
static void stale_numbers(uint32_t side) {
    uint32_t wrong = 0;
    for (uint32_t read = 0; read < 7; read++) {
        if (read == 1) continue;
        for (size_t n = 0; n < 102; n++) {
            lend_coloured(2, 1, 6 + side);
            start.words[JENTURIK_READ] = read;
            start.left[2] = (uint16_t)(n % 2 == 0 ? 2 : 0);
            wrong += !alike(n, (int)(n % 2));
        }
    }
    check(wrong == 0, "collect_many from a number read", "collect_many", (long)wrong);
}

/* Take shades the first free node, 3, and the second, 4, which may be the same or none. Link
 * changes no colour; its shade does. */
static void colours_of_edits(void) {
    for (uint8_t colour = 0; colour < 3; colour++) {
        lend_coloured(3, colour, 1);
        check(changed(jenturik_take(LENT(&t), 0, 0, 0, 0), 1 + (colour == 0)), "the first", "take",
              colour);
        lend_coloured(4, colour, 1);
        check(changed(jenturik_take(LENT(&t), 0, 0, 0, 0), 1 + (colour == 0)), "the second", "take",
              colour);
        lend_coloured(3, colour, 1), t.l[3] = 3;
        check(changed(jenturik_take(LENT(&t), 0, 0, 0, 0), colour == 0), "both are the same",
              "take", colour);
        lend_coloured(3, colour, 1), t.l[3] = 0, t.w[JENTURIK_LAST] = 3;
        check(changed(jenturik_take(LENT(&t), 0, 0, 0, 0), colour == 0), "the only one", "take",
              colour);
        lend_coloured(2, colour, 1);
        check(changed(jenturik_link(LENT(&t), 0, 0, 0, 0, 0, 0, 0), 0), "a link", "link", colour);
        check(changed(jenturik_look(LENT(&t), 0, 1, 0), 0), "a look", "look", colour);
        check(changed(jenturik_shade(LENT(&t)), colour == 0), "the shade owed", "shade", colour);
        lend_coloured(0, colour, 1);
        check(changed(jenturik_link(LENT(&t), 0, 0, 0, 0, 0, 1, 0), 0), "a link", "link", colour);
        check(changed(jenturik_shade(LENT(&t)), colour == 0), "NIL is owed", "shade", colour);
    }
}

/* In each cycle from a fresh table every node changes its colour three times, though it is white
 * before and after: single steps, then as many at once, then as many in a schedule. */
static void colours_of_cycles(uint32_t m, uint32_t r) {
    static uint32_t steps[JENTURIK_STEP_WORDS * 2000];
    uint32_t single_steps = 0;
    make_fresh(&start, m, r);
    lend_start(1);
    while (t.w[JENTURIK_CYCLES] == 0) single_steps += compared(jenturik_collect(LENT(&t)).changed);
    size_t took = t.w[JENTURIK_TOOK];
    check(single_steps == 3 * m, "a cycle from a fresh table", "collect", (long)m);
    jenturik_last a = jenturik_collect_many(LENT(&t), took);
    check(a.changed == 3 * m, "a cycle from a fresh table", "collect_many", (long)m);
    for (size_t i = 0; i < took; i++) steps[JENTURIK_STEP_WORDS * i] = 3;
    jenturik_done d = jenturik_schedule(LENT(&t), steps, JENTURIK_STEP_WORDS * took);
    check(d.changed == 3 * m, "a cycle from a fresh table", "schedule", (long)m);
    check(t.w[JENTURIK_CYCLES] == 3 && recoloured(before, t.c, t.nc) == 0, "three whole cycles",
          "all", (long)m);
}

/* Ten cycles at once change more colours than 16 bits can tell. */
static void many_colours(void) {
    make_fresh(&start, 4096, 64);
    lend(&t, &start, 0);
    while (t.w[JENTURIK_CYCLES] == 0) jenturik_collect_many(LENT(&t), 1);
    jenturik_last a = jenturik_collect_many(LENT(&t), 10 * (size_t)t.w[JENTURIK_TOOK]);
    check(a.code == 0 && t.w[JENTURIK_CYCLES] == 11 && a.changed == 10 * 3 * 4096,
          "ten cycles from a fresh table", "collect_many", (long)a.changed);
}

/* Forbids writing what a call has for reading only: a write would end the program. */
static void reading_only(void) {
    static const uint32_t steps[JENTURIK_STEP_WORDS] = {3};
    make_fresh(&start, 5, 1);
    lend(&t, &start, 1);
    fence_forbid(&t.colours, 1);
    check(jenturik_link(LENT(&t), 0, 0, 0, 0, 0, 0, 0).code == 0, "link writes no colour", "link",
          0);
    fence_forbid(&t.colours, 0), fence_forbid(&t.lefts, 1), fence_forbid(&t.rights, 1);
    check(jenturik_shade(LENT(&t)).code == 0, "shade writes no edge", "shade", 0);
    fence_forbid(&t.colours, 1), fence_forbid(&t.words, 1);
    check(jenturik_look(LENT(&t), 0, 1, 0).code == 0, "look writes nothing", "look", 0);
    fence_forbid(&t.lefts, 0), fence_forbid(&t.rights, 0), fence_forbid(&t.colours, 0),
        fence_forbid(&t.words, 0);
    uint32_t *lent_steps = fence_lay(&call_steps, steps, sizeof steps, 1);
    fence_forbid(&call_steps, 1);
    check(jenturik_schedule(LENT(&t), lent_steps, JENTURIK_STEP_WORDS).code == 0,
          "schedule writes no step", "schedule", 0);
    fence_forbid(&call_steps, 0);
}

/* In a run In use is never refused, and counts no free node [In use 4]. Where nothing is edited
 * from the end of a cycle to the end of the next marking, blackened last cycle is that number with
 * NIL, FREE, the slots' and the free nodes. */
static void in_use_along_runs(uint32_t tables) {
    uint32_t wrong = 0, quiet = 0, most = 0;
    for (uint32_t i = 0; i < tables; i++) {
        uint32_t m = 3 + below(30), r = 1 + below(m - 2), bound = m * m + 7 * m + r + 2;
        make_sound(&start, m, r, below(12));
        lend(&t, &start, (int)(i % 2));
        jenturik_told a = ask(&t);
        wrong += a.code != 0 || a.what != JENTURIK_COUNTED || a.node + free_nodes(t.l) + r + 2 > m;
        jenturik_collect_many(LENT(&t), 3 * (size_t)bound);
        jenturik_told b = ask(&t);
        wrong += b.code != 0 || b.node != a.node;
        quiet += t.w[JENTURIK_BLACKENED_LAST_CYCLE] != b.node + free_nodes(t.l) + r + 2;
        if (b.node > most) most = b.node;
    }
    check(wrong == 0, "nodes in use, free ones left out", "in_use", (long)wrong);
    check(quiet == 0, "what blackened last cycle counts besides", "in_use", (long)quiet);
    check(most > 5, "some tables have nodes in use", "in_use", (long)most);
}

int main(void) {
    trial_open();
    check(sizeof(jenturik_step) == JENTURIK_STEP_WORDS * sizeof(uint32_t), "a step's words",
          "jenturik_step", (long)sizeof(jenturik_step));
    check(STEP_USED == 8 && JENTURIK_STEP_WORDS == 12 && JENTURIK_WORDS == 24, "words", "all", 0);
    many_against_single(0, 300);
    many_against_single(1, 600);
    schedules_against_single(3000);
    large_table();
    every_code();
    nil_owed();
    schedules();
    for (uint32_t side = 0; side < 2; side++) read_and_shade(side), stale_numbers(side);
    colours_of_steps();
    colours_of_edits();
    colours_of_cycles(3, 1), colours_of_cycles(9, 2), colours_of_cycles(40, 7);
    many_colours();
    check(counted > 100000, "calls that change colours", "all", counted);
    check(miscounted == 0, "calls tell how many colours they changed", "all", miscounted);
    in_use_along_runs(2000);
    for (uint32_t kind = 0; kind < 6; kind++) unused_words(kind);
    reading_only();
    return tally();
}
