/* How many nodes are free: the word [Record 13], and the call that answers it [Free count 1], which
 * judges no more than others do [Free count 2] and reads no array [Free count 3]. Which pairs of
 * the free count and last are refused by every call [Codes 2]; what Take [Take 10] and Append
 * [Append 6] make of the count in damaged tables, where the next call may be refused [Order 6];
 * and that it is the length of the free list along runs from fresh and loaded tables [Runs 15]. The
 * numbers that are expected are written here or walked.
 * The last line is 'N passed, M failed'. */
#define _DEFAULT_SOURCE
#include "lists.h"
#include "refusing.h"

/* A fresh table of M nodes and R slots has the free list 4, 5, 6, 7, 8. */
enum { M = 9, R = 2 };

static lists edges;

/* The bad table's record gets this last and this free count. */
static void set_pair(uint32_t last, uint32_t count) {
    bad.words[JENTURIK_LAST] = last, bad.words[JENTURIK_FREE_COUNT] = count;
}

static void make_pair(uint32_t m, uint32_t r, uint32_t last, uint32_t count) {
    make_fresh(&bad, m, r);
    set_pair(last, count);
}

/* The bad table's record passes, and Free count answers this; everything stays. */
static void passes(uint32_t count, const char *why) {
    static const int calls[] = {LOOK, IN_USE, FREE_COUNT, MANY_NONE, FREED_NONE, SCHEDULE_EMPTY};
    for (int i = 0; i < 12; i++) {
        lend(&t, &bad, i % 2);
        answer a = call(&t, calls[i / 2]);
        take_back(&t, &after);
        check(a.code == 0 && same(&bad, &after), why, call_names[calls[i / 2]], (long)count);
    }
    lend(&t, &bad, 0);
    jenturik_told a = ask_free(&t);
    check(a.what == JENTURIK_COUNTED && a.node == count && a.changed == 0, why, "free_count",
          (long)count);
    check(bad.words[JENTURIK_FREE_COUNT] == count, why, "the word", (long)count);
}

/* Every pair, in each phase, with a shade owed or not. */
static void pairs(uint32_t phase, uint32_t owes) {
    static const uint32_t some[] = {1, 2, 3, 4, 5}, not_some[] = {0, 6, 7, 8, 9, 256, 4096, 65535},
                          not_none[] = {1, 2, 3, 4, 5, 6, 7, 9, 256, 4096, 65535},
                          lasts[] = {4, 6, 8};
    make_fresh(&bad, M, R);
    set_phase(&bad, phase, owes);
    for (int i = 0; i < 3; i++) {
        for (int j = 0; j < 5; j++) set_pair(lasts[i], some[j]), passes(some[j], "some are free");
        for (int j = 0; j < 8; j++)
            set_pair(lasts[i], not_some[j]),
                all_refuse(2, "0, or too many, and last is a node", (long)not_some[j]);
    }
    set_pair(1, 0), passes(0, "none is free");
    for (int j = 0; j < 11; j++)
        set_pair(1, not_none[j]), all_refuse(2, "not 0, and last is 1", (long)not_none[j]);
}

/* The most that can be free, and one more, by M and R; with M = R + 2 none can. */
static void limit(uint32_t m, uint32_t r, uint32_t most) {
    make_fresh(&bad, m, r);
    passes(most, "a fresh table");
    if (most != 0) {
        set_pair(m - 1, 0), all_refuse(2, "0, and last is a node", (long)m);
        set_pair(m - 1, 1), passes(1, "one is free");
        set_pair(r + 2, most), passes(most, "as many as can be");
        set_pair(r + 2, most + 1), all_refuse(2, "one too many", (long)m);
    }
    set_pair(1, 0), passes(0, "none is free");
    set_pair(1, 1), all_refuse(2, "one, and last is 1", (long)m);
    set_pair(1, most + 1), all_refuse(2, "one too many, and last is 1", (long)m);
    set_pair(m, most), all_refuse(2, "last is out of the table", (long)m);
}

/* Whether a call with bad numbers of its own answers 2 where the pair is bad. */
static void before_others(uint32_t last, uint32_t count) {
    static const jenturik_step kind = {.kind = 9}, unused = {.kind = 3, .unused = {1}};
    make_pair(M, R, last, count);
    lend(&t, &bad, 1);
    check(jenturik_take(LENT(&t), 0, 0, 0, 2).code == 2, "2 before 10", "take", (long)count);
    check(jenturik_link(LENT(&t), 0, 0, 0, 2, 0, 0, 0).code == 2, "2 before 10", "link",
          (long)count);
    check(jenturik_look(LENT(&t), R, 13, 0).code == 2, "2 before 3", "look", (long)count);
    check(jenturik_shade(LENT(&t)).code == 2, "2 before 6", "shade", (long)count);
    check(jenturik_schedule_steps(LENT(&t), &kind, 1).code == 2, "2 before 10", "schedule",
          (long)count);
    check(jenturik_schedule_steps(LENT(&t), &unused, 1).code == 2, "2 before 10", "schedule",
          (long)count);
    bad.colours--, all_refuse(1, "1 before 2", (long)count);
    bad.words[JENTURIK_WORDS - 1] = 1, all_refuse(2, "no record before 1", (long)count);
}

/* No edge and no colour is read: they may hold anything, and may be out of reach. */
static void unread(void) {
    for (uint32_t phase = 0; phase < 8; phase++) {
        make_pair(M, R, 8, 3), set_phase(&bad, phase, phase % 2);
        for (uint32_t i = 0; i < M; i++)
            bad.left[i] = (uint16_t)below(65536), bad.right[i] = (uint16_t)below(65536),
            bad.colour[i] = (uint8_t)below(256);
        lend(&t, &bad, (int)(phase % 2));
        fence_hide(&t.lefts, 1), fence_hide(&t.rights, 1), fence_hide(&t.colours, 1);
        fence_forbid(&t.words, 1);
        jenturik_told a = jenturik_free_count(LENT(&t));
        fence_hide(&t.lefts, 0), fence_hide(&t.rights, 0), fence_hide(&t.colours, 0);
        fence_forbid(&t.words, 0);
        take_back(&t, &after);
        check(a.what == JENTURIK_COUNTED && a.code == 0 && a.node == 3 && a.changed == 0,
              "what the words say", "free_count", (long)phase);
        check(same(&bad, &after), "nothing is changed", "free_count", (long)phase);
    }
}

/* What is lent has this last and this free count. */
static void left(uint32_t last, uint32_t count, const char *why, const char *name) {
    check(t.w[JENTURIK_LAST] == last && t.w[JENTURIK_FREE_COUNT] == count, why, name, (long)count);
}

/* And every call refuses it with 2. */
static void left_bad(uint32_t last, uint32_t count, const char *why, const char *name) {
    left(last, count, why, name);
    take_back(&t, &bad);
    all_refuse(2, why, (long)count);
}

/* Take on the left of slot 0: what was done, the code and the node. */
static void takes(uint32_t code, uint32_t node, const char *why) {
    jenturik_told a = jenturik_take(LENT(&t), 0, 0, 0, 0);
    check(a.what == (code == 0 ? JENTURIK_TAKEN : JENTURIK_REFUSED) && a.code == code &&
              a.node == node,
          why, "take", (long)node);
}

/* The fresh table with this pair is lent, FREE leading to one node and node 4 to another. */
static void lend_chain(uint32_t last, uint32_t count, uint16_t first, uint16_t second) {
    make_pair(M, R, last, count);
    bad.left[1] = first, bad.left[4] = second;
    lend(&t, &bad, (int)(count % 2));
}

static void take_counts(void) {
    lend_chain(8, 5, 4, 5);
    takes(0, 4, "sound"), left(8, 4, "sound", "take"), takes(0, 5, "sound");
    left(8, 3, "sound", "take"), takes(0, 6, "sound"), left(8, 2, "sound", "take");
    takes(0, 7, "sound"), left(8, 1, "sound", "take"), takes(0, 8, "sound");
    left(1, 0, "sound", "take"), takes(9, 0, "sound"), left(1, 0, "sound", "take");
    check(ask_free(&t).node == 0 && ask_free(&t).code == 0, "none is free", "free_count", 0);
    lend_chain(8, 1, 4, 0), takes(0, 4, "the only one"), left(1, 0, "the only one", "take");
    takes(9, 0, "none is left"), left(1, 0, "none is left", "take");
}

/* The list ends sooner or later than the count says: done, and then the pair is bad. */
static void take_damaged(void) {
    lend_chain(8, 3, 4, 0), takes(0, 4, "the list ends"), left_bad(1, 2, "the list ends", "take");
    lend_chain(8, 2, 4, 0), takes(0, 4, "the list ends"), left_bad(1, 1, "the list ends", "take");
    lend_chain(8, 5, 4, 0), takes(0, 4, "the list ends"), left_bad(1, 4, "the list ends", "take");
    lend_chain(8, 1, 4, 5), takes(0, 4, "it goes on"), left_bad(8, 0, "it goes on", "take");
    lend_chain(4, 1, 4, 4), takes(0, 4, "round and round"), left_bad(4, 0, "it goes on", "take");
}

/* The same as a schedule of two: the second is refused. */
static void takes_of_schedule(uint32_t count, uint16_t second, uint32_t last) {
    static const jenturik_step steps[2] = {{.kind = 0}, {.kind = 0}};
    lend_chain(8, count, 4, second);
    jenturik_done d = jenturik_schedule_steps(LENT(&t), steps, 2);
    check(d.done == 1 && d.code == 2, "a pair that a take leaves", "schedule", (long)count);
    left_bad(last, count - 1, "a pair that a take leaves", "schedule");
}

/* At a count of 0 there may be free nodes: Take goes by FREE's edge, and the count stays 0. */
static void take_at_none(void) {
    lend_chain(1, 0, 4, 5);
    for (uint32_t f = 4; f < 9; f++) {
        takes(0, f, "a free node at a count of 0"), left(1, 0, "0 stays 0", "take");
        check(ask_free(&t).code == 0 && ask_free(&t).node == 0, "0 stays 0", "free_count", (long)f);
    }
    takes(9, 0, "none is left");
    lend_chain(1, 0, 0, 5), takes(9, 0, "none at a count of 0"), left(1, 0, "9", "take");
    lend_chain(8, 5, 0, 5), takes(9, 0, "none at a count of 5"), left(8, 5, "9", "take");
    take_back(&t, &after), check(same(&bad, &after), "9 changes nothing", "take", 5);
}

/* A refused Take leaves the count. */
static void take_refused(void) {
    lend_chain(8, 5, 3, 5), takes(7, 1, "FREE's edge"), left(8, 5, "7 changes nothing", "take");
    lend_chain(8, 5, 4, 2), takes(7, 4, "the first's"), left(8, 5, "7 changes nothing", "take");
    lend_chain(8, 5, 4, 5), t.c[5] = 3, takes(14, 5, "a colour");
    left(8, 5, "7 changes nothing", "take");
    lend_chain(8, 5, 4, 5);
    check(jenturik_take(LENT(&t), 0, 1, 0, 0).code == 8, "the source is NIL", "take", 8);
    left(8, 5, "8 changes nothing", "take");
    lend_chain(8, 5, 4, 5), t.w[JENTURIK_OWES] = 1, takes(5, 0, "a shade is owed");
    left(8, 5, "5 changes nothing", "take");
}

/* The fresh table with this pair, lent in Append i; the roots and the nodes from `black` on are
 * black, all others white. */
static void lend_append(uint32_t i, uint32_t last, uint32_t count, uint32_t black) {
    make_pair(M, R, last, count);
    bad.words[JENTURIK_PHASE] = 5, bad.words[JENTURIK_I] = i;
    for (uint32_t n = 0; n < M; n++) bad.colour[n] = n < R + 2 || n >= black ? 2 : 0;
    lend(&t, &bad, (int)(i % 2));
}

static void appends(uint32_t what, uint32_t node, const char *why) {
    jenturik_told a = jenturik_collect(LENT(&t));
    check(a.what == what && a.code == 0 && a.node == node, why, "collect", (long)node);
}

static void append_counts(void) {
    lend_append(4, 1, 0, M), appends(JENTURIK_APPENDED, 4, "the first");
    left(4, 1, "the first", "collect"), appends(JENTURIK_APPENDED, 5, "the next");
    left(5, 2, "the next", "collect");
    lend_append(4, 8, 4, 8), appends(JENTURIK_APPENDED, 4, "up to the limit");
    left(4, 5, "up to the limit", "collect"), take_back(&t, &bad), passes(5, "the limit");
    lend_append(4, 8, 5, 4), appends(JENTURIK_WHITENED, 4, "a black node");
    left(8, 5, "a black node", "collect");
    lend_append(8, 4, 2, M), appends(JENTURIK_APPENDED, 8, "the last node"),
        left(8, 3, "the last node", "collect");
    check(t.w[JENTURIK_CYCLES] == 1 && t.w[JENTURIK_PHASE] == 0, "a cycle", "collect", 3);
    lend_append(8, 4, 2, 8), appends(JENTURIK_WHITENED, 8, "the last node, black"),
        left(4, 2, "the last node, black", "collect");
    lend_append(4, 8, 3, 8), t.c[4] = 1;
    check(jenturik_collect(LENT(&t)).code == 15, "a gray node", "collect", 15);
    left(8, 3, "15 changes nothing", "collect");
}

/* One more than can be free: done, and then the pair is bad. */
static void append_damaged(void) {
    lend_append(4, 8, 5, 8), appends(JENTURIK_APPENDED, 4, "past the limit");
    left_bad(4, 6, "past the limit", "collect");
    lend_append(8, 4, 5, M), appends(JENTURIK_APPENDED, 8, "past the limit, the last node");
    left_bad(8, 6, "past the limit, the last node", "collect");
}

/* Many steps, and schedules, stop where a single step would be refused: from Append 4 on, with
 * this count, so many are done and then the code comes. */
static void append_many(uint32_t count, size_t done, uint32_t code, uint32_t last, uint32_t now) {
    uint32_t steps[JENTURIK_STEP_WORDS * 5] = {0};
    for (int i = 0; i < 5; i++) steps[JENTURIK_STEP_WORDS * i] = 3;
    lend_append(4, count == 0 ? 1 : 8, count, 8);
    jenturik_last a = jenturik_collect_many(LENT(&t), 5);
    check(a.done == done && a.code == code, "as far as the limit", "collect_many", (long)count);
    left(last, now, "as far as the limit", "collect_many");
    lend_append(4, count == 0 ? 1 : 8, count, 8);
    jenturik_done d = jenturik_schedule(LENT(&t), steps, JENTURIK_STEP_WORDS * 5);
    check(d.done == done && d.code == code, "as far as the limit", "schedule", (long)count);
    left(last, now, "as far as the limit", "schedule");
}

/* Steps of the other phases and of the editor leave the count. */
static void others_keep(void) {
    for (uint32_t phase = 0; phase < 8; phase++) {
        if (phase == 5) continue;
        make_pair(M, R, 8, 2), set_phase(&bad, phase, 0), bad.colour[1] = 1;
        lend(&t, &bad, 1);
        check(jenturik_collect(LENT(&t)).code == 0, "a step", "collect", (long)phase);
        left(8, 2, "a step", "collect");
    }
    make_pair(M, R, 8, 2), lend(&t, &bad, 0);
    check(jenturik_link(LENT(&t), 0, 0, 0, 0, 1, 0, 0).code == 0, "a link", "link", 0);
    left(8, 2, "a link", "link");
    check(jenturik_shade(LENT(&t)).code == 0, "its shade", "shade", 0);
    left(8, 2, "its shade", "shade");
}

/* Whether the word and the call tell the length of the free list. */
static int counted(void) {
    jenturik_told a = jenturik_free_count(LENT(&t));
    uint32_t n = free_nodes(t.l);
    return a.code == 0 && a.node == n && t.w[JENTURIK_FREE_COUNT] == n;
}

/* A call with random numbers, some of them refused; links are shaded in time, more often than
 * not. */
static void any_call(uint32_t r) {
    uint32_t slot = below(r + (below(9) == 0)), count = below(3), word = below(1u << count);
    switch (below(8)) {
    case 0:
    case 1:
        jenturik_take(LENT(&t), slot, count, word, below(2));
        break;
    case 2:
        jenturik_link(LENT(&t), slot, count, word, below(2), below(r), below(2), 0);
        break;
    case 3:
    case 4:
        jenturik_shade(LENT(&t));
        break;
    case 5:
        jenturik_collect(LENT(&t));
        break;
    case 6:
        jenturik_collect_many(LENT(&t), below(200));
        break;
    default:
        call(&t, (int)below(CALLS));
        break;
    }
}

/* Calls after a start, from what is lent on; how often the count was wrong. */
static uint32_t along(uint32_t r, uint32_t calls, uint32_t *most, uint32_t *least) {
    uint32_t wrong = !counted();
    for (; calls > 0; calls--) {
        any_call(r);
        wrong += !counted();
        uint32_t n = t.w[JENTURIK_FREE_COUNT];
        if (n > *most) *most = n;
        if (n < *least) *least = n;
    }
    return wrong;
}

/* The lists of the table's edges, the free list cut behind a random node: what came after it is
 * garbage. */
static void list_cut(const table *s) {
    uint32_t node = 1;
    edges.lefts = s->lefts, edges.rights = s->rights;
    for (size_t i = 0; i < s->lefts; i++) edges.left[i] = s->left[i], edges.right[i] = s->right[i];
    for (uint32_t n = below(20); n > 0 && edges.left[node] != 0; n--) node = edges.left[node];
    if (below(3)) edges.left[node] = 0;
}

/* Runs from fresh tables, and from tables that are loaded. */
static void along_runs(uint32_t tables) {
    static table begun;
    uint32_t wrong = 0, refused = 0, most = 0, least = 99;
    for (uint32_t i = 0; i < tables; i++) {
        uint32_t m = 3 + below(30), r = 1 + below(m - 2);
        make_fresh(&begun, m, r);
        lend(&t, &begun, (int)(i % 2));
        wrong += along(r, 60, &most, &least);
        take_back(&t, &begun);
        list_cut(&begun);
        lend(&t, &begun, (int)(i % 2));
        refused += load(&t, &edges, m, r, 1).code != 0;
        wrong += along(r, 60, &most, &least);
    }
    check(wrong == 0, "the count is the length of the free list", "runs", (long)wrong);
    check(refused == 0, "tables that are loaded", "load", (long)refused);
    check(most > 20 && least == 0, "short lists and long ones", "runs", (long)most);
}

/* The largest table: all is taken, let go, and appended again. */
static void large_run(void) {
    uint32_t wrong = 0;
    make_fresh(&bad, 4096, 1);
    lend(&t, &bad, 1);
    for (uint32_t n = 4093; n > 0; n--)
        wrong += t.w[JENTURIK_FREE_COUNT] != n || jenturik_take(LENT(&t), 0, 0, 0, 0).code != 0;
    check(wrong == 0 && t.w[JENTURIK_FREE_COUNT] == 0 && counted(), "all are taken", "take", 4093);
    wrong = 0;
    while (t.w[JENTURIK_CYCLES] < 2 && wrong == 0) {
        wrong += jenturik_collect_many(LENT(&t), 500).code != 0;
        wrong += !counted();
    }
    check(wrong == 0 && t.w[JENTURIK_FREE_COUNT] == 4092, "all but one are free again",
          "collect_many", (long)t.w[JENTURIK_FREE_COUNT]);
}

int main(void) {
    trial_open();
    lists_open();
    for (uint32_t phase = 0; phase < 8; phase++) pairs(phase, 0), pairs(phase, 1);
    limit(3, 1, 0), limit(4, 1, 1), limit(4, 2, 0), limit(5, 1, 2), limit(M, R, 5);
    limit(66, 64, 0), limit(67, 64, 1), limit(4096, 64, 4030), limit(4096, 1, 4093);
    before_others(1, 1), before_others(8, 0), before_others(8, 6);
    unread();
    take_counts(), take_damaged(), take_at_none(), take_refused();
    takes_of_schedule(3, 0, 1), takes_of_schedule(1, 5, 8);
    append_counts(), append_damaged();
    append_many(0, 5, 0, 7, 4), append_many(1, 5, 0, 7, 5), append_many(3, 3, 2, 6, 6);
    append_many(4, 2, 2, 5, 6), append_many(5, 1, 2, 4, 6);
    others_keep();
    along_runs(300);
    large_run();
    return tally();
}
