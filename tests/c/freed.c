/* Collector steps that list the nodes that they free, jenturik_collect_freed, against single steps,
 * each of which tells the node that it appended: the same state, list, counts, code and detail, for
 * sound tables and damaged ones, in every phase, for lists of several lengths. A list is full after
 * so many nodes, and the next call goes on. The list of M entries is never full.
 * The last line is 'N passed, M failed'. */
#define _DEFAULT_SOURCE
#include "trial.h"

enum { LIST = 65600, EMPTY = 0xbeef, SIZES = 5, LENGTHS = 7 };

static table start, singly;
static fence list;
static uint16_t *freed, expected[LIST], empty[LIST], longer[LIST];
static long appended, stopped, codes[16];

/* What single steps do from what is lent: n of them, until `room` nodes are appended or one is
 * refused. */
static jenturik_freed one_by_one(size_t n, size_t room) {
    jenturik_last none = jenturik_collect_many(LENT(&t), 0);
    jenturik_freed all = {0, 0, 0, none.code, 0};
    while (all.code == 0 && all.done < n && all.freed < room) {
        jenturik_told a = jenturik_collect(LENT(&t));
        all.code = (uint8_t)a.code, all.detail = (uint8_t)a.detail;
        all.done += a.code == 0;
        all.changed += a.changed;
        if (a.what == JENTURIK_APPENDED) expected[all.freed++] = (uint16_t)a.node;
    }
    return all;
}

/* The list is lent: within a fence, unless it is too long for one. */
static void lend_list(size_t length, int high) {
    if (length <= 60000) {
        freed = fence_lay(&list, empty, 2 * length, high);
    } else {
        fence_lay(&list, empty, 0, 1);
        memcpy(longer, empty, sizeof longer);
        freed = longer;
    }
}

static int same_answer(jenturik_freed a, jenturik_freed b) {
    return a.done == b.done && a.changed == b.changed && a.freed == b.freed && a.code == b.code &&
           a.detail == b.detail;
}

/* The list has the nodes expected, and behind them what it had. */
static int same_list(size_t nodes, size_t length) {
    return fence_kept(&list) && (nodes == 0 || memcmp(freed, expected, 2 * nodes) == 0) &&
           (length == nodes || memcmp(freed + nodes, empty, 2 * (length - nodes)) == 0);
}

/* After a refusal the next single step is refused for the same reason. */
static void refused_again(jenturik_freed a, const char *why, long n) {
    jenturik_told b = jenturik_collect(LENT(&t));
    check(b.code == a.code && b.detail == a.detail, why, "the next step is refused alike", n);
    check((b.node != 0) <= (b.code == 7 || b.code >= 14), why, "and tells its node", n);
    take_back(&t, &after);
    check(same(&singly, &after), why, "and changes nothing", n);
}

/* The start by single steps and at once. */
static void compare(size_t n, size_t length, const char *why) {
    int high = (int)below(2);
    lend(&t, &start, high);
    jenturik_freed want = one_by_one(n, length < 65535 ? length : 65535);
    take_back(&t, &singly);
    lend(&t, &start, high);
    lend_list(length, high);
    jenturik_freed got = jenturik_collect_freed(LENT(&t), n, freed, length);
    take_back(&t, &after);
    check(same_answer(want, got), why, "answer", (long)n);
    check(same(&singly, &after), why, "state", (long)n);
    check(same_list(want.freed, length), why, "list", (long)length);
    check(length < start.words[JENTURIK_NODES] || got.code != 0 || got.done == n, why,
          "a list of M entries is never full", (long)n);
    appended += got.freed;
    stopped += got.code == 0 && got.done < n && length != 0;
    codes[got.code]++;
    if (got.code != 0) refused_again(got, why, (long)n);
}

/* Numbers of steps and lengths of lists, the longest no more than seldom. */
static void compare_all(const char *why) {
    size_t m = start.lefts;
    size_t steps[SIZES] = {0, 1, 7, below((uint32_t)(4 * m)), 3 * jenturik_bound((uint32_t)m, 1)};
    size_t lengths[LENGTHS] = {0, 1, 2, 3, m, 65535 + below(3), below((uint32_t)m)};
    for (int i = 0; i < SIZES - (m > 100); i++)
        for (int j = 0; j < LENGTHS; j++)
            if (j != 5 || below(8) == 0) compare(steps[i], lengths[j], why);
}

/* The start with a list that gets full again and again, against many steps at once. */
static void pieces(size_t n, size_t length) {
    size_t done = 0;
    lend(&t, &start, 1);
    jenturik_last all = jenturik_collect_many(LENT(&t), n);
    take_back(&t, &singly);
    lend(&t, &start, 1);
    lend_list(length, 1);
    jenturik_freed a = {0, 0, 0, 0, 0};
    uint32_t changed = 0;
    do {
        a = jenturik_collect_freed(LENT(&t), n - done, freed, length);
        done += a.done, changed += a.changed;
    } while (a.code == 0 && done < n && a.freed == length);
    take_back(&t, &after);
    check(done == all.done && changed == all.changed && a.code == all.code, "in pieces", "answer",
          (long)n);
    check(same(&singly, &after), "in pieces", "state", (long)n);
}

static uint32_t some_nodes(void) {
    static const uint32_t most[] = {3, 6, 12, 12, 40, 40, 40, 300};
    uint32_t m = most[below(8)];
    return m == 3 || below(40) != 0 ? 3 + below(m - 2) : 4096;
}

static void make_start(void) {
    uint32_t m = some_nodes();
    make_sound(&start, m, 1 + below(m - 2 < 5 ? m - 2 : 5), below(2 * (m < 300 ? m : 300)));
}

/* In the last phase, anywhere in it, with most nodes white: so that many are appended. */
static void near_the_end(void) {
    uint32_t m = start.words[JENTURIK_NODES];
    start.words[JENTURIK_PHASE] = 5;
    start.words[JENTURIK_I] = below(m);
    start.words[JENTURIK_K] = 0;
    for (uint32_t i = 0; i < m; i++) start.colour[i] = below(3) == 0 ? 2 : 0;
    for (uint32_t i = 0; i < start.words[JENTURIK_SLOTS] + 2; i++) start.colour[i] = 2;
    if (below(2)) start.colour[start.words[JENTURIK_LAST]] = 2;
}

/* One thing is damaged: an edge, a colour, a number of the record, or a length. */
static void damage(void) {
    uint32_t m = start.words[JENTURIK_NODES], i = below(m);
    switch (below(12)) {
    case 0:
        start.words[below(JENTURIK_USED)] = below(2) ? below(m + 2) : below(65536);
        break;
    case 1:
        start.words[JENTURIK_FREE_COUNT] = below(m);
        break;
    case 2:
        start.words[JENTURIK_LAST] = below(m);
        break;
    case 3:
        *(below(2) ? &start.lefts : &start.colours) -= 1;
        break;
    case 4:
    case 5:
        start.colour[i] = (uint8_t)below(4);
        break;
    default:
        (below(2) ? start.left : start.right)[i] = (uint16_t)(below(8) ? below(m) : below(65536));
    }
}

static void trial(void) {
    make_start();
    compare_all("a sound table");
    pieces(below(4 * (uint32_t)start.lefts), 1 + below(3));
    for (int i = 0; i < 3; i++) {
        make_start();
        if (below(2)) near_the_end();
        for (uint32_t n = below(4); n > 0; n--) damage();
        compare_all("a damaged table");
        pieces(below(4 * (uint32_t)start.lefts), 1 + below(3));
    }
}

int main(void) {
    static const int met[] = {0, 1, 2, 7, 14, 15};
    trial_open();
    fence_open(&list);
    for (size_t i = 0; i < LIST; i++) empty[i] = EMPTY;
    for (int i = 0; i < 300; i++) trial();
    for (int i = 0; i < 6; i++) check(codes[met[i]] > 100, "calls that end so", "code", met[i]);
    check(appended > 10000 && stopped > 1000, "nodes appended, and lists full", "freed", appended);
    return tally();
}
