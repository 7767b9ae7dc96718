/* What every call must refuse: null arrays [C 11], wrong lengths [Codes 1], words that are no
 * record [C 4], records out of range [Codes 2], jenturik_fresh's sizes [Fresh 7], and all that
 * jenturik_load judges [Load 6] [Load 7]. And what jenturik_in_use counts [In use 1], refuses
 * [In use 2] and does not read [In use 3]. What is refused tells no colours that it changed
 * [Changes 3].
 * The last line is 'N passed, M failed'. */
#define _DEFAULT_SOURCE
#include "lists.h"
#include "refusing.h"

enum { M = 9, R = 2, BIG = 65536 };

static table sound, other;
static lists edges;

static void nulls(void) {
    for (int which = 0; which < 4; which++) {
        bad = sound;
        if (which == 0 || which == 3) bad.lefts = 0;
        if (which == 1 || which == 3) bad.rights = 0;
        if (which == 2 || which == 3) bad.colours = 0;
        all_refuse(1, "null and length 0", which);
        bad.words[JENTURIK_WORDS - 1] = 1;
        all_refuse(2, "null and length 0, words that are no record", which);
    }
    memset(bad.words, 0, sizeof bad.words);
    all_refuse(1, "null and length 0, the record of no nodes", 0);
}

static void lengths(void) {
    static const size_t wrong[] = {1, M - 1, M + 1, 2 * M, 4096, 4097};
    for (size_t i = 0; i < sizeof wrong / sizeof *wrong; i++) {
        bad = sound, bad.lefts = wrong[i], all_refuse(1, "left's length", (long)wrong[i]);
        bad = sound, bad.rights = wrong[i], all_refuse(1, "right's length", (long)wrong[i]);
        bad = sound, bad.colours = wrong[i], all_refuse(1, "colour's length", (long)wrong[i]);
        bad.lefts = bad.rights = wrong[i], all_refuse(1, "all lengths", (long)wrong[i]);
        bad.words[JENTURIK_OWES] = 2,
        all_refuse(2, "all lengths, words that are no record", (long)wrong[i]);
    }
}

static void put_word(int word, uint32_t value, uint32_t code) {
    uint32_t was = bad.words[word];
    bad.words[word] = value;
    all_refuse(code, code == 2 ? "a word out of range" : "a size out of range", word);
    bad.words[word] = was;
}

/* Words whose lower 16 bits are a sound record's, and larger ones. */
static void too_wide(int word) {
    put_word(word, BIG, 2);
    put_word(word, BIG + bad.words[word], 2);
    put_word(word, 0x80000000u + bad.words[word], 2);
    put_word(word, UINT32_MAX, 2);
}

static void words_of_phase(uint32_t phase, uint32_t owes) {
    static const int wide[] = {
        JENTURIK_NODES,     JENTURIK_SLOTS, JENTURIK_I,         JENTURIK_K,
        JENTURIK_OWED,      JENTURIK_LAST,  JENTURIK_BLACKENED, JENTURIK_BLACKENED_LAST_CYCLE,
        JENTURIK_FREE_COUNT};
    static const uint32_t no_phase[] = {8, 9, 256, BIG}, no_owes[] = {2, 256, 257, BIG, BIG + 1};
    bad = sound;
    set_phase(&bad, phase, owes);
    for (size_t i = 0; i < sizeof wide / sizeof *wide; i++) too_wide(wide[i]);
    for (size_t i = 0; i < 4; i++) put_word(JENTURIK_PHASE, no_phase[i], 2);
    for (size_t i = 0; i < 5; i++) put_word(JENTURIK_OWES, no_owes[i], 2);
    put_word(JENTURIK_PHASE, UINT32_MAX, 2);
    put_word(JENTURIK_OWES, UINT32_MAX, 2);
    if (phase != 1) put_word(JENTURIK_K, 1, 2), put_word(JENTURIK_K, 65535, 2);
    if (owes == 0) put_word(JENTURIK_OWED, 1, 2), put_word(JENTURIK_OWED, 2, 2);
    for (int word = JENTURIK_USED; word < JENTURIK_WORDS; word++)
        put_word(word, 1, 2), put_word(word, BIG, 2), put_word(word, UINT32_MAX, 2);
}

/* Records that the words can hold, with a number out of its range. */
static void numbers_of_phase(uint32_t phase) {
    const uint32_t bound = M * M + 7 * M + R + 2;
    bad = sound;
    set_phase(&bad, phase, 1);
    put_word(JENTURIK_NODES, 0, 1), put_word(JENTURIK_NODES, M + 1, 1),
        put_word(JENTURIK_NODES, 65535, 1);
    put_word(JENTURIK_SLOTS, 0, 1), put_word(JENTURIK_SLOTS, M - 1, 1),
        put_word(JENTURIK_SLOTS, 65535, 1);
    put_word(JENTURIK_I, phase == 0 ? R + 2 : M, 2), put_word(JENTURIK_I, 65535, 2);
    if (phase == 1) put_word(JENTURIK_K, 0, 2), put_word(JENTURIK_K, M + 1, 2);
    if (phase > 5)
        put_word(JENTURIK_READ, 1, 2), put_word(JENTURIK_READ, M, 2),
            put_word(JENTURIK_READ, M + 1, 2);
    put_word(JENTURIK_OWED, 1, 2), put_word(JENTURIK_OWED, M, 2);
    put_word(JENTURIK_LAST, 0, 2), put_word(JENTURIK_LAST, R + 1, 2), put_word(JENTURIK_LAST, M, 2);
    put_word(JENTURIK_BLACKENED, M + 1, 2), put_word(JENTURIK_BLACKENED_LAST_CYCLE, M + 1, 2);
    put_word(JENTURIK_STEPS, bound, 2), put_word(JENTURIK_STEPS, UINT32_MAX, 2);
    put_word(JENTURIK_TOOK, bound + 1, 2), put_word(JENTURIK_TOOK, UINT32_MAX, 2);
    bad.words[JENTURIK_CYCLES] = UINT32_MAX, bad.words[JENTURIK_STEPS] = bound - 1,
    bad.words[JENTURIK_TOOK] = bound;
    if (phase > 5) bad.words[JENTURIK_READ] = phase == 6 ? 0 : M - 1;
    lend(&t, &bad, 1);
    check(jenturik_look(LENT(&t), 0, 0, 0).code == 0, "a record at its limits is accepted", "look",
          (long)phase);
    check(ask(&t).code == 0, "a record at its limits is accepted", "in_use", (long)phase);
    check(ask_free(&t).code == 0, "a record at its limits is accepted", "free_count", (long)phase);
}

/* Whether words are a record's, by the header. */
static int is_record(const uint32_t *w) {
    uint32_t phase = w[JENTURIK_PHASE];
    int good = phase <= 7 && (phase == 1 || phase > 5 || w[JENTURIK_K] == 0) &&
               w[JENTURIK_OWES] <= 1 && (w[JENTURIK_OWES] == 1 || w[JENTURIK_OWED] == 0);
    for (int i = 0; i < JENTURIK_USED; i++)
        good = good &&
               (w[i] < BIG || i == JENTURIK_STEPS || i == JENTURIK_CYCLES || i == JENTURIK_TOOK);
    for (int i = JENTURIK_USED; i < JENTURIK_WORDS; i++) good = good && w[i] == 0;
    return good;
}

/* Random words: those that are no record's are refused with 2, and a refused call of either sort
 * leaves them. A call of one step that changes colours tells how many. */
static void random_words(long count) {
    static const uint32_t some[] = {
        0,   1,     2,   5,       7,       8,       M,           255,         256,
        257, 65535, BIG, BIG + 1, BIG + 5, BIG + 7, 0x80000000u, 0xffff0000u, UINT32_MAX};
    int good = 1, kept = 1, counted = 1;
    bad = sound;
    for (long i = 0; i < count; i++) {
        int which = (int)below(CALLS);
        memcpy(bad.words, sound.words, sizeof bad.words);
        set_phase(&bad, below(8), below(2));
        for (uint32_t n = below(4); n > 0; n--)
            bad.words[below(JENTURIK_WORDS)] = below(2) ? some[below(18)] : below(9);
        lend(&t, &bad, (int)below(2));
        answer a = call(&t, which);
        take_back(&t, &after);
        if (which != MANY && which != FREED && a.changed != changes(&bad, &after)) counted = 0;
        if (!is_record(bad.words) && (a.code != 2 || a.done != 0)) good = 0;
        if (a.code != 0 && a.done == 0 && !same(&bad, &after)) kept = 0;
        if (is_record(bad.words) && !is_record(after.words)) kept = 0;
    }
    check(good, "random words that are no record are refused with 2", "all calls", count);
    check(kept, "a refused call on random words changes nothing", "all calls", count);
    check(counted, "a call on random words tells the colours that it changed", "all calls", count);
}

/* The bad table, lent to a start with words that are no record's. */
static void lend_bad(int high) {
    memset(bad.words, 0xff, sizeof bad.words);
    lend(&t, &bad, high);
}

/* A start refused: the code, the node and the detail, the arrays stay, the words are the record of
 * no nodes. */
static void start_refused(jenturik_told a, uint32_t code, uint32_t node, uint32_t detail,
                          const char *why, const char *name, long n) {
    take_back(&t, &after);
    check(a.code == code && a.what == 0 && a.node == node && a.detail == detail && a.changed == 0,
          why, name, n);
    memset(bad.words, 0, sizeof bad.words);
    check(same(&bad, &after), "a refused start leaves the arrays, and the words are all 0", name,
          n);
}

static void fresh_refuses(uint32_t nodes, uint32_t slots) {
    for (int high = 0; high < 2; high++) {
        lend_bad(high);
        start_refused(jenturik_fresh(LENT(&t), nodes, slots), 1, 0, 0, "fresh refuses", "fresh",
                      (long)nodes);
    }
}

static void fresh_edges(void) {
    static const uint32_t nodes[] = {0, 1, 2, 4097, 65535, BIG + M, 0xfffffff0u, UINT32_MAX},
                          slots[] = {0, 65, M - 1, M, BIG + 1, UINT32_MAX};
    bad = sound;
    for (size_t i = 0; i < 8; i++) fresh_refuses(nodes[i], 1);
    for (size_t i = 0; i < 6; i++) fresh_refuses(M, slots[i]);
    fresh_refuses(M - 1, 1), fresh_refuses(M + 1, 1);
    bad = sound, bad.lefts = 0, fresh_refuses(M, R);
    bad = sound, bad.rights = M - 1, fresh_refuses(M, R);
    bad = sound, bad.colours = M + 1, fresh_refuses(M, R);
    bad.lefts = bad.rights = bad.colours = 0, fresh_refuses(M, R), fresh_refuses(0, 0),
    fresh_refuses(0, 1);
    bad.lefts = bad.rights = bad.colours = 2, fresh_refuses(2, 1);
    bad.lefts = bad.rights = bad.colours = 4097, fresh_refuses(4097, 1);
    bad.lefts = bad.rights = bad.colours = 65, fresh_refuses(65, 64);
    bad.lefts = bad.rights = bad.colours = 67, fresh_refuses(67, 65);
    make_fresh(&other, 66, 64), check(other.words[JENTURIK_LAST] == 1,
                                      "66 nodes and 64 slots: the free list is empty", "fresh", 66);
    make_fresh(&other, 4096, 1),
        check(other.words[JENTURIK_LAST] == 4095, "4096 nodes", "fresh", 4096);
}

/* The edges of a table, as lists. */
static void list(const table *s) {
    edges.lefts = s->lefts, edges.rights = s->rights;
    for (size_t i = 0; i < s->lefts; i++) edges.left[i] = s->left[i];
    for (size_t i = 0; i < s->rights; i++) edges.right[i] = s->right[i];
}

static void load_refuses_by(uint32_t nodes, uint32_t slots, uint32_t code, uint32_t node,
                            uint32_t detail, const char *why, long n) {
    for (int high = 0; high < 2; high++) {
        lend_bad(high);
        start_refused(load(&t, &edges, nodes, slots, high), code, node, detail, why, "load", n);
    }
}

static void load_refuses(uint32_t nodes, uint32_t slots, uint32_t code, uint32_t node,
                         const char *why, long n) {
    load_refuses_by(nodes, slots, code, node, 0, why, n);
}

/* Accepted: the table is the lists', all white, and its record has this last, this free count and
 * other counts of 0. */
static void load_accepts(uint32_t nodes, uint32_t slots, uint32_t last, uint32_t count,
                         const char *why) {
    for (int high = 0; high < 2; high++) {
        lend_bad(high);
        jenturik_told a = load(&t, &edges, nodes, slots, high);
        take_back(&t, &after);
        int good = a.code == 0 && a.what == JENTURIK_STARTED && a.node == last && a.changed == 0;
        for (uint32_t i = 0; i < nodes; i++)
            good = good && after.left[i] == edges.left[i] && after.right[i] == edges.right[i] &&
                   after.colour[i] == 0;
        for (int word = 0; word < JENTURIK_WORDS; word++)
            good = good && after.words[word] == (word == JENTURIK_NODES        ? nodes
                                                 : word == JENTURIK_SLOTS      ? slots
                                                 : word == JENTURIK_LAST       ? last
                                                 : word == JENTURIK_FREE_COUNT ? count
                                                                               : 0);
        check(good, why, "load", (long)last);
    }
}

/* Null and length 0, and other wrong lengths: each of the five arrays alone, and all of them. */
static void load_lengths(void) {
    static const size_t wrong[] = {0, 1, M - 1, M + 1, 2 * M, 4096, 4097};
    size_t *const lengths[] = {&bad.lefts, &bad.rights, &bad.colours, &edges.lefts, &edges.rights};
    for (size_t i = 0; i < sizeof wrong / sizeof *wrong; i++) {
        bad = sound, list(&sound);
        for (int which = 0; which < 5; which++) {
            *lengths[which] = wrong[i];
            load_refuses(M, R, 1, 0, "an array's length", which);
            *lengths[which] = M;
        }
        for (int which = 0; which < 5; which++) *lengths[which] = wrong[i];
        load_refuses(M, R, 1, 0, "all lengths", (long)wrong[i]);
    }
    for (int which = 0; which < 5; which++) *lengths[which] = 0;
    load_refuses(0, 0, 1, 0, "all are null", 0), load_refuses(0, 1, 1, 0, "all are null", 1);
}

static void load_sizes(void) {
    static const uint32_t nodes[] = {0, 1, 2, M - 1, M + 1, 4097, BIG + M, UINT32_MAX},
                          slots[] = {0, 65, M - 1, M, BIG + R, UINT32_MAX};
    bad = sound, list(&sound);
    for (size_t i = 0; i < 8; i++) load_refuses(nodes[i], R, 1, 0, "nodes", (long)nodes[i]);
    for (size_t i = 0; i < 6; i++) load_refuses(M, slots[i], 1, 0, "slots", (long)slots[i]);
}

/* A node's edge on a side becomes this, in the lists of a fresh table. */
static void set_edge(uint32_t node, int side, uint32_t edge) {
    (side == 0 ? edges.left : edges.right)[node] = edge;
}

/* One edge of a fresh table's lists is changed; refused with this code and node, and 11 with the
 * side. */
static void load_edge(uint32_t node, int side, uint32_t edge, uint32_t code, uint32_t told) {
    list(&other), set_edge(node, side, edge);
    load_refuses_by(M, R, code, told, code == 11 ? (uint32_t)side : 0, "an edge", (long)edge);
}

/* Bad edges, among them such as are good in their lower 16 bits: 11 and the lowest node. */
static void load_bad_edges(void) {
    static const uint32_t wrong[] = {1, M, 4096, 65535, BIG, BIG + 5, 0x80000000u, UINT32_MAX};
    for (size_t i = 0; i < 8; i++)
        for (int side = 0; side < 2; side++)
            load_edge(0, side, wrong[i], 11, 0), load_edge(3, side, wrong[i], 11, 3),
                load_edge(M - 1, side, wrong[i], 11, M - 1);
    load_edge(0, 0, 2, 11, 0), load_edge(0, 1, M - 1, 11, 0);
    list(&other), set_edge(7, 0, 1), set_edge(5, 1, M), set_edge(1, 1, 4), set_edge(2, 0, 6);
    load_refuses_by(M, R, 11, 5, 1, "the lowest, and before 12 and 13", 5);
    set_edge(5, 0, 1), load_refuses(M, R, 11, 5, "left before right", 5);
}

/* The free list, FREE to 4 to 5 .. to 8, broken: 12 and the first node at which it is. */
static void load_chains(void) {
    load_edge(1, 0, 2, 12, 1), load_edge(1, 1, 2, 12, 1), load_edge(1, 1, 4, 12, 1);
    load_edge(6, 0, 3, 12, 6), load_edge(6, 1, 2, 12, 6), load_edge(6, 0, 4, 12, 6);
    load_edge(8, 0, 8, 12, 8), load_edge(8, 0, 4, 12, 8), load_edge(8, 1, 8, 12, 8);
    list(&other), set_edge(7, 1, 2), set_edge(5, 0, 3), set_edge(2, 0, 4);
    load_refuses(M, R, 12, 5, "the first, and before 13", 5);
}

/* A slot leads to a free node: 13 and the lowest. */
static void load_shared(void) {
    load_edge(2, 0, 4, 13, 4), load_edge(3, 1, 8, 13, 8), load_edge(2, 1, 6, 13, 6);
    list(&other), set_edge(2, 0, 8), set_edge(3, 1, 5);
    load_refuses(M, R, 13, 5, "the lowest", 5);
    list(&other), set_edge(1, 0, 8), set_edge(8, 0, 6), set_edge(6, 0, 4), set_edge(4, 0, 0);
    set_edge(2, 0, 7), set_edge(7, 1, 6);
    load_refuses(M, R, 13, 4, "the lowest, not the first that is met", 4);
}

/* Accepted: what a run left, garbage with any good edges, an empty free list, M of 4,096. */
static void load_accepted(void) {
    bad = sound, list(&sound);
    load_accepts(M, R, sound.words[JENTURIK_LAST], free_nodes(sound.left), "what a run left");
    list(&other), load_accepts(M, R, M - 1, 5, "a fresh table's edges");
    set_edge(7, 0, 0), load_accepts(M, R, 7, 4, "last is the end of the free list");
    set_edge(8, 1, 4), load_accepts(M, R, 7, 4, "garbage leads to a free node");
    set_edge(8, 0, 6), load_accepts(M, R, 7, 4, "garbage looks like a free list");
    set_edge(1, 0, 0), set_edge(2, 0, 5), set_edge(3, 1, 2);
    load_accepts(M, R, 1, 0, "no node is free");
    make_fresh(&bad, 4096, 64), list(&bad), load_accepts(4096, 64, 4095, 4030, "4096 nodes");
    bad.lefts = bad.rights = bad.colours = edges.lefts = edges.rights = 3;
    memset(edges.left, 0, 12), load_accepts(3, 1, 1, 0, "3 nodes");
}

static void load_edges(void) {
    load_lengths();
    load_sizes();
    bad = sound, make_fresh(&other, M, R);
    load_bad_edges();
    load_chains();
    load_shared();
    load_accepted();
}

/* In use of the bad table: the code, the number or node, and the side; everything stays. */
static void tells_side(uint32_t code, uint32_t number, uint32_t side, const char *why, long n) {
    for (int high = 0; high < 2; high++) {
        lend(&t, &bad, high);
        jenturik_told a = ask(&t);
        take_back(&t, &after);
        check(a.code == code && a.node == number && a.detail == side && a.changed == 0 &&
                  a.what == (code == 0 ? JENTURIK_COUNTED : JENTURIK_REFUSED),
              why, "in_use", n);
        check(same(&bad, &after), "nothing is changed", "in_use", n);
    }
}

static void tells(uint32_t code, uint32_t number, const char *why, long n) {
    tells_side(code, number, 0, why, n);
}

/* Sound tables of 9 nodes and 2 slots: 2 and 3 are the slots' nodes, from 4 on all are free. */
static void in_use_counts(void) {
    bad = other, tells(0, 0, "a fresh table", 0);
    bad.left[2] = 3, bad.right[3] = 2, bad.right[2] = 2, tells(0, 0, "slots alone", 0);
    bad.left[1] = 7, bad.left[3] = 5, bad.left[5] = 0, tells(0, 1, "one node", 5);
    bad.right[5] = 4, bad.left[4] = 6, bad.left[6] = 5, bad.right[6] = 3;
    tells(0, 3, "a ring through a slot", 3);
    bad.right[2] = 6, tells(0, 3, "a node that two lead to", 6);
    bad.left[1] = 0, bad.left[8] = 4, bad.right[7] = 5, tells(0, 3, "garbage leads to nodes", 3);
    bad.left[6] = bad.left[3] = 0, tells(0, 1, "two of them cut off", 1);
    make_fresh(&bad, 3, 1), tells(0, 0, "3 nodes", 3);
    make_fresh(&bad, 66, 64), tells(0, 0, "66 nodes and 64 slots", 66);
    make_fresh(&bad, 4096, 64), bad.left[65] = 66, bad.left[1] = 0;
    tells(0, 4030, "4096 nodes, all in use", 4096);
}

/* The same number whatever the colours are, in each phase, and with a shade owed or not. */
static void in_use_reads(void) {
    bad = other, bad.right[3] = 7;
    for (uint32_t phase = 0; phase < 8; phase++) {
        set_phase(&bad, phase, phase % 2);
        for (uint32_t i = 0; i < M; i++) bad.colour[i] = (uint8_t)below(256);
        tells(0, 2, "any colours, each phase", (long)phase);
    }
}

/* Node 4 is in use, and leads to 7 and 8, and 6 is garbage. One edge becomes bad, or two. */
static void in_use_edge(uint32_t node, int side, uint16_t edge) {
    (side == 0 ? bad.left : bad.right)[node] = edge;
}

static void make_in_use(void) {
    bad = other;
    bad.left[1] = 5, bad.left[5] = bad.left[6] = 0;
    bad.right[2] = 4, bad.left[4] = 7, bad.right[4] = 8, bad.left[7] = bad.left[8] = 0;
}

static void in_use_refuses(void) {
    static const uint16_t wrong[] = {1, M, M + 4, 255 * 256 + 4, 65535};
    static const uint32_t judged[] = {2, 3, 4, 7, 8}, passed_by[] = {0, 1, 5, 6};
    for (int i = 0; i < 5; i++)
        for (int side = 0; side < 2; side++) {
            for (int j = 0; j < 5; j++) {
                if (judged[j] == 2 && side == 1) continue; /* the way to 4, 7 and 8 */
                make_in_use(), in_use_edge(judged[j], side, wrong[i]);
                tells_side(7, judged[j], (uint32_t)side, "a bad edge", (long)wrong[i]);
            }
            for (int j = 0; j < 4; j++) {
                make_in_use(), in_use_edge(passed_by[j], side, wrong[i]);
                tells(0, 3, "a bad edge where no slot leads", (long)passed_by[j]);
            }
        }
    make_in_use(), in_use_edge(8, 0, 1), in_use_edge(7, 1, M), in_use_edge(6, 0, 1);
    tells_side(7, 7, 1, "the lowest", 7);
    in_use_edge(4, 0, 65535), tells(7, 4, "the lowest", 4);
    in_use_edge(4, 0, 7), in_use_edge(4, 1, M), tells_side(7, 4, 1, "the lowest", 4);
    make_in_use(), bad.right[2] = 8, bad.left[8] = 4, in_use_edge(8, 1, 1), in_use_edge(4, 0, 1);
    tells(7, 4, "past a bad edge along the good one", 4);
    bad.left[8] = 0, tells_side(7, 8, 1, "none behind a bad edge", 8);
    bad.words[JENTURIK_LAST] = 0, tells(2, 0, "2 comes before 7", 2);
    bad.colours--, tells(1, 0, "1 comes before 2", 1);
}

/* Damaged: a slot leads to free nodes, which count as others do. */
static void in_use_free(void) {
    bad = other, bad.left[2] = 5, tells(0, 4, "free nodes that a slot leads to", 4);
    bad.left[3] = 4, tells(0, 5, "all of them", 5);
    make_fresh(&bad, 4096, 64), bad.right[65] = 66, bad.right[4095] = 4096;
    tells_side(7, 4095, 1, "the last of 4096 nodes", 4095);
    bad.right[4095] = 0, bad.left[2] = 1, tells(7, 2, "a slot of 4096 nodes", 2);
}

static void in_use_edges(void) {
    make_fresh(&other, M, R);
    in_use_counts();
    in_use_reads();
    in_use_refuses();
    in_use_free();
}

int main(void) {
    trial_open();
    lists_open();
    make_sound(&sound, M, R, 6);
    nulls();
    lengths();
    for (uint32_t phase = 0; phase < 8; phase++)
        words_of_phase(phase, 0), words_of_phase(phase, 1), numbers_of_phase(phase);
    random_words(20000);
    fresh_edges();
    load_edges();
    in_use_edges();
    return tally();
}
