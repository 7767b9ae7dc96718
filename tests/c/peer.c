/* The calls of include/jenturik.h in plain C, to measure against and to compare with: the same
   arguments, the same tests in the same order, the same answers. The words are read where they
   stand, and only those that change are written. Who has both the library and this in one program
   gives these other names (-Djenturik_take=gcc_take). */
#include "jenturik.h"
#include <string.h>

enum phase { ROOTS, SCAN, LEFT, RIGHT, BLACK, APPEND, SHADE_LEFT, SHADE_RIGHT };
enum { MOST_NODES = 4096, MOST_SLOTS = 64, MOST_TURNS = 12 };

/* Small functions become part of the calls. */
#define ALWAYS static inline __attribute__((always_inline))

struct table {
    uint16_t *left, *right;
    uint8_t *colour;
    uint32_t *w;
};

struct place {
    uint32_t slot, count, word;
};

/* What a call is lent: all of it to write to, or all to read. */
#define LENT                                                                                       \
    uint16_t *restrict left, size_t lefts, uint16_t *restrict right, size_t rights,                \
        uint8_t *restrict colour, size_t colours, uint32_t w[restrict JENTURIK_WORDS]
#define SHOWN                                                                                      \
    const uint16_t *left, size_t lefts, const uint16_t *right, size_t rights,                      \
        const uint8_t *colour, size_t colours, const uint32_t w[JENTURIK_WORDS]

ALWAYS jenturik_told did(uint32_t what, uint32_t node, uint32_t changed) {
    jenturik_told a = {what, 0, 0, node, changed};
    return a;
}

ALWAYS jenturik_told refuse(uint16_t code, uint32_t node, uint16_t detail) {
    jenturik_told a = {JENTURIK_REFUSED, code, detail, node, 0};
    return a;
}

ALWAYS uint32_t bound(uint32_t m, uint32_t r) { return m * m + 7 * m + r + 2; }

/* Whether the words form a record. */
ALWAYS int is_record(const uint32_t *w) {
    uint32_t phase = w[JENTURIK_PHASE], owes = w[JENTURIK_OWES], unused = 0;
    uint32_t wide = w[JENTURIK_NODES] | w[JENTURIK_SLOTS] | w[JENTURIK_I] | w[JENTURIK_K] |
                    w[JENTURIK_OWED] | w[JENTURIK_LAST] | w[JENTURIK_BLACKENED] |
                    w[JENTURIK_BLACKENED_LAST_CYCLE] | w[JENTURIK_FREE_COUNT];
    for (int i = JENTURIK_USED; i < JENTURIK_WORDS; i++) unused |= w[i];
    if (wide > 65535 || unused != 0 || phase > SHADE_RIGHT || owes > 1) return 0;
    if (phase != SCAN && phase < SHADE_LEFT && w[JENTURIK_K] != 0) return 0;
    return owes == 1 || w[JENTURIK_OWED] == 0;
}

ALWAYS int is_size(uint32_t m, uint32_t r, size_t lefts, size_t rights, size_t colours) {
    return m >= 3 && m <= MOST_NODES && r >= 1 && r <= MOST_SLOTS && r + 2 <= m && lefts == m &&
           rights == m && colours == m;
}

/* Codes 1 and 2, of words that form a record. */
ALWAYS int check(size_t lefts, size_t rights, size_t colours, const uint32_t *w) {
    uint32_t m = w[JENTURIK_NODES], r = w[JENTURIK_SLOTS], phase = w[JENTURIK_PHASE];
    uint32_t i = w[JENTURIK_I], k = w[JENTURIK_K], owed = w[JENTURIK_OWED], b = bound(m, r);
    uint32_t last = w[JENTURIK_LAST], free = w[JENTURIK_FREE_COUNT];
    if (!is_size(m, r, lefts, rights, colours)) return 1;
    if (phase == ROOTS ? i > r + 1 : i >= m) return 2;
    if (phase == SCAN && (k < 1 || k > m)) return 2;
    if (phase >= SHADE_LEFT && (k == 1 || k >= m)) return 2;
    if (owed == 1 || owed >= m) return 2;
    if (last != 1 && (last < r + 2 || last >= m)) return 2;
    if (free > m - r - 2 || (free == 0) != (last == 1)) return 2;
    if (w[JENTURIK_BLACKENED] > m || w[JENTURIK_STEPS] >= b) return 2;
    if (w[JENTURIK_BLACKENED_LAST_CYCLE] > m || w[JENTURIK_TOOK] > b) return 2;
    return 0;
}

ALWAYS int judge(size_t lefts, size_t rights, size_t colours, const uint32_t *w) {
    return is_record(w) ? check(lefts, rights, colours, w) : 2;
}

ALWAYS int is_bad(uint32_t m, uint32_t e) { return e >= m || e == 1; }

/* Makes a white node gray; 1 if it was white. */
ALWAYS uint32_t shade_node(uint8_t *colour, uint32_t n) {
    if (colour[n] != 0) return 0;
    colour[n] = 1;
    return 1;
}

/* The collector. */

ALWAYS void go(uint32_t *w, uint32_t phase, uint32_t i, uint32_t k) {
    w[JENTURIK_PHASE] = phase, w[JENTURIK_I] = i, w[JENTURIK_K] = k, w[JENTURIK_STEPS]++;
}

ALWAYS uint32_t after(uint32_t m, uint32_t i) { return i + 1 == m ? 0 : i + 1; }

ALWAYS jenturik_told shade_root(struct table t) {
    uint32_t *w = t.w, i = w[JENTURIK_I];
    if (t.colour[i] > 2) return refuse(14, i, 0);
    uint32_t changed = shade_node(t.colour, i);
    if (i == w[JENTURIK_SLOTS] + 1)
        go(w, SCAN, 0, w[JENTURIK_NODES]);
    else
        w[JENTURIK_I]++, w[JENTURIK_STEPS]++;
    return did(JENTURIK_SHADED, i, changed);
}

ALWAYS jenturik_told look_at(struct table t) {
    uint32_t *w = t.w, i = w[JENTURIK_I], k = w[JENTURIK_K];
    if (t.colour[i] > 2) return refuse(14, i, 0);
    if (t.colour[i] == 1) {
        w[JENTURIK_PHASE] = LEFT, w[JENTURIK_K] = 0, w[JENTURIK_STEPS]++;
    } else if (k == 1) {
        go(w, APPEND, 0, 0);
        w[JENTURIK_BLACKENED_LAST_CYCLE] = w[JENTURIK_BLACKENED];
    } else {
        w[JENTURIK_I] = after(w[JENTURIK_NODES], i), w[JENTURIK_K] = k - 1, w[JENTURIK_STEPS]++;
    }
    return did(JENTURIK_LOOKED, i, 0);
}

ALWAYS jenturik_told read_edge(struct table t, uint32_t e, uint32_t side) {
    uint32_t *w = t.w, i = w[JENTURIK_I];
    if (is_bad(w[JENTURIK_NODES], e)) return refuse(7, i, side);
    w[JENTURIK_PHASE] = side ? SHADE_RIGHT : SHADE_LEFT, w[JENTURIK_K] = e, w[JENTURIK_STEPS]++;
    return did(JENTURIK_LOOKED, i, 0);
}

ALWAYS jenturik_told shade_read(struct table t, uint32_t then) {
    uint32_t *w = t.w, n = w[JENTURIK_READ];
    if (t.colour[n] > 2) return refuse(14, n, 0);
    uint32_t changed = shade_node(t.colour, n);
    w[JENTURIK_PHASE] = then, w[JENTURIK_K] = 0, w[JENTURIK_STEPS]++;
    return did(JENTURIK_SHADED, n, changed);
}

ALWAYS jenturik_told blacken(struct table t) {
    uint32_t *w = t.w, i = w[JENTURIK_I], m = w[JENTURIK_NODES], changed = t.colour[i] != 2;
    t.colour[i] = 2;
    w[JENTURIK_BLACKENED]++;
    go(w, SCAN, after(m, i), m);
    return did(JENTURIK_MADE_BLACK, i, changed);
}

ALWAYS void after_append(uint32_t *w, uint32_t i) {
    if (i + 1 != w[JENTURIK_NODES]) {
        w[JENTURIK_I] = i + 1, w[JENTURIK_STEPS]++;
        return;
    }
    w[JENTURIK_TOOK] = w[JENTURIK_STEPS] + 1, w[JENTURIK_STEPS] = 0, w[JENTURIK_BLACKENED] = 0;
    if (w[JENTURIK_CYCLES] != UINT32_MAX) w[JENTURIK_CYCLES]++;
    w[JENTURIK_PHASE] = ROOTS, w[JENTURIK_I] = 0;
}

ALWAYS jenturik_told append(struct table t) {
    uint32_t *w = t.w, i = w[JENTURIK_I], last = w[JENTURIK_LAST];
    if (t.colour[i] == 2) {
        t.colour[i] = 0;
        after_append(w, i);
        return did(JENTURIK_WHITENED, i, 1);
    }
    if (t.colour[i] > 2) return refuse(14, i, 0);
    if (t.colour[i] == 1) return refuse(15, i, JENTURIK_GRAY);
    if (i <= w[JENTURIK_SLOTS] + 1) return refuse(15, i, JENTURIK_WHITE_ROOT);
    if (i == last) return refuse(15, i, JENTURIK_WHITE_LAST);
    t.left[i] = 0, t.right[i] = 0, t.left[last] = i;
    w[JENTURIK_LAST] = i, w[JENTURIK_FREE_COUNT]++;
    after_append(w, i);
    return did(JENTURIK_APPENDED, i, 0);
}

ALWAYS jenturik_told phase_step(struct table t) {
    uint32_t i = t.w[JENTURIK_I];
    switch (t.w[JENTURIK_PHASE]) {
    case ROOTS:
        return shade_root(t);
    case SCAN:
        return look_at(t);
    case LEFT:
        return read_edge(t, t.left[i], 0);
    case SHADE_LEFT:
        return shade_read(t, RIGHT);
    case RIGHT:
        return read_edge(t, t.right[i], 1);
    case SHADE_RIGHT:
        return shade_read(t, BLACK);
    case BLACK:
        return blacken(t);
    default:
        return append(t);
    }
}

jenturik_told jenturik_collect(LENT) {
    int code = judge(lefts, rights, colours, w);
    if (code) return refuse(code, 0, 0);
    return phase_step((struct table){left, right, colour, w});
}

ALWAYS size_t least(size_t a, size_t b) { return a < b ? a : b; }

/* How many of d colours come before the first above 2. By itself the loop is made of vectors. */
static __attribute__((noinline)) size_t good(const uint8_t *colour, size_t d) {
    uint8_t most = 0;
    for (size_t j = 0; j < d; j++) most = colour[j] > most ? colour[j] : most;
    if (most <= 2) return d;
    size_t j = 0;
    while (colour[j] <= 2) j++;
    return j;
}

/* How many looks from here on, at most `most`, find neither a gray node nor a bad colour. Where
   `clean` is set, no colour of the table is bad. */
ALWAYS size_t idle(const uint8_t *colour, size_t most, int clean) {
    if (most == 0 || *colour == 1) return 0;
    const uint8_t *gray = memchr(colour, 1, most);
    size_t d = gray ? (size_t)(gray - colour) : most;
    return clean ? d : good(colour, d);
}

jenturik_last jenturik_collect_many(LENT, size_t n) {
    jenturik_last all = {0, 0, 0, JENTURIK_NAMED, 0, 0};
    int code = judge(lefts, rights, colours, w);
    if (code) return (jenturik_last){0, 0, 0, JENTURIK_REFUSED, code, 0};
    uint32_t m = w[JENTURIK_NODES], r = w[JENTURIK_SLOTS], b = bound(m, r);
    struct table t = {left, right, colour, w};
    size_t changed = 0;
    /* steps make no colour bad: where there are many, all colours are judged once */
    int clean = n >= m && good(colour, m) == m;
    while (all.done < n) {
        if (w[JENTURIK_STEPS] >= b || w[JENTURIK_BLACKENED] > m ||
            w[JENTURIK_FREE_COUNT] > m - r - 2) {
            all.what = JENTURIK_REFUSED, all.code = 2, all.detail = 0, all.node = 0;
            break;
        }
        if (w[JENTURIK_PHASE] == SCAN) {
            uint32_t i = w[JENTURIK_I], k = w[JENTURIK_K], steps = w[JENTURIK_STEPS];
            size_t d =
                idle(colour + i,
                     least(least(n - all.done - 1, k - 1), least(m - 1 - i, b - 1 - steps)), clean);
            w[JENTURIK_I] = i + d, w[JENTURIK_K] = k - d, w[JENTURIK_STEPS] = steps + d;
            all.done += d;
        }
        jenturik_told a = phase_step(t);
        all.what = a.what, all.code = a.code, all.detail = a.detail, all.node = a.node;
        changed += a.changed;
        if (a.code) break;
        all.done++;
    }
    all.changed = changed < UINT32_MAX ? changed : UINT32_MAX;
    return all;
}

/* The editor. */

ALWAYS int place_code(uint32_t r, struct place p) {
    if (p.slot >= r) return 3;
    return p.count > MOST_TURNS || p.word >> p.count != 0 ? 4 : 0;
}

/* The node at a place; or code 7, with the node that has the bad edge and the side. */
ALWAYS jenturik_told walk(const uint16_t *left, const uint16_t *right, uint32_t m, struct place p) {
    uint32_t n = p.slot + 2;
    for (; p.count > 0 && n != 0; p.count--, p.word >>= 1) {
        uint32_t side = p.word & 1, e = (side ? right : left)[n];
        if (is_bad(m, e)) return refuse(7, n, side);
        n = e;
    }
    return did(JENTURIK_NAMED, n, 0);
}

ALWAYS jenturik_told look(const uint16_t *left, const uint16_t *right, const uint32_t *w,
                          struct place p) {
    int code = place_code(w[JENTURIK_SLOTS], p);
    if (code) return refuse(code, 0, 0);
    return walk(left, right, w[JENTURIK_NODES], p);
}

ALWAYS void set_edge(struct table t, uint32_t side, uint32_t n, uint32_t to) {
    (side ? t.right : t.left)[n] = to;
}

ALWAYS jenturik_told link_to(struct table t, struct place p, uint32_t side, struct place q) {
    uint32_t *w = t.w, m = w[JENTURIK_NODES], r = w[JENTURIK_SLOTS];
    int code;
    if (side > 1) return refuse(10, 0, 0);
    if ((code = place_code(r, p)) || (code = place_code(r, q))) return refuse(code, 0, 0);
    if (w[JENTURIK_OWES]) return refuse(5, 0, 0);
    jenturik_told from = walk(t.left, t.right, m, p);
    if (from.code) return from;
    if (from.node == 0) return refuse(8, 0, 0);
    jenturik_told to = walk(t.left, t.right, m, q);
    if (to.code) return to;
    set_edge(t, side, from.node, to.node);
    w[JENTURIK_OWES] = 1, w[JENTURIK_OWED] = to.node;
    return did(JENTURIK_LINKED, to.node, 0);
}

ALWAYS jenturik_told shade_owed(struct table t) {
    uint32_t *w = t.w, n = w[JENTURIK_OWED];
    if (!w[JENTURIK_OWES]) return refuse(6, 0, 0);
    if (t.colour[n] > 2) return refuse(14, n, 0);
    uint32_t changed = shade_node(t.colour, n);
    w[JENTURIK_OWES] = 0, w[JENTURIK_OWED] = 0;
    return did(JENTURIK_SHADED, n, changed);
}

/* Whether an edge of the free list is bad. */
ALWAYS int is_bad_free(uint32_t m, uint32_t r, uint32_t e) {
    return e >= m || (e >= 1 && e <= r + 1);
}

ALWAYS jenturik_told take(struct table t, struct place p, uint32_t side) {
    uint32_t *w = t.w, m = w[JENTURIK_NODES], r = w[JENTURIK_SLOTS];
    int code;
    if (side > 1) return refuse(10, 0, 0);
    if ((code = place_code(r, p))) return refuse(code, 0, 0);
    if (w[JENTURIK_OWES]) return refuse(5, 0, 0);
    jenturik_told from = walk(t.left, t.right, m, p);
    if (from.code) return from;
    if (from.node == 0) return refuse(8, 0, 0);
    uint32_t f = t.left[1];
    if (is_bad_free(m, r, f)) return refuse(7, 1, 0);
    if (f == 0) return refuse(9, 0, 0);
    uint32_t g = t.left[f];
    if (is_bad_free(m, r, g)) return refuse(7, f, 0);
    if (t.colour[f] > 2) return refuse(14, f, 0);
    if (g != 0 && t.colour[g] > 2) return refuse(14, g, 0);
    set_edge(t, side, from.node, f);
    t.left[1] = g, t.left[f] = 0;
    uint32_t changed = shade_node(t.colour, f);
    if (g == 0)
        w[JENTURIK_LAST] = 1;
    else
        changed += shade_node(t.colour, g);
    if (w[JENTURIK_FREE_COUNT]) w[JENTURIK_FREE_COUNT]--;
    return did(JENTURIK_TAKEN, f, changed);
}

jenturik_told jenturik_look(SHOWN, uint32_t slot, uint32_t count, uint32_t word) {
    int code = judge(lefts, rights, colours, w);
    (void)colour;
    if (code) return refuse(code, 0, 0);
    return look(left, right, w, (struct place){slot, count, word});
}

jenturik_told jenturik_link(uint16_t *restrict left, size_t lefts, uint16_t *restrict right,
                            size_t rights, const uint8_t *colour, size_t colours,
                            uint32_t w[restrict JENTURIK_WORDS], uint32_t slot, uint32_t count,
                            uint32_t word, uint32_t side, uint32_t toslot, uint32_t tocount,
                            uint32_t toword) {
    int code = judge(lefts, rights, colours, w);
    (void)colour;
    if (code) return refuse(code, 0, 0);
    return link_to((struct table){left, right, NULL, w}, (struct place){slot, count, word}, side,
                   (struct place){toslot, tocount, toword});
}

jenturik_told jenturik_shade(const uint16_t *left, size_t lefts, const uint16_t *right,
                             size_t rights, uint8_t *restrict colour, size_t colours,
                             uint32_t w[restrict JENTURIK_WORDS]) {
    int code = judge(lefts, rights, colours, w);
    (void)left, (void)right;
    if (code) return refuse(code, 0, 0);
    return shade_owed((struct table){NULL, NULL, colour, w});
}

jenturik_told jenturik_take(LENT, uint32_t slot, uint32_t count, uint32_t word, uint32_t side) {
    int code = judge(lefts, rights, colours, w);
    if (code) return refuse(code, 0, 0);
    return take((struct table){left, right, colour, w}, (struct place){slot, count, word}, side);
}

/* A step of a schedule, after codes 1 and 2. */
ALWAYS jenturik_told step(struct table t, const jenturik_step *s) {
    struct place p = {s->slot, s->count, s->word}, q = {s->toslot, s->tocount, s->toword};
    if (s->unused[0] | s->unused[1] | s->unused[2] | s->unused[3]) return refuse(10, 0, 0);
    switch (s->kind) {
    case 0:
        return take(t, p, s->side);
    case 1:
        return link_to(t, p, s->side, q);
    case 2:
        return shade_owed(t);
    case 3:
        return phase_step(t);
    case 4:
        return look(t.left, t.right, t.w, p);
    default:
        return refuse(10, 0, 0);
    }
}

jenturik_done jenturik_schedule(LENT, const uint32_t *steps, size_t numbers) {
    int code = judge(lefts, rights, colours, w);
    if (code) return (jenturik_done){0, code, 0, 0};
    if (numbers % JENTURIK_STEP_WORDS != 0) return (jenturik_done){0, 10, 0, 0};
    const jenturik_step *s = (const jenturik_step *)steps;
    size_t count = numbers / JENTURIK_STEP_WORDS, changed = 0;
    jenturik_done all = {0, 0, 0, 0};
    for (; all.done < count; all.done++) {
        if (all.done != 0 && (code = check(lefts, rights, colours, w))) {
            all.code = code;
            break;
        }
        jenturik_told a = step((struct table){left, right, colour, w}, s + all.done);
        if (a.code) {
            all.code = a.code, all.detail = a.detail;
            break;
        }
        changed += a.changed;
    }
    all.changed = changed < UINT32_MAX ? changed : UINT32_MAX;
    return all;
}

/* The calls that count. */

jenturik_told jenturik_free_count(SHOWN) {
    int code = judge(lefts, rights, colours, w);
    (void)left, (void)right, (void)colour;
    return code ? refuse(code, 0, 0) : did(JENTURIK_COUNTED, w[JENTURIK_FREE_COUNT], 0);
}

/* Counts what the slots reach, with a queue of the nodes whose edges are still to be followed; and
   notes the lowest node that has a bad edge. */
static jenturik_told count(const uint16_t *left, const uint16_t *right, uint32_t m, uint32_t r) {
    uint8_t reached[MOST_NODES];
    uint32_t queue[MOST_NODES], head = 0, tail = 0, hurt = m;
    memset(reached, 0, m);
    reached[0] = 1;
    for (uint32_t n = 2; n < r + 2; n++) reached[n] = 1, queue[tail++] = n;
    while (head < tail) {
        uint32_t n = queue[head++], e[2] = {left[n], right[n]};
        for (int side = 0; side < 2; side++) {
            if (is_bad(m, e[side]))
                hurt = n < hurt ? n : hurt;
            else if (!reached[e[side]])
                reached[e[side]] = 1, queue[tail++] = e[side];
        }
    }
    return hurt < m ? refuse(7, hurt, !is_bad(m, left[hurt])) : did(JENTURIK_COUNTED, tail - r, 0);
}

jenturik_told jenturik_in_use(SHOWN) {
    int code = judge(lefts, rights, colours, w);
    (void)colour;
    if (code) return refuse(code, 0, 0);
    return count(left, right, w[JENTURIK_NODES], w[JENTURIK_SLOTS]);
}

/* The calls that make a table. */

static void begin(uint32_t *w, uint32_t m, uint32_t r, uint32_t last, uint32_t free) {
    memset(w, 0, JENTURIK_WORDS * sizeof *w);
    w[JENTURIK_NODES] = m, w[JENTURIK_SLOTS] = r;
    w[JENTURIK_LAST] = last, w[JENTURIK_FREE_COUNT] = free;
}

jenturik_told jenturik_fresh(LENT, uint32_t m, uint32_t r) {
    if (!is_size(m, r, lefts, rights, colours)) {
        begin(w, 0, 0, 0, 0);
        return refuse(1, 0, 0);
    }
    uint32_t last = r + 2 < m ? m - 1 : 1;
    memset(left, 0, (r + 2) * sizeof *left);
    for (uint32_t n = r + 2; n < m; n++) left[n] = n + 1;
    left[last] = 0, left[1] = r + 2 < m ? r + 2 : 0;
    memset(right, 0, m * sizeof *right);
    memset(colour, 0, m);
    begin(w, m, r, last, m - r - 2);
    return did(JENTURIK_STARTED, last, 0);
}

/* Code 11: the lowest node with a bad edge and the side, left before right. */
static jenturik_told first_bad(const uint32_t *lefts, const uint32_t *rights, uint32_t m) {
    if (lefts[0] != 0 || rights[0] != 0) return refuse(11, 0, lefts[0] == 0);
    uint32_t n = 1;
    while (n < m && !is_bad(m, lefts[n]) && !is_bad(m, rights[n])) n++;
    return n < m ? refuse(11, n, !is_bad(m, lefts[n])) : did(JENTURIK_STARTED, 0, 0);
}

/* Code 12: walks the free list, notes its nodes and counts them. */
static jenturik_told follow(const uint32_t *lefts, const uint32_t *rights, uint32_t r,
                            uint8_t *is_free, uint32_t *count) {
    uint32_t n = 1;
    for (;;) {
        uint32_t next = lefts[n];
        if (rights[n] != 0) return refuse(12, n, 0);
        if (next == 0) return did(JENTURIK_STARTED, n, 0);
        if (next < r + 2 || is_free[next]) return refuse(12, n, 0);
        is_free[next] = 1;
        ++*count;
        n = next;
    }
}

/* Notes what the slots reach: a queue of the nodes whose edges are still to be followed. */
static void mark(const uint32_t *lefts, const uint32_t *rights, uint32_t r, uint8_t *reached) {
    uint16_t queue[MOST_NODES];
    uint32_t head = 0, tail = 0;
    reached[0] = 1;
    for (uint32_t n = 2; n < r + 2; n++) reached[n] = 1, queue[tail++] = n;
    while (head < tail) {
        uint32_t n = queue[head++], l = lefts[n], g = rights[n];
        if (!reached[l]) reached[l] = 1, queue[tail++] = l;
        if (!reached[g]) reached[g] = 1, queue[tail++] = g;
    }
}

/* Codes 11, 12 and 13. */
static jenturik_told judge_lists(const uint32_t *lefts, const uint32_t *rights, uint32_t m,
                                 uint32_t r, uint32_t *count) {
    uint8_t is_free[MOST_NODES], reached[MOST_NODES];
    jenturik_told a = first_bad(lefts, rights, m);
    if (a.code) return a;
    memset(is_free, 0, m);
    a = follow(lefts, rights, r, is_free, count);
    if (a.code) return a;
    memset(reached, 0, m);
    mark(lefts, rights, r, reached);
    uint32_t n = 2;
    while (n < m && !(is_free[n] && reached[n])) n++;
    return n < m ? refuse(13, n, 0) : a;
}

jenturik_told jenturik_load(LENT, const uint32_t *given_left, size_t given_lefts,
                            const uint32_t *given_right, size_t given_rights, uint32_t m,
                            uint32_t r) {
    uint32_t count = 0;
    jenturik_told a = refuse(1, 0, 0);
    if (is_size(m, r, lefts, rights, colours) && given_lefts == m && given_rights == m)
        a = judge_lists(given_left, given_right, m, r, &count);
    if (a.code) {
        begin(w, 0, 0, 0, 0);
        return a;
    }
    for (uint32_t n = 0; n < m; n++) left[n] = given_left[n], right[n] = given_right[n];
    memset(colour, 0, m);
    begin(w, m, r, a.node, count);
    return a;
}
