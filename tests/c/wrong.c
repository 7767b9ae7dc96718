/* Wrong libraries. The linker puts these before the true calls (--wrap); the number in the
 * environment's WRONG says what is spoilt, 0 nothing. tests/library runs the tests against each,
 * and each must be found. */
#include "colours.h"
#include "jenturik.h"
#include "jenturik_text.h"
#include <stdlib.h>

#define ARRAYS                                                                                     \
    uint16_t *left, size_t lefts, uint16_t *right, size_t rights, uint8_t *colour, size_t colours
#define READ_ARRAYS                                                                                \
    const uint16_t *left, size_t lefts, const uint16_t *right, size_t rights,                      \
        const uint8_t *colour, size_t colours
#define TABLE left, lefts, right, rights, colour, colours, words
#define EDGES_ARRAYS                                                                               \
    uint16_t *left, size_t lefts, uint16_t *right, size_t rights, const uint8_t *colour,           \
        size_t colours
#define COLOUR_ARRAYS                                                                              \
    const uint16_t *left, size_t lefts, const uint16_t *right, size_t rights, uint8_t *colour,     \
        size_t colours
#define PLACE uint32_t slot, uint32_t count, uint32_t word
#define LISTS                                                                                      \
    const uint32_t *given_left, size_t given_lefts, const uint32_t *given_right, size_t given_rights

jenturik_told __real_jenturik_fresh(ARRAYS, uint32_t *words, uint32_t nodes, uint32_t slots);
jenturik_told __real_jenturik_load(ARRAYS, uint32_t *words, LISTS, uint32_t nodes, uint32_t slots);
jenturik_told __real_jenturik_look(READ_ARRAYS, const uint32_t *words, PLACE);
jenturik_told __real_jenturik_in_use(READ_ARRAYS, const uint32_t *words);
jenturik_told __real_jenturik_free_count(READ_ARRAYS, const uint32_t *words);
jenturik_told __real_jenturik_link(EDGES_ARRAYS, uint32_t *words, PLACE, uint32_t side,
                                   uint32_t toslot, uint32_t tocount, uint32_t toword);
jenturik_told __real_jenturik_shade(COLOUR_ARRAYS, uint32_t *words);
jenturik_told __real_jenturik_take(ARRAYS, uint32_t *words, PLACE, uint32_t side);
jenturik_told __real_jenturik_collect(ARRAYS, uint32_t *words);
jenturik_last __real_jenturik_collect_many(ARRAYS, uint32_t *words, size_t n);
jenturik_freed __real_jenturik_collect_freed(ARRAYS, uint32_t *words, size_t n, uint16_t *freed,
                                             size_t freeds);
jenturik_done __real_jenturik_schedule(ARRAYS, uint32_t *words, const uint32_t *steps,
                                       size_t numbers);

static int wrong(int n) {
    static int which = -1;
    if (which < 0) which = getenv("WRONG") ? atoi(getenv("WRONG")) : 0;
    return which == n;
}

static uint8_t before[16384]; /* the colours before a call */

static void keep(const uint8_t *colour, size_t colours) {
    if (colours != 0) memcpy(before, colour, colours);
}

/* The colours changed as a step tells them. */
static jenturik_told count_wrongly(jenturik_told a) {
    if (wrong(50)) a.changed = 1;                   /* always one */
    if (wrong(51) && a.code != 0) a.changed = 1;    /* a refused step counts */
    if (wrong(52) && a.changed == 2) a.changed = 1; /* whether, not how many */
    return a;
}

/* The damage as a step tells it: for a walk, for the free list and for the collector. */
static jenturik_told tell_wrongly(jenturik_told a) {
    if (wrong(110) && a.code == 7) a.detail = 1 - a.detail; /* the other side */
    if (wrong(111)) a.detail = 0;                           /* none */
    if (wrong(112) && a.code == 14) a.code = 7;             /* a colour told as an edge */
    if (wrong(113) && a.code == 14) a.node = 0;             /* a colour without its node */
    if (wrong(114) && a.code == 14) a.detail = 1;           /* a colour has a side */
    if (wrong(115) && a.code == 15) a.code = 7;             /* what Append meets told as an edge */
    if (wrong(116) && a.code == 15) a.code = 14;            /* or as a colour */
    if (wrong(117) && a.code == 15) a.node = 0;             /* without its node */
    if (wrong(118) && a.code == 15) a.detail = (uint16_t)((a.detail + 1) % 3); /* turned round */
    if (wrong(119) && a.code == 15 && a.detail > 0) a.detail = 3 - a.detail;   /* root for last */
    if (wrong(120) && a.code == 15 && a.detail < 2) a.detail = 1 - a.detail;   /* gray for root */
    if (wrong(121) && a.code == 15 && a.detail > 1) a.detail = 1; /* any white is a root */
    if (wrong(122) && a.code == 0) a.detail = 1;                  /* what is done has one */
    if (wrong(123) && a.code != 0 && a.code < 7) a.detail = 1;    /* a bad call has one */
    return a;
}

/* The most nodes that can be free. */
static uint32_t most_free(const uint32_t *words) {
    return words[JENTURIK_NODES] - words[JENTURIK_SLOTS] - 2;
}

/* The most steps of a cycle. */
static uint32_t bound(const uint32_t *words) {
    uint32_t m = words[JENTURIK_NODES];
    return m * m + 7 * m + words[JENTURIK_SLOTS] + 2;
}

/* Whether the next step reads an edge, or shades a number read; and the edge of either. */
static int reads(const uint32_t *words) {
    return words[JENTURIK_PHASE] == 2 || words[JENTURIK_PHASE] == 3;
}

static int shades(const uint32_t *words) {
    return words[JENTURIK_PHASE] == 6 || words[JENTURIK_PHASE] == 7;
}

static uint32_t edge(const uint16_t *left, const uint16_t *right, const uint32_t *words) {
    return (words[JENTURIK_PHASE] % 2 == 0 ? left : right)[words[JENTURIK_I]];
}

static int good(uint32_t e, const uint32_t *words) { return e != 1 && e < words[JENTURIK_NODES]; }

/* The words as a call judges them that overlooks a bad free count, a bad number read or too many
 * steps: what passes stands in its place. */
static const uint32_t *overlooked(const uint32_t *words) {
    static uint32_t other[JENTURIK_WORDS];
    uint32_t *count = other + JENTURIK_FREE_COUNT, last = words[JENTURIK_LAST];
    memcpy(other, words, sizeof other);
    if (wrong(75) && *count == most_free(other) + 1 && last != 1) --*count; /* one too many */
    if (wrong(76) && *count != 0 && last == 1) *count = 0; /* some, and last is 1 */
    if (wrong(77) && *count == 0 && last != 1) *count = 1; /* 0, and last is not */
    if (wrong(78)) *count &= 0xffff;                       /* the upper half */
    uint32_t read = words[JENTURIK_READ], steps = words[JENTURIK_STEPS], b = bound(words);
    if (wrong(146) && shades(words) && read == 1) other[JENTURIK_READ] = 0; /* 1 was read */
    if (wrong(147) && shades(words) && read == words[JENTURIK_NODES])
        other[JENTURIK_READ] = 0;                                    /* M was read */
    if (wrong(148) && shades(words)) other[JENTURIK_READ] &= 0xffff; /* the upper half */
    if (wrong(149) && steps == b) other[JENTURIK_STEPS]--;           /* B, and one more */
    if (wrong(150) && steps < b && steps >= b - 2 * words[JENTURIK_NODES])
        other[JENTURIK_STEPS] = UINT32_MAX;                                  /* B of larger steps */
    if (wrong(151) && words[JENTURIK_PHASE] == 8) other[JENTURIK_PHASE] = 0; /* a ninth phase */
    return other;
}

jenturik_told __wrap_jenturik_fresh(ARRAYS, uint32_t *words, uint32_t nodes, uint32_t slots) {
    if (wrong(1)) slots &= 0xffff; /* takes the lower half of a number that is too large */
    keep(colour, colours);
    jenturik_told a = __real_jenturik_fresh(TABLE, nodes, slots);
    if (wrong(53)) a.changed = recoloured(before, colour, colours); /* a start counts */
    if (wrong(2) && a.code == 0) a.node = 0;                        /* tells no last free node */
    if (wrong(79) && a.code == 0) words[JENTURIK_FREE_COUNT] = 0;   /* counts from 0 on */
    if (wrong(80) && a.code == 0) words[JENTURIK_FREE_COUNT]++;     /* counts FREE too */
    if (wrong(81) && a.code != 0) words[JENTURIK_FREE_COUNT] = nodes & 0xffff; /* though refused */
    return a;
}

/* A list with its edges cut to 16 bits. */
static const uint32_t *cut(uint32_t *to, const uint32_t *from, size_t n) {
    for (size_t i = 0; i < n; i++) to[i] = from[i] & 0xffff;
    return to;
}

jenturik_told __wrap_jenturik_load(ARRAYS, uint32_t *words, LISTS, uint32_t nodes, uint32_t slots) {
    static uint32_t cut_left[16384], cut_right[16384], was[JENTURIK_WORDS];
    memcpy(was, words, sizeof was);
    keep(colour, colours);
    /* a list's length is not judged */
    if (wrong(20) && given_lefts > nodes) given_lefts = nodes;
    if (wrong(21) && given_rights > nodes) given_rights = nodes;
    if (wrong(22)) /* edges are cut to 16 bits */
        given_left = cut(cut_left, given_left, given_lefts),
        given_right = cut(cut_right, given_right, given_rights);
    if (wrong(23) && given_lefts != 0) /* writes to a list, though it changes nothing */
        ((volatile uint32_t *)(uintptr_t)given_left)[0] = given_left[0];
    jenturik_told a = __real_jenturik_load(TABLE, given_left, given_lefts, given_right,
                                           given_rights, nodes, slots);
    if (wrong(24) && a.code != 0) memcpy(words, was, sizeof was); /* the words stay when refused */
    if (wrong(25) && a.code > 1) left[2]++;                       /* writes, though refused */
    if (wrong(26) && a.code == 0) a.node = words[JENTURIK_LAST] = nodes - 1; /* last is M - 1 */
    if (wrong(27) && a.code == 0) memcpy(colour, before, colours);           /* the colours stay */
    if (wrong(28) && a.code > 1) a.node = 0;                        /* a refusal's node is lost */
    if (wrong(54)) a.changed = recoloured(before, colour, colours); /* a start counts */
    if (wrong(82) && a.code == 0 && a.node != 1)                    /* counts garbage as free */
        words[JENTURIK_FREE_COUNT] = most_free(words);
    if (wrong(83) && a.code == 0 && a.node != 1) words[JENTURIK_FREE_COUNT]++; /* and FREE */
    if (wrong(84) && a.code > 1) words[JENTURIK_FREE_COUNT] = 1;               /* though refused */
    if (wrong(124) && a.code == 11) a.detail = 1 - a.detail;                   /* the other side */
    if (wrong(125)) a.detail = 0;                                              /* no side */
    if (wrong(126) && a.code == 11 && given_right[a.node] != 0)                /* right first */
        a.detail = given_right[a.node] == 1 || given_right[a.node] >= nodes || a.node == 0;
    if (wrong(127) && a.code > 11) a.detail = 1; /* the chain has a side */
    return a;
}

jenturik_told __wrap_jenturik_look(READ_ARRAYS, const uint32_t *words, PLACE) {
    if (wrong(3) && colours != 0)
        ((volatile uint8_t *)(uintptr_t)colour)[0] =
            colour[0]; /* writes, though it changes nothing */
    words = overlooked(words);
    return count_wrongly(tell_wrongly(__real_jenturik_look(TABLE, slot, count, word)));
}

/* What In use is asked of, and which nodes were met. */
typedef struct {
    const uint16_t *left, *right;
    uint32_t m, r;
    uint8_t met[4096];
} asked;

static int bad_edge(const asked *q, uint32_t e) { return e == 1 || e >= q->m; }

static int hurt(const asked *q, uint32_t n) {
    return bad_edge(q, q->left[n]) || bad_edge(q, q->right[n]);
}

/* Meets node n and all that it leads to. */
static void meet(asked *q, uint32_t n) {
    uint32_t waiting[2 * 4096 + 1] = {n}, count = 1;
    while (count > 0) {
        n = waiting[--count];
        if (n == 0 || bad_edge(q, n) || q->met[n]) continue;
        q->met[n] = 1;
        if (wrong(30) && hurt(q, n)) continue; /* goes no further from a node with a bad edge */
        waiting[count++] = q->left[n];
        if (!wrong(31)) waiting[count++] = q->right[n]; /* follows no right edge */
    }
}

/* Whether node n is judged and is refused with 7. */
static int refused(const asked *q, uint32_t n, const uint8_t *colour) {
    if (wrong(32) && n < q->r + 2) return 0;                    /* judges no slot's node */
    if (wrong(33)) return hurt(q, n);                           /* judges unreached nodes */
    if (wrong(34) && n == 0) return hurt(q, n);                 /* judges NIL */
    if (wrong(35) && q->met[n] && colour[n] > 2) return 1;      /* reads colours */
    if (wrong(36)) return q->met[n] && bad_edge(q, q->left[n]); /* judges no right edge */
    return q->met[n] && hurt(q, n);
}

/* In use where codes 1 and 2 are passed; where nothing is wrong, what the true one answers. */
static jenturik_told count_in_use(asked *q, const uint8_t *colour) {
    jenturik_told a = {JENTURIK_COUNTED, 0, 0, 0, 0},
                  damaged = {JENTURIK_REFUSED, JENTURIK_BAD_EDGE, 0, 0, 0};
    memset(q->met, 0, sizeof q->met);
    for (uint32_t n = 2; n < q->r + 2; n++) meet(q, n);
    for (uint32_t n = 0; n < q->m; n++)
        if (refused(q, n, colour) && (wrong(37) || a.code == 0)) /* not the lowest */
            damaged.node = n, a.code = JENTURIK_BAD_EDGE;
    damaged.detail = !bad_edge(q, q->left[damaged.node]);
    if (a.code != 0 && !wrong(38)) return damaged; /* counts what a damaged table has */
    for (uint32_t n = q->r + 2; n < q->m; n++) a.node += q->met[n];
    a.code = 0;
    if (wrong(39)) a.node += q->r; /* counts slots' nodes */
    if (wrong(40)) a.node += 1;    /* counts NIL */
    if (wrong(41))                 /* counts the free nodes */
        for (uint32_t n = q->left[1]; n != 0 && !bad_edge(q, n) && a.node < q->m; n = q->left[n])
            a.node++;
    return a;
}

jenturik_told __wrap_jenturik_in_use(READ_ARRAYS, const uint32_t *words) {
    static asked q;
    uint32_t other[JENTURIK_WORDS] = {[JENTURIK_LAST] = 1};
    jenturik_told a = __real_jenturik_in_use(TABLE);
    memcpy(other, words, 2 * sizeof *other); /* M and R */
    if (wrong(42) && a.code == 2)            /* ignores code 2 */
        a = __real_jenturik_in_use(left, lefts, right, rights, colour, colours, other);
    q.left = left, q.right = right, q.m = words[JENTURIK_NODES], q.r = words[JENTURIK_SLOTS];
    if (a.code == 0 || a.code == 7) a = count_in_use(&q, colour);
    if (wrong(43)) /* writes, though it changes nothing */
        ((volatile uint32_t *)(uintptr_t)words)[JENTURIK_WORDS - 1] = words[JENTURIK_WORDS - 1];
    if (wrong(44) && a.code == 7) a.node = 0;               /* a refusal's node is lost */
    if (wrong(45) && a.code == 0) a.what = JENTURIK_NAMED;  /* tells another deed */
    if (wrong(55) && a.code == 0) a.changed = a.node;       /* the number told twice */
    if (wrong(128) && a.code == 7) a.detail = 1 - a.detail; /* the other side */
    if (wrong(129)) a.detail = 0;                           /* no side */
    if (wrong(130) && a.code == 7) a.detail = bad_edge(&q, right[a.node]); /* right first */
    return a;
}

/* The nodes from FREE on, as far as there are some. */
static uint32_t walked(const uint16_t *left, uint32_t m) {
    uint32_t n = 0;
    for (uint32_t node = left[1]; node != 0 && node < m && n < m; node = left[node]) n++;
    return n;
}

jenturik_told __wrap_jenturik_free_count(READ_ARRAYS, const uint32_t *words) {
    uint32_t other[JENTURIK_WORDS] = {[JENTURIK_LAST] = 1}, m = words[JENTURIK_NODES];
    jenturik_told a = __real_jenturik_free_count(TABLE);
    memcpy(other, words, 2 * sizeof *other); /* M and R */
    if (wrong(85) && a.code == 2)            /* ignores code 2 */
        a = __real_jenturik_free_count(left, lefts, right, rights, colour, colours, other);
    if (wrong(86) && a.code != 0)
        a.node = words[JENTURIK_FREE_COUNT];                     /* the count, though refused */
    if (wrong(87) && a.code == 0) a.node = walked(left, m);      /* walks the list */
    if (wrong(88) && a.code == 0) a.node = words[JENTURIK_LAST]; /* answers last */
    if (wrong(89)) a.node &= 0xff;                               /* 8 bits */
    if (wrong(90) && a.code == 0) a.what = JENTURIK_NAMED;       /* tells another deed */
    if (wrong(91) && a.code == 0) a.changed = a.node != 0;       /* tells a change */
    if (wrong(92) && a.code == 0 && left[1] == 1) a.what = 0, a.code = 7; /* judges FREE's edge */
    if (wrong(93)) /* writes, though it changes nothing */
        ((volatile uint32_t *)(uintptr_t)words)[JENTURIK_FREE_COUNT] = words[JENTURIK_FREE_COUNT];
    if (wrong(131)) a.detail = 1; /* has a detail */
    if (wrong(94) && a.code == 0) /* all that are not in use */
        a.node = most_free(words) - __real_jenturik_in_use(TABLE).node;
    return a;
}

jenturik_told __wrap_jenturik_link(EDGES_ARRAYS, uint32_t *words, PLACE, uint32_t side,
                                   uint32_t toslot, uint32_t tocount, uint32_t toword) {
    jenturik_told a = __real_jenturik_link(TABLE, slot, count, word, side, toslot, tocount, toword);
    if (wrong(95) && a.code == 0 && words[JENTURIK_FREE_COUNT] > 1) /* a link takes one */
        words[JENTURIK_FREE_COUNT]--;
    if (wrong(4) && a.code == 2) words[JENTURIK_OWES] = 0; /* mends the record that it refuses */
    if (wrong(5) && a.code == 0 && a.node == 0)
        words[JENTURIK_OWES] = 0; /* NIL owed taken for nothing owed */
    if (wrong(56) && a.code == 0) a.changed = colour[a.node] == 0; /* the shade owed counts */
    return count_wrongly(tell_wrongly(a));
}

jenturik_told __wrap_jenturik_shade(COLOUR_ARRAYS, uint32_t *words) {
    if (wrong(6)) words[JENTURIK_WORDS - 1] = 0; /* overlooks a word that has no use */
    jenturik_told a = __real_jenturik_shade(TABLE);
    if (wrong(7) && a.code == 0) colour[a.node] = 2; /* black instead of gray */
    if (wrong(57) && a.code == 0) a.changed = 1;     /* shading a gray or black node counts */
    if (wrong(58) && a.node == 0) a.changed = 0;     /* NIL does not count */
    return count_wrongly(tell_wrongly(a));
}

jenturik_told __wrap_jenturik_take(ARRAYS, uint32_t *words, PLACE, uint32_t side) {
    uint32_t last = words[JENTURIK_LAST], had = words[JENTURIK_FREE_COUNT],
             *free_count = words + JENTURIK_FREE_COUNT;
    if (wrong(96) && had == 0 && last == 1 && lefts > 1) left[1] = 0; /* 9 by the count */
    jenturik_told a = __real_jenturik_take(TABLE, slot, count, word, side);
    if (wrong(97) && a.code == 0) *free_count = had;               /* the count stays */
    if (wrong(98) && a.code == 0 && had == 0) *free_count = 65535; /* 0 does not */
    if (wrong(99) && a.code == 0 && words[JENTURIK_LAST] == 1) *free_count = 0;  /* goes by last */
    if (wrong(100) && a.code == 0 && *free_count == 0) words[JENTURIK_LAST] = 1; /* last by it */
    if (wrong(101) && a.code == 0 && words[JENTURIK_LAST] != 1 && *free_count == 0)
        *free_count = 1;                                             /* goes by last, too */
    if (wrong(102) && a.code == 9 && had > 0) *free_count = had - 1; /* counts, though refused */
    if (wrong(8) && a.code == 0)
        words[JENTURIK_LAST] = last;                     /* last stays when the list runs out */
    if (wrong(9) && a.code == 7) a.node = 0;             /* a refusal's node is lost */
    if (wrong(132) && a.code == 7) a.detail = side != 0; /* the side on which it would write */
    if (wrong(133) && a.code == 14 && a.node == left[1]) a.code = 7; /* f's colour as its edge */
    if (wrong(134) && a.code == 14 && a.node != left[1]) a.node = left[1]; /* f for g */
    if (wrong(135) && a.code == 7 && a.node == left[1] && colour[a.node] > 2) a.code = 14;
    if (wrong(59) && a.code == 0) a.changed = 2; /* always two */
    return count_wrongly(tell_wrongly(a));
}

/* A reading step, told or done wrongly; e is the edge read. */
static jenturik_told read_wrongly(jenturik_told a, uint8_t *colour, uint32_t e, uint32_t *words) {
    if (wrong(152)) a.what = JENTURIK_SHADED, a.node = e; /* tells the node to be shaded */
    if (wrong(153) && colour[e] == 0) colour[e] = 1;      /* shades at once */
    if (wrong(154)) words[JENTURIK_READ] = 0;             /* keeps no number */
    if (wrong(155)) words[JENTURIK_PHASE] ^= 1;           /* goes on with the other side */
    return a;
}

/* A shading step; n is the number read, e the edge as it is now. */
static jenturik_told shade_wrongly(jenturik_told a, uint8_t *colour, uint32_t n, uint32_t e,
                                   uint32_t *words) {
    if (wrong(156)) a.node = words[JENTURIK_I];                     /* tells i */
    if (wrong(157)) a.what = JENTURIK_LOOKED;                       /* tells another deed */
    if (wrong(158)) words[JENTURIK_READ] = n;                       /* keeps the number */
    if (wrong(159) && e != n) colour[n] = before[n], a.changed = 0; /* not a stale number */
    return a;
}

/* One step, with Left and Right wrong in some way. */
static jenturik_told collect_wrongly(ARRAYS, uint32_t *words) {
    int passes = __real_jenturik_collect_many(TABLE, 0).code == 0;
    int read = passes && reads(words), shade = passes && shades(words);
    uint32_t e = read || shade ? edge(left, right, words) : 0, n = words[JENTURIK_READ];
    jenturik_told a = {0};
    keep(colour, colours);
    if (wrong(160) && shade && good(e, words)) words[JENTURIK_READ] = e; /* where it leads now */
    if (wrong(161) && shade && !good(e, words))                          /* judges the edge again */
        return a.code = 7, a.node = words[JENTURIK_I], a.detail = words[JENTURIK_PHASE] == 7, a;
    if (wrong(162) && read && good(e, words) && colour[e] > 2) /* judges the colour too soon */
        return a.code = 14, a.node = e, a;
    a = __real_jenturik_collect(TABLE);
    if (read && a.code == 0) a = read_wrongly(a, colour, e, words);
    if (shade && a.code == 0) a = shade_wrongly(a, colour, n, e, words);
    if (wrong(163) && shade && a.code == 14) a.node = words[JENTURIK_I]; /* the colour of i */
    return a;
}

jenturik_told __wrap_jenturik_collect(ARRAYS, uint32_t *words) {
    jenturik_told a = collect_wrongly(TABLE);
    if (wrong(10) && a.what == JENTURIK_APPENDED) left[lefts] = 0; /* writes behind the array */
    if (wrong(11) && a.what == JENTURIK_APPENDED)
        a.what = JENTURIK_WHITENED;                                /* tells another deed */
    if (wrong(60) && a.what == JENTURIK_SHADED) a.changed = 1;     /* a gray or black node counts */
    if (wrong(61) && a.what == JENTURIK_MADE_BLACK) a.changed = 1; /* a black node counts */
    if (wrong(62) && a.what == JENTURIK_APPENDED) a.changed = 1;   /* a white node counts */
    if (wrong(63) && a.what == JENTURIK_WHITENED) a.changed = 0;   /* a black one does not */
    if (wrong(103) && a.what == JENTURIK_APPENDED) words[JENTURIK_FREE_COUNT]--; /* one too few */
    if (wrong(104) && a.what == JENTURIK_WHITENED) words[JENTURIK_FREE_COUNT]++; /* none is free */
    if (wrong(105) && a.what == JENTURIK_APPENDED && words[JENTURIK_FREE_COUNT] > most_free(words))
        words[JENTURIK_FREE_COUNT] = most_free(words); /* stays at the limit */
    if (wrong(106) && a.what == JENTURIK_APPENDED && words[JENTURIK_PHASE] == 0)
        words[JENTURIK_FREE_COUNT] = 1; /* a complete cycle counts anew */
    return count_wrongly(tell_wrongly(a));
}

/* The last step by itself; tells the colours that it changed. */
static jenturik_last the_last(ARRAYS, uint32_t *words, size_t n) {
    jenturik_last a = __real_jenturik_collect_many(TABLE, n == 0 ? 0 : n - 1), b;
    if (n == 0 || a.code != 0) return a;
    b = __real_jenturik_collect_many(TABLE, 1);
    b.done += a.done;
    return b;
}

/* Single steps that stay at the limit of the free count. */
static jenturik_last past_the_limit(ARRAYS, uint32_t *words, size_t n) {
    jenturik_last all = __real_jenturik_collect_many(TABLE, 0);
    while (all.code == 0 && all.done < n) {
        jenturik_last a = __real_jenturik_collect_many(TABLE, 1);
        a.done += all.done, a.changed += all.changed, all = a;
        if (a.code == 0 && words[JENTURIK_FREE_COUNT] > most_free(words))
            words[JENTURIK_FREE_COUNT] = most_free(words);
    }
    return all;
}

jenturik_last __wrap_jenturik_collect_many(ARRAYS, uint32_t *words, size_t n) {
    uint32_t had = words[JENTURIK_FREE_COUNT];
    keep(colour, colours);
    if (wrong(164) && __real_jenturik_collect_many(TABLE, 0).code == 0 && shades(words) &&
        good(edge(left, right, words), words))
        words[JENTURIK_READ] = edge(left, right, words); /* reads again where it begins */
    if (wrong(107)) return past_the_limit(TABLE, n);     /* goes on */
    if (wrong(69)) return the_last(TABLE, n);            /* the last step's colours alone */
    jenturik_last a = __real_jenturik_collect_many(
        TABLE, wrong(12) && n > 500 ? n - 1 : n); /* one step too few of many */
    if (wrong(12) && n > 500 && a.code == 0) a.done++;
    if (wrong(13) && a.code != 0 && a.done > 0) a.code = 0;         /* a refusal is not told */
    if (wrong(136)) a.detail = 0;                                   /* the detail is lost */
    if (wrong(137) && a.done > 0) a.detail = 0;                     /* after the first step */
    if (wrong(138) && a.code == 14) a.code = 7;                     /* a colour told as an edge */
    if (wrong(139) && a.code == 15) a.detail &= 1;                  /* one bit of it */
    if (wrong(140) && a.code == 0) a.detail = 1;                    /* what is done has one */
    if (wrong(64)) a.changed = (uint32_t)a.done;                    /* the steps are told */
    if (wrong(65)) a.changed = recoloured(before, colour, colours); /* once, if at all */
    if (wrong(66) && a.code != 0) a.changed = 0; /* nothing where one step is refused */
    if (wrong(67) && a.code != 0) a.changed++;   /* the refused step counts */
    if (wrong(68)) a.changed &= 0xffff;          /* 16 bits */
    if (wrong(108) && a.done > 1 && words[JENTURIK_LAST] != 1 && had != 0) /* one by one alone */
        words[JENTURIK_FREE_COUNT] = had;
    return a;
}

/* The list as it is told. */
static void list_wrongly(uint16_t *freed, jenturik_freed *a, size_t freeds) {
    if (wrong(170) && a->freed > 1) { /* the first two change places */
        uint16_t first = freed[0];
        freed[0] = freed[1], freed[1] = first;
    }
    if (wrong(171) && a->freed != 0) a->freed--;              /* the last is not told */
    if (wrong(172) && a->freed < freeds) a->freed++;          /* one too many */
    if (wrong(173) && a->freed < freeds) freed[a->freed] = 0; /* a mark behind the last */
    if (wrong(174) && a->freed == freeds && freeds != 0) freed[freeds] = 0; /* behind the list */
    if (wrong(175) && a->freed != 0) freed[a->freed - 1]++;                 /* the node after it */
}

jenturik_freed __wrap_jenturik_collect_freed(ARRAYS, uint32_t *words, size_t n, uint16_t *freed,
                                             size_t freeds) {
    jenturik_freed a = {0, 0, 0, 0, 0};
    keep(colour, colours);
    if (wrong(176) && (n == 0 || freeds == 0)) return a; /* nothing is judged */
    if (wrong(177) && freeds == 0)                       /* no list: steps all the same */
        return a.done = __real_jenturik_collect_many(TABLE, n).done, a;
    if (wrong(178)) freeds &= 0xffff;       /* the length in 16 bits */
    if (wrong(179) && freeds > 1) freeds--; /* full too soon */
    if (wrong(180) && n > 1) n--;           /* one step too few */
    a = __real_jenturik_collect_freed(TABLE, n, freed, freeds);
    if (wrong(181) && a.freed == freeds && a.code == 0 && a.done < n) /* a step after it is full */
        a.done += __real_jenturik_collect_many(TABLE, 1).done;
    list_wrongly(freed, &a, freeds);
    if (wrong(182)) a.detail = 0;                                    /* the detail is lost */
    if (wrong(183) && a.done > 0) a.code = 0;                        /* a refusal is not told */
    if (wrong(184) && a.code != 0) a.done++;                         /* the refused step counts */
    if (wrong(185)) a.changed = recoloured(before, colour, colours); /* each colour once */
    if (wrong(186)) a.changed += a.freed;                            /* a node appended counts */
    if (wrong(187) && a.code != 0) a.freed = 0; /* the list is forgotten at a refusal */
    return a;
}

#define BUFFERS                                                                                    \
    uint16_t *left, size_t ls, uint16_t *right, size_t rs, uint8_t *colour, size_t cs,             \
        uint32_t *lefts, size_t lfs, uint32_t *rights, size_t rts, uint8_t *line, size_t bytes,    \
        uint8_t *out, size_t room, uint32_t *words, const uint8_t *input, size_t n

jenturik_turned __real_jenturik_turn(BUFFERS);

jenturik_turned __wrap_jenturik_turn(BUFFERS) {
    static uint32_t own[JENTURIK_SESSION_WORDS]; /* the words of the last block */
    if (wrong(200) && n == 0 && words[JENTURIK_STAGE] == JENTURIK_SERVING)
        return (jenturik_turned){0, 0, 0, 0};                       /* the end ends no line */
    if (wrong(201) && bytes > JENTURIK_LINE) bytes = JENTURIK_LINE; /* a longer buffer passes */
    if (wrong(202)) words[JENTURIK_SESSION_WORDS - 1] = 0;          /* a word is not judged */
    if (wrong(203) && own[JENTURIK_STAGE] != 0) memcpy(words, own, sizeof own); /* its own run */
    jenturik_turned t = __real_jenturik_turn(left, ls, right, rs, colour, cs, lefts, lfs, rights,
                                             rts, line, bytes, out, room, words, input, n);
    if (wrong(204) && t.code == 0) words[JENTURIK_LINE_USED] = 0; /* a block ends its last line */
    if (wrong(205) && t.over == 2) t.over = 1;                    /* not which line was refused */
    if (wrong(206) && t.code == 1) t.code = 2;                    /* a size told as words */
    if (wrong(207) && t.code == 2) memset(words, 0, sizeof own);  /* a refusal begins a run */
    if (wrong(208) && t.used > JENTURIK_ANSWER) t.used = JENTURIK_ANSWER; /* one answer a block */
    memcpy(own, words, sizeof own);
    return t;
}

/* A copy of the steps, their unused words 0. */
static const uint32_t *without_unused(const uint32_t *steps, size_t numbers) {
    static uint32_t copy[JENTURIK_STEP_WORDS * 2000];
    const size_t used = offsetof(jenturik_step, unused) / sizeof(uint32_t);
    for (size_t i = 0; i < numbers; i++) copy[i] = i % JENTURIK_STEP_WORDS < used ? steps[i] : 0;
    return copy;
}

/* The steps one by one; tells the colours that the last one changed. */
static jenturik_done the_last_done(ARRAYS, uint32_t *words, const uint32_t *steps, size_t numbers) {
    jenturik_done all = __real_jenturik_schedule(TABLE, steps, numbers % JENTURIK_STEP_WORDS);
    while (all.code == 0 && all.done < numbers / JENTURIK_STEP_WORDS) {
        jenturik_done d = __real_jenturik_schedule(TABLE, steps + JENTURIK_STEP_WORDS * all.done,
                                                   JENTURIK_STEP_WORDS);
        all.done += d.done, all.code = d.code, all.detail = d.detail, all.changed = d.changed;
    }
    return all;
}

jenturik_done __wrap_jenturik_schedule(ARRAYS, uint32_t *words, const uint32_t *steps,
                                       size_t numbers) {
    if (wrong(14)) numbers -= numbers % JENTURIK_STEP_WORDS; /* does the whole steps alone */
    if (wrong(16)) steps = without_unused(steps, numbers);   /* overlooks a step's unused words */
    keep(colour, colours);
    if (wrong(70)) return the_last_done(TABLE, steps, numbers); /* the last step's colours alone */
    jenturik_done d = __real_jenturik_schedule(TABLE, steps, numbers);
    if (wrong(15) && d.code == 10 && d.done > 0) d.code = 0; /* a kind above 4 ends it quietly */
    if (wrong(141)) d.detail = 0;                            /* the detail is lost */
    if (wrong(142) && d.done > 0) d.detail = 0;              /* after the first step */
    if (wrong(143) && d.code == 7) d.detail = 1 - d.detail;  /* the other side */
    if (wrong(144) && d.code == 14) d.code = 7;              /* a colour told as an edge */
    if (wrong(145) && d.code == 15) d.detail &= 1;           /* one bit of it */
    if (wrong(71)) d.changed = (uint32_t)d.done;             /* the steps are told */
    if (wrong(72)) d.changed = recoloured(before, colour, colours); /* once, if at all */
    if (wrong(73) && d.code != 0) d.changed = 0; /* nothing where one step is refused */
    if (wrong(74) && d.code != 0) d.changed++;   /* the refused step counts */
    if (wrong(109) && d.done > 0 && words[JENTURIK_LAST] == 1) words[JENTURIK_FREE_COUNT] = 0;
    return d;
}
