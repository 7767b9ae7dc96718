/* The schedule program in plain C, to measure against: the same forms and rules, a line read by
   fgets and an answer written by printf, both with buffers of 64 KiB. The collector is that of
   plain.c, its many steps with memchr. Where UNLOCKED is defined, fgets and printf take no locks.
 */
#include "plain.h"
#include <stdio.h>
#include <stdio_ext.h>
#include <stdlib.h>
#include <string.h>

#define MOST 4096  /* nodes */
#define LONGEST 80 /* bytes of a line */
#define ROOM 128   /* for a line, its newline, its NUL, and a word compared behind its end */

static uint16_t left[MOST], right[MOST];
static uint8_t colour[MOST];
static struct table table = {left, right, colour, 0, 0, 0};
static struct record rec;

struct place {
    uint32_t slot, count, word;
};

static struct answer refuse(int code, uint16_t node) {
    return (struct answer){REFUSED, code, 0, node};
}

static struct answer done(int kind, uint16_t node) { return (struct answer){kind, 0, 0, node}; }

/* The editor's steps. */

static int place_code(const struct place *p) {
    return p->slot >= rec.r ? 3 : p->count > 12 ? 4 : 0;
}

static uint16_t *edge(uint16_t node, int side) { return side ? &right[node] : &left[node]; }

static void shade_node(uint16_t node) {
    if (colour[node] == 0) colour[node] = 1;
}

/* Code 7 with the node whose edge is bad, or 0 with the node that the place names. */
static int walk(const struct place *p, uint16_t *node) {
    *node = p->slot + 2;
    for (uint32_t j = 0; j < p->count && *node != 0; j++) {
        uint16_t e = *edge(*node, p->word >> j & 1);
        if (e >= rec.m || e == 1) return 7;
        *node = e;
    }
    return 0;
}

static struct answer look(const struct place *p) {
    uint16_t node;
    int code = plain_check(&table, &rec);
    if (code || (code = place_code(p))) return refuse(code, 0);
    return walk(p, &node) ? refuse(7, node) : done(NAMED, node);
}

static struct answer link_edge(const struct place *p, int side, const struct place *q) {
    uint16_t source, target;
    int code = plain_check(&table, &rec);
    if (code || (code = place_code(p)) || (code = place_code(q))) return refuse(code, 0);
    if (rec.owes) return refuse(5, 0);
    if (walk(p, &source)) return refuse(7, source);
    if (source == 0) return refuse(8, 0);
    if (walk(q, &target)) return refuse(7, target);
    *edge(source, side) = target;
    rec.owes = 1, rec.owed = target;
    return done(LINKED, target);
}

static struct answer shade(void) {
    int code = plain_check(&table, &rec);
    if (code) return refuse(code, 0);
    if (!rec.owes) return refuse(6, 0);
    if (colour[rec.owed] > 2) return refuse(14, rec.owed);
    shade_node(rec.owed);
    rec.owes = 0;
    return done(SHADED, rec.owed);
}

static int bad_free(uint16_t e) { return e >= rec.m || (e != 0 && e < rec.r + 2); }

static struct answer take(const struct place *p, int side) {
    uint16_t source, f, g;
    int code = plain_check(&table, &rec);
    if (code || (code = place_code(p))) return refuse(code, 0);
    if (rec.owes) return refuse(5, 0);
    if (walk(p, &source)) return refuse(7, source);
    if (source == 0) return refuse(8, 0);
    f = left[1];
    if (bad_free(f)) return refuse(7, 1);
    if (f == 0) return refuse(9, 0);
    g = left[f];
    if (bad_free(g)) return refuse(7, f);
    if (colour[f] > 2) return refuse(14, f);
    if (g != 0 && colour[g] > 2) return refuse(14, g);
    *edge(source, side) = f;
    left[1] = g;
    left[f] = 0;
    shade_node(f);
    if (g != 0)
        shade_node(g);
    else
        rec.last = 1;
    if (rec.free != 0) rec.free--;
    return done(TAKEN, f);
}

/* n steps of the collector; the node is the position before the last of them. */
static struct answer collect(uint32_t n) {
    struct answer a;
    uint16_t i;
    size_t made = plain_many(&table, &rec, n ? n - 1 : 0, &a);
    i = rec.i;
    if (n && !a.code) made += plain_many(&table, &rec, 1, &a);
    return a.code ? refuse(a.code, made ? i : 0) : done(LOOKED, made ? i : 0);
}

static struct answer fresh(uint32_t m, uint32_t r) {
    if (m < 3 || m > MOST || r < 1 || r > 64 || r + 2 > m) return refuse(1, 0);
    table.lefts = table.rights = table.colours = m;
    rec.m = m, rec.r = r, rec.last = 1, rec.phase = ROOTS, rec.free = m - r - 2;
    for (uint16_t node = r + 2; node < m; node++) left[rec.last] = node, rec.last = node;
    return done(STARTED, rec.last);
}

/* The grammar: each piece moves p behind itself where it stands there. */

#define WORD(p, word) (memcmp(*(p), word, sizeof word - 1) == 0 && (*(p) += sizeof word - 1))

static int digit(char c) { return c >= '0' && c <= '9'; }

static int number(const char **p, uint32_t *n) {
    int digits = 0;
    *n = 0;
    if (**p == '0') return (*p)++, 1;
    while (digits < 7 && digit(**p)) *n = *n * 10 + (uint32_t)(*(*p)++ - '0'), digits++;
    return digits;
}

static int turns(const char **p, struct place *place) {
    place->count = place->word = 0;
    if (**p == '-') return (*p)++, 1;
    for (; **p == 'L' || **p == 'R'; (*p)++, place->count++)
        if (**p == 'R' && place->count < 12) place->word |= 1u << place->count;
    return place->count > 0;
}

static int side(const char **p, int *right_side) {
    *right_side = **p == 'R';
    return (**p == 'L' || **p == 'R') && (*p)++;
}

/* What a line after the first, from line to end, answers. */
static struct answer answer(const char *line, const char *end) {
    const char **p = &line;
    struct place from, to;
    uint32_t n;
    int s;
    if (end - line > LONGEST || !WORD(p, "op=")) return refuse(10, 0);
    if (WORD(p, "take slot=")) {
        if (number(p, &from.slot) && WORD(p, " turns=") && turns(p, &from) && WORD(p, " side=") &&
            side(p, &s) && *p == end)
            return take(&from, s);
    } else if (WORD(p, "link slot=")) {
        if (number(p, &from.slot) && WORD(p, " turns=") && turns(p, &from) && WORD(p, " side=") &&
            side(p, &s) && WORD(p, " toslot=") && number(p, &to.slot) && WORD(p, " toturns=") &&
            turns(p, &to) && *p == end)
            return link_edge(&from, s, &to);
    } else if (WORD(p, "shade")) {
        if (*p == end) return shade();
    } else if (WORD(p, "look slot=")) {
        if (number(p, &from.slot) && WORD(p, " turns=") && turns(p, &from) && *p == end)
            return look(&from);
    } else if (WORD(p, "collect count=")) {
        if (number(p, &n) && *p == end && n <= 1000000) return collect(n);
    }
    return refuse(10, 0);
}

static struct answer first(const char *line, const char *end) {
    const char **p = &line;
    uint32_t m, r;
    if (end - line > LONGEST || !WORD(p, "nodes=") || !number(p, &m) || !WORD(p, " slots=") ||
        !number(p, &r) || *p != end)
        return refuse(10, 0);
    return fresh(m, r);
}

/* Reads a line: its end, where its newline stands or its NUL, or 0 where there is none more. A line
   that holds NULs is told by the bytes that fgets left alone; of a line that is too long the rest
   is skipped. */
static const char *read_line(char *line) {
    size_t n;
    int c;
    memset(line, 1, ROOM);
    if (!fgets(line, LONGEST + 3, stdin)) return 0;
    n = strlen(line);
    if (n && line[n - 1] == '\n') return line + n - 1;
    while (n < LONGEST + 2 && memchr(line + n + 1, 0, LONGEST + 2 - n))
        n += 1 + strlen(line + n + 1);
    if (n && line[n - 1] == '\n') return line + n - 1;
    if (n > LONGEST)
        while ((c = getchar()) != EOF && c != '\n') continue;
    return line + n;
}

int main(void) {
    static char line[ROOM], in[65536], out[65536];
    const char *end;
    struct answer a;
    setvbuf(stdin, in, _IOFBF, sizeof in), setvbuf(stdout, out, _IOFBF, sizeof out);
#ifdef UNLOCKED
    __fsetlocking(stdin, FSETLOCKING_BYCALLER), __fsetlocking(stdout, FSETLOCKING_BYCALLER);
#endif
    end = read_line(line);
    a = first(line, end ? end : line);
    printf("code=%d node=%d\n", a.code, a.node);
    while (!a.code && (end = read_line(line))) {
        struct answer b = answer(line, end);
        printf("code=%d node=%d\n", b.code, b.node);
    }
    return 0;
}
