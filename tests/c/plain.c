#include "plain.h"
#include <string.h>

static struct answer say(uint16_t kind, uint16_t code, uint16_t node) {
    struct answer a = {kind, code, 0, node};
    return a;
}

/* A refusal whose code has a detail. */
static struct answer refuse(uint16_t code, uint16_t node, uint16_t detail) {
    struct answer a = {REFUSED, code, detail, node};
    return a;
}

static uint32_t bound(uint32_t m, uint32_t r) { return m * m + 7 * m + r + 2; }

/* The most nodes that can be free. */
static uint32_t most_free(const struct record *x) { return x->m - x->r - 2; }

static int shades(uint32_t phase) { return phase == SHADE_LEFT || phase == SHADE_RIGHT; }

/* Codes 1 and 2. */
int plain_check(const struct table *t, const struct record *x) {
    uint32_t m = x->m, r = x->r, b = bound(m, r);
    if (m < 3 || m > 4096 || r < 1 || r > 64 || r + 2 > m) return 1;
    if (t->lefts != m || t->rights != m || t->colours != m) return 1;
    if (x->phase == ROOTS ? x->i > r + 1 : x->i >= m) return 2;
    if (x->phase == SCAN && (x->k < 1 || x->k > m)) return 2;
    if (shades(x->phase) && (x->k == 1 || x->k >= m)) return 2;
    if (x->owes && (x->owed == 1 || x->owed >= m)) return 2;
    if (x->last != 1 && (x->last < r + 2 || x->last >= m)) return 2;
    if (x->blackened > m || x->lastblackened > m || x->steps >= b || x->took > b) return 2;
    if (x->free > most_free(x) || (x->free == 0) != (x->last == 1)) return 2;
    return 0;
}

static inline struct answer shade(const struct table *t, struct record *x, uint16_t n,
                                  uint16_t phase) {
    if (t->colour[n] > 2) return say(REFUSED, 14, n);
    if (t->colour[n] == 0) t->colour[n] = 1;
    x->steps++;
    x->phase = phase;
    return say(SHADED, 0, n);
}

static inline struct answer shade_root(const struct table *t, struct record *x) {
    uint16_t i = x->i;
    struct answer a = shade(t, x, i, i == x->r + 1 ? SCAN : ROOTS);
    if (a.code) return a;
    x->i = x->phase == SCAN ? 0 : i + 1;
    x->k = x->m;
    return a;
}

static inline struct answer read_edge(struct record *x, uint16_t e, uint16_t phase) {
    if (e >= x->m || e == 1) return refuse(7, x->i, x->phase == RIGHT);
    x->steps++;
    x->phase = phase;
    x->k = e;
    return say(LOOKED, 0, x->i);
}

static inline uint16_t next(const struct record *x) { return x->i + 1 == x->m ? 0 : x->i + 1; }

static inline struct answer look(const struct table *t, struct record *x) {
    uint16_t i = x->i;
    if (t->colour[i] > 2) return say(REFUSED, 14, i);
    x->steps++;
    if (t->colour[i] == 1) {
        x->phase = LEFT;
    } else if (x->k == 1) {
        x->phase = APPEND;
        x->i = 0;
        x->lastblackened = x->blackened;
    } else {
        x->k--;
        x->i = next(x);
    }
    return say(LOOKED, 0, i);
}

static inline struct answer blacken(const struct table *t, struct record *x) {
    uint16_t i = x->i;
    t->colour[i] = 2;
    x->steps++;
    x->blackened++;
    x->phase = SCAN;
    x->i = next(x);
    x->k = x->m;
    return say(BLACKENED, 0, i);
}

static inline void after_append(struct record *x) {
    if (x->i + 1 == x->m) {
        x->took = x->steps + 1;
        x->steps = 0;
        x->blackened = 0;
        if (x->cycles != UINT32_MAX) x->cycles++;
        x->phase = ROOTS;
        x->i = 0;
    } else {
        x->steps++;
        x->i++;
    }
}

static inline struct answer append(const struct table *t, struct record *x) {
    uint16_t i = x->i;
    if (t->colour[i] == 2) {
        t->colour[i] = 0;
        after_append(x);
        return say(WHITENED, 0, i);
    }
    if (t->colour[i] > 2) return say(REFUSED, 14, i);
    if (t->colour[i] == 1) return refuse(15, i, 0);
    if (i <= x->r + 1) return refuse(15, i, 1);
    if (i == x->last) return refuse(15, i, 2);
    t->left[i] = 0;
    t->right[i] = 0;
    t->left[x->last] = i;
    x->last = i;
    x->free++;
    after_append(x);
    return say(APPENDED, 0, i);
}

static inline struct answer phase_step(const struct table *t, struct record *x) {
    switch (x->phase) {
    case ROOTS:
        return shade_root(t, x);
    case SCAN:
        return look(t, x);
    case LEFT:
        return read_edge(x, t->left[x->i], SHADE_LEFT);
    case SHADE_LEFT:
        return shade(t, x, x->k, RIGHT);
    case RIGHT:
        return read_edge(x, t->right[x->i], SHADE_RIGHT);
    case SHADE_RIGHT:
        return shade(t, x, x->k, BLACK);
    case BLACK:
        return blacken(t, x);
    default:
        return append(t, x);
    }
}

struct answer plain_step(const struct table *t, struct record *x) {
    int code = plain_check(t, x);
    if (code) return say(REFUSED, code, 0);
    return phase_step(t, x);
}

static size_t least(size_t a, size_t b) { return a < b ? a : b; }

/* n steps; memchr finds the next gray node. Where a colour is above 2 it is not the single steps'
 * equal. */
size_t plain_many(const struct table *t, struct record *x, size_t n, struct answer *last) {
    int code = plain_check(t, x);
    *last = code ? say(REFUSED, code, 0) : say(NAMED, 0, 0);
    if (code) return 0;
    uint32_t b = bound(x->m, x->r);
    size_t done = 0;
    while (done < n) {
        if (x->steps >= b || x->blackened > x->m || x->free > most_free(x)) {
            *last = say(REFUSED, 2, 0);
            return done;
        }
        if (x->phase == SCAN) {
            size_t most =
                least(least(n - done - 1, x->k - 1), least(x->m - 1 - x->i, b - 1 - x->steps));
            uint8_t *from = t->colour + x->i, *gray = memchr(from, 1, most);
            size_t d = gray ? (size_t)(gray - from) : most;
            x->i += d;
            x->k -= d;
            x->steps += d;
            done += d;
        }
        *last = phase_step(t, x);
        if (last->code) return done;
        done++;
    }
    return done;
}
