/* The batch against single steps, and both against plain C, and In use and Free count against plain
   C: random tables, damaged ones, invented records, wrong lengths. The colours changed are counted
   by comparing, at each single step of either. diff RUNS: as many runs; says how many steps were
   made, how many colours changed and which codes came, and ends with 1 at the first difference. */
#include "colours.h"
#include "library.h"
#include <stdio.h>
#include <stdlib.h>
#include <string.h>

#define MOST 4200

/* Plain C's, of apart.c. */
__typeof__(jenturik_in_use) peer_in_use, peer_free_count;

struct place {
    uint16_t left[MOST], right[MOST];
    uint8_t colour[MOST];
    uint32_t words[JENTURIK_WORDS];
    size_t done, changed;
    struct answer answer; /* of the last step, or of the one that was refused */
};

static struct place begun, batch, steps, plain;
static struct record x;
static struct table t;
static uint8_t before[MOST];                           /* the colours before a step */
static uint64_t codes[16], in_use[16], free_count[16]; /* how often each came */
static uint64_t seed = 88172645463325252u;

static uint32_t below(uint32_t n) {
    seed ^= seed << 13, seed ^= seed >> 7, seed ^= seed << 17;
    return (uint32_t)(seed >> 32) % n;
}

static int one_in(uint32_t n) { return below(n) == 0; }

/* A table of m nodes with good edges and colours; the colours suit the phase more often than not.
 */
static void random_table(uint32_t m) {
    uint32_t grays = one_in(2) ? 3 : 3 * m;
    for (uint32_t i = 0; i < m; i++) {
        uint32_t e = below(m), f = one_in(2) ? 0 : below(m);
        begun.left[i] = e == 1 ? 0 : e, begun.right[i] = f == 1 ? 0 : f;
        begun.colour[i] = one_in(grays) ? 1 : below(2) * 2;
        if (x.phase == APPEND && i < x.r + 2u) begun.colour[i] = 2;
        if (x.phase == APPEND && begun.colour[i] == 1) begun.colour[i] = 2;
    }
}

static void damage(uint32_t m) {
    uint32_t i = below(m);
    switch (below(4)) {
    case 0:
        begun.left[i] = one_in(2) ? 1 : m + below(9);
        break;
    case 1:
        begun.right[i] = one_in(2) ? 1 : m + below(9);
        break;
    case 2:
        begun.colour[i] = 3 + below(253);
        break;
    case 3:
        begun.colour[i] = 1;
        break;
    }
}

/* A free count that suits last, often such that Append soon passes its limit. */
static void random_free(uint32_t most) {
    if (x.last == 1)
        x.free = 0;
    else
        x.free = one_in(2) ? 1 + below(most) : most - below(most < 4 ? most : 4);
}

/* As a start would be, with nothing free: so that a run can be long, and garbage is appended. */
static void begin(uint32_t m) {
    x.phase = ROOTS, x.i = 0, x.last = 1, x.free = 0, x.steps = 0, x.blackened = 0;
    begun.left[0] = begun.right[0] = begun.left[1] = begun.right[1] = 0;
    memset(begun.colour, 0, m);
}

/* A record that passes, and now and then one that does not. */
static void random_record(uint32_t m) {
    uint32_t b;
    memset(&x, 0, sizeof x);
    x.m = m, x.r = 1 + below(m - 2 < 64 ? m - 2 : 64);
    b = m * m + 7 * m + x.r + 2;
    x.phase = one_in(3) ? below(8) : one_in(3) ? APPEND : SCAN;
    x.i = x.phase == ROOTS ? below(x.r + 2) : below(m), x.k = 1 + below(m);
    if (x.phase > APPEND) x.k = x.k == 1 ? 0 : x.k % m; /* the number read, mostly stale */
    x.owes = one_in(3), x.owed = x.owes ? below(m) : 0;
    if (x.owed == 1) x.owed = 0;
    x.last = one_in(2) || x.r + 2u >= m ? 1 : x.r + 2 + below(m - x.r - 2);
    x.steps = one_in(3) ? b - 1 - below(b < 60 ? b : 60) : below(b);
    x.cycles = one_in(9) ? UINT32_MAX - below(2) : below(100);
    x.took = below(b + 1), x.blackened = one_in(2) ? m - below(2) : below(m + 1),
    x.lastblackened = below(m + 1);
    random_free(m - x.r - 2);
    if (!one_in(12)) return;
    switch (below(12)) {
    case 0:
        x.m = below(5000);
        break;
    case 1:
        x.r = below(70);
        break;
    case 2:
        x.i = below(5000);
        break;
    case 3:
        x.k = x.phase > APPEND ? one_in(2) ? 1 : m + below(3) : below(2) * (m + 1);
        break;
    case 4:
        x.owes = 1, x.owed = one_in(2) ? 1 : m + below(3);
        break;
    case 5:
        x.last = below(m + 3);
        break;
    case 6:
        x.steps = b + below(3);
        break;
    case 7:
        x.took = b + below(3);
        break;
    case 8:
        x.blackened = m + below(3);
        break;
    case 9:
        x.lastblackened = m + below(3);
        break;
    case 10:
        x.free = x.free == 0 ? 1 + below(m) : 0;
        break;
    case 11:
        x.free = m - x.r - 1 + below(3);
        break;
    }
}

static void lend(struct place *p) {
    memcpy(p, &begun, sizeof begun);
    t.left = p->left, t.right = p->right, t.colour = p->colour;
    memcpy(before, p->colour, sizeof before);
}

/* How many colours a step changed. */
static size_t compared(void) { return recoloured(before, t.colour, t.colours); }

static void by_plain(size_t n) {
    struct answer a = {NAMED, 0, 0, 0};
    int code;
    lend(&plain), plain.done = 0;
    code = plain_check(&t, &x);
    if (code) a.kind = REFUSED, a.code = code;
    while (plain.done < n && !a.code) {
        a = plain_step(&t, &x);
        plain.changed += compared();
        if (!a.code) plain.done++;
    }
    words_of(plain.words, &x), plain.answer = a;
}

static void by_batch(size_t n) {
    jenturik_last a = library_many(&t, batch.words, n);
    batch.done = a.done, batch.changed = a.changed;
    batch.answer = (struct answer){a.what, a.code, a.detail, a.node};
}

/* Whether each step tells the colours that it changed. */
static int by_steps(size_t n) {
    int told = 1, code = 0;
    while (steps.done < n && code == 0) {
        jenturik_told a = library_collect(&t, steps.words);
        size_t changed = compared();
        told = told && a.changed == changed;
        code = a.code, steps.done += code == 0, steps.changed += changed;
        steps.answer = (struct answer){a.what, a.code, a.detail, a.node};
    }
    return told;
}

/* Whether an answer of the library is another one than plain C's; counts its code. */
static int unlike(struct answer a, struct answer b, uint64_t *came) {
    came[a.code]++;
    return memcmp(&a, &b, sizeof a);
}

/* The call that counts nodes otherwise than plain C on what is lent, if one does. */
static const char *miscounts(const uint32_t *w) {
    if (unlike(asked(jenturik_in_use, &t, w), asked(peer_in_use, &t, w), in_use)) return "In use";
    if (unlike(asked(jenturik_free_count, &t, w), asked(peer_free_count, &t, w), free_count))
        return "Free count";
    return NULL;
}

static int differ(const struct place *a, const struct place *b) {
    return a->done != b->done || a->changed != b->changed ||
           memcmp(a->left, b->left, sizeof a->left) ||
           memcmp(a->right, b->right, sizeof a->right) ||
           memcmp(a->colour, b->colour, sizeof a->colour) ||
           memcmp(a->words, b->words, sizeof a->words);
}

int main(int argc, char **argv) {
    const char *call;
    uint64_t runs = argc > 1 ? strtoull(argv[1], 0, 10) : 0, made = 0, changed = 0;
    if (!runs) return fprintf(stderr, "diff RUNS\n"), 2;
    for (uint64_t k = 0; k < runs; k++) {
        uint32_t m = 3 + below(one_in(200) ? 4094 : one_in(4) ? 300 : 12);
        size_t n = one_in(4) ? below(6) : below(2 * m * m + 50);
        if (n > 60000) n = 60000;
        memset(&begun, 0, sizeof begun);
        random_record(m), random_table(m);
        if (one_in(4)) begin(m);
        for (uint32_t d = one_in(3) ? below(3) : 0; d > 0; d--) damage(m);
        t.lefts = t.rights = t.colours = m;
        if (one_in(60)) *(size_t *[]){&t.lefts, &t.rights, &t.colours}[below(3)] = below(m + 3);
        words_of(begun.words, &x);
        lend(&batch);
        if ((call = miscounts(batch.words)) != NULL)
            return printf("run %llu: %s differs: M = %u\n", (unsigned long long)k, call, m), 1;
        by_batch(n);
        lend(&steps);
        if (!by_steps(n))
            return printf("run %llu: colours changed: M = %u\n", (unsigned long long)k, m), 1;
        by_plain(n);
        if (differ(&batch, &steps) || differ(&batch, &plain) ||
            memcmp(&batch.answer, &plain.answer, sizeof batch.answer) ||
            (n != 0 && memcmp(&steps.answer, &plain.answer, sizeof steps.answer)))
            return printf("run %llu differs: M = %u, n = %zu\n", (unsigned long long)k, m, n), 1;
        made += batch.done, changed += batch.changed, codes[batch.answer.code]++;
    }
    printf("%llu runs, %llu steps, %llu colours changed, no difference; code 0: %llu, 1: %llu, "
           "2: %llu, 7: %llu, 14: %llu, 15: %llu; In use 0: %llu, 7: %llu; Free count 0: %llu, "
           "2: %llu\n",
           (unsigned long long)runs, (unsigned long long)made, (unsigned long long)changed,
           (unsigned long long)codes[0], (unsigned long long)codes[1], (unsigned long long)codes[2],
           (unsigned long long)codes[7], (unsigned long long)codes[14],
           (unsigned long long)codes[15], (unsigned long long)in_use[0],
           (unsigned long long)in_use[7], (unsigned long long)free_count[0],
           (unsigned long long)free_count[2]);
    return 0;
}
