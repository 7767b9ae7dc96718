/* The call of jenturik_text.h. Every examples/NAME.txt, cut in many ways, prints its NAME.out
 * [Text 1] [Text 6]; runs that end early [Text 5]; two runs at a time; words that form no session
 * [Text 3], and a line's buffer of another length, which change nothing [Text 4]. It is run in the
 * project's folder. The last line is 'N passed, M failed'. */
#define _DEFAULT_SOURCE
#include "counting.h"
#include "jenturik_text.h"

#include <glob.h>
#include <stdio.h>
#include <stdlib.h>
#include <string.h>

enum { NODES = 4096, TEXT = 1 << 16, BLOCK = 128 };

/* All that a run lends, and what it has printed so far. */
typedef struct {
    uint16_t left[NODES], right[NODES];
    uint8_t colour[NODES], line[JENTURIK_LINE + 1], out[BLOCK * JENTURIK_ANSWER];
    uint32_t lefts[NODES], rights[NODES], words[JENTURIK_SESSION_WORDS];
    char printed[TEXT];
    size_t length;
    unsigned over;
} run;

static uint64_t seed = 88172645463325252u;
static run one, two, before;

static size_t below(size_t n) {
    seed ^= seed << 13, seed ^= seed >> 7, seed ^= seed << 17;
    return (size_t)(seed >> 32) % n;
}

/* The words are 0; all else holds anything, since a run may begin so. */
static void begin(run *r) {
    memset(r, 0xa5, sizeof *r);
    memset(r->words, 0, sizeof r->words);
    r->length = r->over = 0;
}

static jenturik_turned turn(run *r, size_t line, const char *text, size_t n) {
    return jenturik_turn(r->left, NODES, r->right, NODES, r->colour, NODES, r->lefts, NODES,
                         r->rights, NODES, r->line, line, r->out, sizeof r->out, r->words,
                         (const uint8_t *)text, n);
}

/* A block, or the end of the text: what it prints is kept. */
static void feed(run *r, const char *text, size_t n) {
    jenturik_turned t = turn(r, JENTURIK_LINE, text, n);
    check(t.code == 0 && t.zero == 0 && t.used <= sizeof r->out, "a block's answer", "", t.code);
    if (r->length + t.used > TEXT) exit(3);
    memcpy(r->printed + r->length, r->out, t.used);
    r->length += t.used;
    r->over = t.over;
    unsigned stage = r->words[JENTURIK_STAGE];
    unsigned over = stage == JENTURIK_OVER ? 1 : stage == JENTURIK_STOPPED ? 2 : 0;
    check(t.over == over, "over and the stage", "", (long)stage);
}

/* A text in blocks of `size` bytes, or of random sizes where that is 0, and its end. */
static void feed_all(run *r, const char *text, size_t length, size_t size) {
    for (size_t at = 0, n; at < length; at += n) {
        n = size != 0 ? size : 1 + below(BLOCK);
        if (n > length - at) n = length - at;
        feed(r, text + at, n);
    }
    feed(r, text, 0);
}

static int prints(const run *r, const char *out, size_t length) {
    return r->length == length && memcmp(r->printed, out, length) == 0;
}

static size_t contents(const char *name, char *into) {
    FILE *f = fopen(name, "rb");
    if (f == NULL) {
        printf("%s cannot be read\n", name);
        exit(3);
    }
    size_t n = fread(into, 1, TEXT, f);
    fclose(f);
    return n;
}

/* A text prints this, however it is cut, and a run that is over prints nothing more. */
static void text(const char *name, const char *in, size_t n, const char *out, size_t m,
                 unsigned over) {
    static const size_t sizes[] = {1, 2, 3, 5, 7, 13, 64, 81, 82, BLOCK, 0, 0, 0, 0, 0, 0};
    for (size_t i = 0; i < sizeof sizes / sizeof *sizes; i++) {
        begin(&one);
        feed_all(&one, in, n, sizes[i]);
        check(prints(&one, out, m), "what is printed", name, (long)sizes[i]);
        check(one.over == over, "how it ends", name, (long)sizes[i]);
        if (over == 0) continue;
        feed_all(&one, in, n, sizes[i]);
        check(prints(&one, out, m), "nothing more is printed", name, (long)sizes[i]);
    }
}

static void examples(void) {
    static char in[TEXT], out[TEXT];
    char name[256];
    glob_t all;
    if (glob("examples/*.txt", 0, NULL, &all) != 0 || all.gl_pathc < 8) exit(3);
    for (size_t i = 0; i < all.gl_pathc; i++) {
        const char *path = all.gl_pathv[i];
        snprintf(name, sizeof name, "%.*s.out", (int)strlen(path) - 4, path);
        size_t n = contents(path, in), m = contents(name, out);
        text(path, in, n, out, m, strstr(path, "refused") != NULL ? 2 : 0);
    }
    globfree(&all);
}

/* Texts of no example. */
static void others(void) {
    static const struct {
        const char *in, *out;
        unsigned over;
    } texts[] = {
        {"", "code=10 node=0\n", 1},
        {"\n", "code=10 node=0\n", 1},
        {"nodes=2 slots=1\nop=shade\n", "code=1 node=0\n", 1},
        {"nodes=4097 slots=1", "code=1 node=0\n", 1},
        {"nodes=4096 slots=64", "code=0 node=4095\n", 0},
        {"nodes=5 slots=1\nop=shade", "code=0 node=4\ncode=6 node=0\n", 0},
        {"nodes=5 slots=1\n\nop=shade", "code=0 node=4\ncode=10 node=0\ncode=6 node=0\n", 0},
        {"nodes=5 slots=1\n\n\n", "code=0 node=4\ncode=10 node=0\ncode=10 node=0\n", 0},
        {"nodes=3 slots=1\nnode=0 left=0 right=0\n", "code=0 node=1\ncode=10 node=0\n", 2},
        {"nodes=3 slots=1\nnode=1 left=0 right=0\n\n", "code=0 node=1\ncode=10 node=0\n", 2},
    };
    for (size_t i = 0; i < sizeof texts / sizeof *texts; i++)
        text(texts[i].in, texts[i].in, strlen(texts[i].in), texts[i].out, strlen(texts[i].out),
             texts[i].over);
}

/* Two runs, a block of the one and a block of the other: nothing is kept but what is lent. */
static void together(void) {
    static char in[TEXT], out[TEXT], in2[TEXT], out2[TEXT];
    size_t n = contents("examples/listing.txt", in), m = contents("examples/listing.out", out);
    size_t n2 = contents("examples/export.txt", in2), m2 = contents("examples/export.out", out2);
    begin(&one);
    begin(&two);
    for (size_t at = 0; at < n || at < n2; at += 9) {
        if (at < n) feed(&one, in + at, n - at < 9 ? n - at : 9);
        if (at < n2) feed(&two, in2 + at, n2 - at < 9 ? n2 - at : 9);
    }
    feed(&two, in2, 0);
    feed(&one, in, 0);
    check(prints(&one, out, m), "the first of two runs", "listing", 0);
    check(prints(&two, out2, m2), "the second of two runs", "export", 0);
}

/* The words of `before`, one of them changed, or a line's buffer of so many bytes: refused with the
 * code, and nothing is changed. */
static void refused(unsigned word, uint32_t value, size_t line, unsigned code) {
    one = before;
    if (word < JENTURIK_SESSION_WORDS) one.words[word] = value;
    two = one;
    jenturik_turned t = turn(&one, line, "op=shade\n", 9);
    check(t.code == code && t.used == 0 && t.over == 0 && t.zero == 0, "it is refused", "word",
          (long)word);
    check(memcmp(&one, &two, sizeof one) == 0, "a refusal changes nothing", "word", (long)word);
}

/* Words that form no session, in whatever stage `before` is. */
static void damaged(void) {
    uint32_t stage = before.words[JENTURIK_STAGE];
    int has_table = stage != JENTURIK_OPENING && stage != JENTURIK_OVER;
    for (unsigned w = 0; w < JENTURIK_SESSION_WORDS; w++)
        if (w < JENTURIK_STEPS || w > JENTURIK_TOOK) refused(w, UINT32_MAX, JENTURIK_LINE, 2);
    for (unsigned w = JENTURIK_USED; w < JENTURIK_WORDS; w++) refused(w, 1, JENTURIK_LINE, 2);
    for (unsigned w = JENTURIK_SESSION_USED; w < JENTURIK_SESSION_WORDS; w++)
        refused(w, 1, JENTURIK_LINE, 2);
    refused(JENTURIK_NODES, 65536, JENTURIK_LINE, 2);
    refused(JENTURIK_PHASE, 8, JENTURIK_LINE, 2);
    refused(JENTURIK_STAGE, 6, JENTURIK_LINE, 2);
    refused(JENTURIK_STAGE_NODES, has_table ? 65536 : 1, JENTURIK_LINE, 2);
    refused(JENTURIK_STAGE_LINE, stage == JENTURIK_LOADING ? 65536 : 1, JENTURIK_LINE, 2);
    refused(JENTURIK_LINE_USED, JENTURIK_LINE + 1, JENTURIK_LINE, 2);
    refused(JENTURIK_SESSION_WORDS, 0, JENTURIK_LINE - 1, 1);
    refused(JENTURIK_SESSION_WORDS, 0, JENTURIK_LINE + 1, 1);
    refused(JENTURIK_SESSION_WORDS, 0, 0, 1);
    refused(JENTURIK_STAGE, 6, 0, 2);
}

/* Words that form a session of no run: the call ends, and leaves a session. */
static void strange(void) {
    for (int i = 0; i < 200; i++) {
        one = before;
        one.words[JENTURIK_STAGE] = (uint32_t)(1 + below(3));
        one.words[JENTURIK_STAGE_NODES] = (uint32_t)below(65536);
        one.words[JENTURIK_STAGE_LINE] =
            one.words[JENTURIK_STAGE] == JENTURIK_LOADING ? (uint32_t)below(65536) : 0;
        one.words[JENTURIK_NODES] = (uint32_t)below(65536);
        one.words[JENTURIK_LINE_USED] = (uint32_t)below(JENTURIK_LINE + 1);
        for (int k = 0; k < 4; k++) {
            jenturik_turned t = turn(&one, JENTURIK_LINE, "\nop=shade\nop=collect count=9\n", 29);
            check(t.code == 0, "a session of no run", "turn", k);
        }
    }
}

/* The same, of what blocks of 17 bytes of a text lead to. */
static void damage(const char *in, size_t n) {
    for (size_t end = 0; end < n; end += 17) {
        begin(&before);
        for (size_t at = 0; at < end; at += 17) feed(&before, in + at, 17);
        damaged();
        strange();
    }
}

/* All stages are met. */
static void stages(void) {
    static char in[TEXT];
    damage(in, contents("examples/export.txt", in));
    damage(in, contents("examples/export-refused.txt", in));
    damage("no first line\n..................", 32);
}

/* The calls of jenturik.h over a session's table. */
static void beside(void) {
    static char in[TEXT];
    size_t n = contents("examples/listing.txt", in);
    begin(&one);
    feed_all(&one, in, n, 64);
    uint32_t m = one.words[JENTURIK_NODES];
    jenturik_told a = jenturik_free_count(one.left, m, one.right, m, one.colour, m, one.words);
    jenturik_told b = jenturik_in_use(one.left, m, one.right, m, one.colour, m, one.words);
    check(m == 5 && a.code == 0 && b.code == 0 && a.node == 0 && b.node == 2, "calls beside",
          "listing", 0);
}

int main(void) {
    examples();
    others();
    together();
    stages();
    beside();
    return tally();
}
