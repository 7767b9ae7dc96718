/* Which damage a call tells: each kind of it at each place where a step, In use or Load reads a
 * value, with the code, the node and the detail that are expected written here. An edge is told
 * with its side [Codes 7] [Codes 11] [In use 2], a colour by a code of its own [Codes 14], a node
 * that Append should not meet with the reason [Codes 15]; where two are bad, the one read first
 * [Order 2] [Order 3]. A refused call changes nothing [Answers 4]. Schedules and many steps tell
 * the same [Schedules 3] [Many 2]. And jenturik_code_text has a text of its own for each code and
 * detail. The last line is 'N passed, M failed'. */
#define _DEFAULT_SOURCE
#include "lists.h"
#include "refusing.h"

/* Node 4 hangs on the left of slot 0's node 2, slot 1's node 3 on its right, and 5, 6, 7, 8 are
 * free. */
enum { M = 9, R = 2, ROOTS = 0, SCAN, LEFT, RIGHT, BLACK, APPEND, SHADE_LEFT };

static const uint16_t bad_edges[] = {1, M, M + 1, 256 + 5, 65535},
                      bad_free[] = {1, 2, 3, M, M + 1, 65535};
static const uint8_t bad_colours[] = {3, 4, 128, 255};

#define EACH(i, list) for (size_t i = 0; i < sizeof(list) / sizeof *(list); i++)

static lists edges;

static void make(void) {
    make_fresh(&bad, M, R);
    bad.left[1] = 5, bad.left[4] = 0, bad.words[JENTURIK_FREE_COUNT] = 4;
    bad.left[2] = 4, bad.right[2] = 3;
}

static void set_edge(uint32_t node, uint32_t side, uint16_t edge) {
    (side == 0 ? bad.left : bad.right)[node] = edge;
}

static void set_colour(uint32_t node, uint8_t colour) { bad.colour[node] = colour; }

/* The collector in this phase at node i. */
static void make_at(uint32_t phase, uint32_t i) {
    make();
    bad.words[JENTURIK_PHASE] = phase, bad.words[JENTURIK_I] = i;
    bad.words[JENTURIK_K] = phase == SCAN ? M : 0;
    if (phase == APPEND) memset(bad.colour, 2, M);
}

/* The bad table refuses the step with this code, node and detail: by its own call, as the second
 * step of a schedule, and a collector step among many; nothing is changed. */
static void refuses_step(jenturik_step s, uint32_t code, uint32_t node, uint32_t detail,
                         const char *why) {
    const jenturik_step two[] = {{.kind = 4}, s};
    for (int high = 0; high < 2; high++) {
        lend(&t, &bad, high);
        answer a = of_told(own_call(&t, (const uint32_t *)&s));
        take_back(&t, &after);
        check(a.what == 0 && a.code == code && a.node == node && a.detail == detail &&
                  a.changed == 0 && same(&bad, &after),
              why, "by its own call", (long)node);
        lend(&t, &bad, high);
        jenturik_done d = jenturik_schedule_steps(LENT(&t), two, 2);
        take_back(&t, &after);
        check(d.done == 1 && d.code == code && d.detail == detail && d.changed == 0 &&
                  same(&bad, &after),
              why, "in a schedule", (long)node);
        if (s.kind != 3) continue;
        lend(&t, &bad, high);
        a = of_last(jenturik_collect_many(LENT(&t), 5));
        take_back(&t, &after);
        check(a.done == 0 && a.what == 0 && a.code == code && a.node == node &&
                  a.detail == detail && a.changed == 0 && same(&bad, &after),
              why, "among many", (long)node);
    }
}

static void collect_refuses(uint32_t code, uint32_t node, uint32_t detail, const char *why) {
    refuses_step((jenturik_step){.kind = 3}, code, node, detail, why);
}

static void take_refuses(uint32_t code, uint32_t node, uint32_t detail, const char *why) {
    for (uint32_t side = 0; side < 2; side++)
        refuses_step((jenturik_step){.kind = 0, .side = side}, code, node, detail, why);
}

/* The steps that walk to the place of slot 0 with so many turns. */
static void walks(uint32_t count, uint32_t word, uint32_t node, uint32_t side, const char *why) {
    refuses_step((jenturik_step){4, 0, count, word, 0, 0, 0, 0, {0}}, 7, node, side, why);
    for (uint32_t to = 0; to < 2; to++) {
        refuses_step((jenturik_step){0, 0, count, word, to, 0, 0, 0, {0}}, 7, node, side, why);
        refuses_step((jenturik_step){1, 0, count, word, to, 1, 0, 0, {0}}, 7, node, side, why);
        refuses_step((jenturik_step){1, 1, 0, 0, to, 0, count, word, {0}}, 7, node, side, why);
    }
}

static void walked_edges(void) {
    EACH(i, bad_edges)
    for (uint32_t side = 0; side < 2; side++) {
        make(), set_edge(2, side, bad_edges[i]), walks(1, side, 2, side, "the first turn");
        walks(3, side, 2, side, "the first of three turns");
        set_edge(2, 1 - side, bad_edges[0]), walks(1, side, 2, side, "both edges");
        make(), set_edge(4, side, bad_edges[i]), walks(2, 2 * side, 4, side, "a later turn");
        set_edge(4, 1 - side, bad_edges[0]), walks(2, 2 * side, 4, side, "both edges, later");
        make(), set_edge(2, side, bad_edges[i]), set_edge(3, 1 - side, bad_edges[i]);
        refuses_step((jenturik_step){1, 0, 1, side, 0, 1, 1, 1 - side, {0}}, 7, 2, side,
                     "the source's walk comes before the target's");
        refuses_step((jenturik_step){1, 1, 1, 1 - side, 0, 0, 1, side, {0}}, 7, 3, 1 - side,
                     "the source's walk comes before the target's");
    }
}

static void taken_nodes(void) {
    EACH(i, bad_free) {
        make(), set_edge(1, 0, bad_free[i]), take_refuses(7, 1, 0, "FREE's edge");
        set_colour(2, 3), set_colour(3, 3), take_refuses(7, 1, 0, "FREE's edge and colours");
        make(), set_edge(5, 0, bad_free[i]), take_refuses(7, 5, 0, "the first free node's edge");
        set_colour(5, 3), take_refuses(7, 5, 0, "its edge comes before its colour");
        set_edge(2, 1, 1);
        refuses_step((jenturik_step){0, 0, 1, 1, 0, 0, 0, 0, {0}}, 7, 2, 1, "the walk before it");
    }
    EACH(i, bad_colours) {
        make(), set_colour(5, bad_colours[i]), take_refuses(14, 5, 0, "the first's colour");
        set_colour(6, bad_colours[i]), take_refuses(14, 5, 0, "the first's before the next's");
        set_edge(5, 0, 0), take_refuses(14, 5, 0, "the only one's colour");
        make(), set_colour(6, bad_colours[i]), take_refuses(14, 6, 0, "the next one's colour");
        make(), set_colour(5, bad_colours[i]), set_edge(1, 0, 0), take_refuses(9, 0, 0, "9 alone");
    }
}

static void shaded_nodes(void) {
    static const uint32_t owed[] = {0, 2, 3, 4, 8};
    EACH(i, bad_colours)
    EACH(j, owed) {
        make(), set_colour(owed[j], bad_colours[i]);
        bad.words[JENTURIK_OWES] = 1, bad.words[JENTURIK_OWED] = owed[j];
        refuses_step((jenturik_step){.kind = 2}, 14, owed[j], 0, "the colour owed");
    }
}

static void collected_colours(void) {
    EACH(i, bad_colours)
    for (uint32_t n = 0; n < M; n++) {
        make_at(ROOTS, n), set_colour(n, bad_colours[i]);
        if (n <= R + 1) collect_refuses(14, n, 0, "a root's colour");
        make_at(SCAN, n), set_colour(n, bad_colours[i]), collect_refuses(14, n, 0, "scanned");
        for (uint32_t side = 0; side < 2 && n != 1; side++) {
            make_at(SHADE_LEFT + side, 4), bad.words[JENTURIK_READ] = n;
            set_edge(4, 0, 1), set_edge(4, 1, 1), set_colour(n, bad_colours[i]);
            collect_refuses(14, n, 0, "the colour of the number read");
        }
    }
}

static void collected_edges(void) {
    EACH(i, bad_edges)
    for (uint32_t n = 0; n < M; n++)
        for (uint32_t side = 0; side < 2; side++) {
            make_at(LEFT + side, n), set_edge(n, side, bad_edges[i]);
            collect_refuses(7, n, side, "an edge");
            set_edge(n, 1 - side, 1), collect_refuses(7, n, side, "both edges");
            set_colour(n, 3), collect_refuses(7, n, side, "both edges and the colour");
        }
}

/* The reasons of 15, and 14 before them. Where no node is free, FREE is last. */
static void appended_nodes(void) {
    for (int none = 0; none < 2; none++)
        for (uint32_t n = 0; n < M; n++) {
            make_at(APPEND, n);
            if (none) bad.words[JENTURIK_LAST] = 1, bad.words[JENTURIK_FREE_COUNT] = 0;
            EACH(i, bad_colours)
            set_colour(n, bad_colours[i]), collect_refuses(14, n, 0, "a colour where Append is");
            set_colour(n, 1), collect_refuses(15, n, JENTURIK_GRAY, "gray");
            set_colour(n, 0);
            if (n <= R + 1) collect_refuses(15, n, JENTURIK_WHITE_ROOT, "a white root");
            if (n == M - 1 && !none) collect_refuses(15, n, JENTURIK_WHITE_LAST, "a white last");
        }
}

/* Many steps and a schedule of as many: so many are done, and then the damage is told. */
static void after_steps(size_t done, uint32_t code, uint32_t node, uint32_t detail,
                        const char *why) {
    jenturik_step steps[M + 1];
    memset(steps, 0, sizeof steps);
    for (int i = 0; i <= M; i++) steps[i].kind = 3;
    lend(&t, &bad, 0);
    jenturik_last a = jenturik_collect_many(LENT(&t), M + 1);
    check(a.done == done && a.what == 0 && a.code == code && a.node == node && a.detail == detail,
          why, "collect_many", (long)a.done);
    lend(&t, &bad, 1);
    jenturik_done d = jenturik_schedule_steps(LENT(&t), steps, M + 1);
    check(d.done == done && d.code == code && d.detail == detail, why, "schedule", (long)d.done);
}

static void later_steps(void) {
    make_at(APPEND, 0), set_colour(M - 1, 0), after_steps(M - 1, 15, M - 1, 2, "white last");
    set_colour(3, 0), after_steps(3, 15, 3, 1, "a white root");
    set_colour(2, 1), after_steps(2, 15, 2, 0, "gray"), set_colour(1, 9);
    after_steps(1, 14, 1, 0, "a colour where Append is");
    make_at(SCAN, 0), set_colour(6, 255), after_steps(6, 14, 6, 0, "a colour scanned");
    make_at(LEFT, 4), set_edge(4, 1, M), after_steps(2, 7, 4, 1, "a right edge");
    make_at(LEFT, 4), set_edge(4, 0, 6), set_colour(6, 3),
        after_steps(1, 14, 6, 0, "a number read");
    make_at(ROOTS, 0), set_colour(3, 3), after_steps(3, 14, 3, 0, "a root's colour");
    make_at(SCAN, 2), set_colour(2, 1), set_edge(2, 0, 1), after_steps(1, 7, 2, 0, "a left edge");
}

/* In use reads the edges of what slots lead to: 2, 3 and 4. */
static void counted_edges(void) {
    EACH(i, bad_edges)
    for (uint32_t n = 2; n < 5; n++)
        for (uint32_t side = 0; side < 2; side++)
            for (uint32_t both = 0; both < 2; both++) {
                if (n == 4) make();
                if (n != 4) make(), bad.left[2] = 0;
                set_edge(n, side, bad_edges[i]);
                if (both) set_edge(n, 1 - side, bad_edges[0]);
                lend(&t, &bad, (int)both);
                jenturik_told a = ask(&t);
                check(a.what == 0 && a.code == 7 && a.node == n && a.changed == 0 &&
                          a.detail == (both ? 0 : side),
                      both ? "left before right" : "the side", "in_use", (long)n);
            }
}

/* Load judges the edges of all nodes, and NIL's must be 0. */
static void given_edges(void) {
    static const uint32_t wrong[] = {1, M, 65536, 65540, UINT32_MAX};
    make_fresh(&bad, M, R);
    edges.lefts = edges.rights = M;
    for (uint32_t n = 0; n < M; n++)
        for (size_t i = 0; i < 15; i++) {
            uint32_t side = i % 3, e = n == 0 && i >= 12 ? 4 : wrong[i / 3]; /* 2 is both */
            for (uint32_t k = 0; k < M; k++) edges.left[k] = bad.left[k], edges.right[k] = 0;
            if (side != 1) edges.left[n] = e;
            if (side != 0) edges.right[n] = e;
            lend(&t, &bad, (int)(i % 2));
            jenturik_told a = load(&t, &edges, M, R, (int)(i % 2));
            check(a.what == 0 && a.code == 11 && a.node == n && a.detail == (side == 1), "the side",
                  "load", (long)n);
        }
}

/* How many details a code has: the sides, the reasons, or none but 0. */
static uint32_t details(uint32_t code) { return code == 7 || code == 11 ? 2 : code == 15 ? 3 : 1; }

static void texts(void) {
    const char *all[64], *none = jenturik_code_text(16, 0);
    size_t count = 0;
    for (uint32_t code = 0; code < 40; code++)
        for (uint32_t detail = 0; detail < 9; detail++) {
            const char *text = jenturik_code_text(code, detail);
            int told = code < 16 && detail < details(code);
            check(told == (strcmp(text, none) != 0) && *text != 0, "a text", "code_text",
                  (long)code);
            if (told) all[count++] = text;
        }
    check(count == 20, "codes and details", "code_text", (long)count);
    for (size_t i = 0; i < count; i++)
        for (size_t j = 0; j < i; j++)
            check(strcmp(all[i], all[j]) != 0, "two texts", "code_text", (long)i);
    for (uint32_t code = 7; code <= 11; code += 4)
        for (uint32_t side = 0; side < 2; side++)
            check(strstr(jenturik_code_text(code, side), side == 0 ? "left" : "right") != NULL,
                  "the side", "code_text", (long)code);
    check(strcmp(jenturik_code_text(7, 65537), none) == 0, "a wide detail", "code_text", 7);
    check(strcmp(jenturik_code_text(65543, 0), none) == 0, "a wide code", "code_text", 7);
}

int main(void) {
    trial_open();
    lists_open();
    walked_edges();
    taken_nodes();
    shaded_nodes();
    collected_colours();
    collected_edges();
    appended_nodes();
    later_steps();
    counted_edges();
    given_edges();
    texts();
    return tally();
}
