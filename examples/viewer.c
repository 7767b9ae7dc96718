/* The frame loop of a made-up viewer. It draws the glazing of a hotel's lobby, 24 panes, while two
 * designers change it.
 *
 * Each pane is a slot: a fixed node with two edges. On its left edge hangs the pane's glass, a
 * chain of layers by their left edges, the outermost first; on the right edge of a layer hangs its
 * tint. On the pane's right edge hangs what it mirrors: the outermost layer of the pane beside it.
 * So a layer can be seen from two panes, and nobody knows when it is seen from none. The collector
 * finds out, a thousand steps each frame.
 *
 * Time is counted in frames, 60 a second, so that the output is the same everywhere: it is
 * examples/viewer.out.
 */
#include "jenturik.h"
#include <stdio.h>
#include <stdlib.h>

enum {
    PANES = 24,
    BENCH = PANES, /* a slot for a layer that is being made */
    BARE = PANES +
           1, /* a slot that nothing is ever hung on: its left edge is a place where nothing is */
    SLOTS = PANES + 2,
    NODES = 384,
    FRAMES = 60, /* a second */
    SECONDS = 12,
    BUDGET = 1000, /* collector steps a frame */
    LEFT = 0,
    RIGHT = 1
};

/* Everything that the collector works on, kept by us. TABLE is how each call is given it. */
static uint16_t left[NODES], right[NODES];
static uint8_t colour[NODES];
static uint32_t words[JENTURIK_WORDS];
#define TABLE left, NODES, right, NODES, colour, NODES, words

/* What a node means is ours to keep, under its number: the light that a layer or a tint lets
 * through, in percent; 0 where nothing is kept. */
static uint8_t clear[NODES];

static unsigned taken, refused, kept;

/* Places: where to find a node. A slot, a number of turns, and the turns as bits, the first lowest:
 * 0 left, 1 right. Each is three arguments. */
#define PANE(p) (p), 0, 0  /* the pane's own node */
#define GLASS(p) (p), 1, 0 /* one turn left: the pane's outermost layer */
#define NOTHING BARE, 1, 0

/* Numbers that look random and are the same in every run. */
static uint32_t below(uint32_t n) {
    static uint32_t x = 1978;
    x = x * 1664525u + 1013904223u;
    return (uint32_t)(((uint64_t)x * n) >> 32);
}

/* The text says what was met; its node is beside it. Once there is a table, damage can come only
 * from something else that has written into it. */
static void stop(const char *call, uint32_t code, uint32_t detail, uint32_t node) {
    fprintf(stderr, "viewer: %s: code %u, node %u: %s\n", call, (unsigned)code, (unsigned)node,
            jenturik_code_text(code, detail));
    exit(1);
}

/* Points an edge to a node, and pays the shade that is then owed. The collector may step between
 * the two; no other link or take may come. */
#define LINK(source, side, target) linked(jenturik_link(TABLE, source, side, target))

static void linked(jenturik_told a) {
    if (a.code != JENTURIK_DONE) stop("link", a.code, a.detail, a.node);
    a = jenturik_shade(TABLE);
    if (a.code != JENTURIK_DONE) stop("shade", a.code, a.detail, a.node);
}

/* Takes a node for a new material and hangs it on an edge. Answers 0 where no node is free: the
 * caller tries again in the next frame. */
#define TAKE(source, side, light) hung(jenturik_take(TABLE, source, side), light)

static int hung(jenturik_told a, uint32_t light) {
    switch (a.code) {
    case JENTURIK_DONE:
        clear[a.node] = (uint8_t)light;
        taken++, kept++;
        return 1;
    case JENTURIK_NO_FREE_NODE:
        refused++;
        return 0;
    case JENTURIK_SOURCE_IS_NIL: /* the pane has no glass to tint */
        return 1;
    default:
        stop("take", a.code, a.detail, a.node);
        return 0;
    }
}

/* An edit as a designer sends it. */
struct edit {
    enum { COAT, TINT, MIRROR, STRIP } kind;
    uint32_t pane, light;
};

static struct edit arriving(void) {
    static const int kinds[] = {COAT, COAT, COAT, TINT, TINT, TINT, TINT, MIRROR, MIRROR, STRIP};
    struct edit e;
    e.kind = kinds[below(10)];
    e.pane = below(PANES);
    e.light = 75 + below(25);
    return e;
}

/* Makes an edit; answers 0 where it must wait for a free node. What it lets go needs no call: the
 * collector finds it. */
static int make(struct edit e) {
    switch (e.kind) {
    case COAT: /* a new layer, on the bench first; then the old glass behind it, then all of it into
                  the pane; the bench lets it go at the next coat */
        if (!TAKE(PANE(BENCH), LEFT, e.light)) return 0;
        LINK(GLASS(BENCH), LEFT, GLASS(e.pane));
        LINK(PANE(e.pane), LEFT, GLASS(BENCH));
        return 1;
    case TINT: /* another tint for the outermost layer */
        return TAKE(GLASS(e.pane), RIGHT, e.light);
    case MIRROR:
        LINK(PANE(e.pane), RIGHT, GLASS((e.pane + 1) % PANES));
        return 1;
    default: /* STRIP: all the glass out of the pane */
        LINK(PANE(e.pane), LEFT, NOTHING);
        return 1;
    }
}

/* The designers' edits of a frame. One that must wait is kept, with those behind it, for the next
 * frame. */
static void edit(int edits) {
    static struct edit next;
    static int waiting;
    for (; edits > 0; edits--) {
        if (!waiting) next = arriving();
        waiting = !make(next);
        if (waiting) return;
    }
}

/* Draws the frame: the light that comes through, in percent, over all panes. The arrays are ours,
 * and may be read between two calls; pane p is node p + 2. */
static unsigned draw(void) {
    unsigned sum = 0;
    for (unsigned pane = 0; pane < PANES; pane++) {
        unsigned light = 10000;
        for (unsigned layer = left[pane + 2]; layer != 0; layer = left[layer]) {
            unsigned tint = right[layer];
            light = light * clear[layer] / 100;
            if (tint != 0) light = light * clear[tint] / 100;
        }
        sum += light;
    }
    return sum / PANES / 100;
}

/* The frame's collector steps. What is kept for the nodes that they free is dropped; that is where
 * a viewer gives its textures back. */
static void collect(void) {
    static uint16_t freed[NODES]; /* a list of this length is never full */
    jenturik_freed a = jenturik_collect_freed(TABLE, BUDGET, freed, NODES);
    for (unsigned i = 0; i < a.freed; i++) clear[freed[i]] = 0;
    kept -= a.freed;
    if (a.code != JENTURIK_DONE) { /* the next step is refused for the same reason */
        jenturik_told told = jenturik_collect(TABLE);
        stop("collect", told.code, told.detail, told.node);
    }
}

/* The panel's figures, asked anew in each frame. In use are the layers and tints that can be seen,
 * and what lies on the bench. */
static unsigned count_in_use(void) {
    jenturik_told a = jenturik_in_use(TABLE);
    if (a.code != JENTURIK_DONE) stop("in_use", a.code, a.detail, a.node);
    return a.node;
}

static unsigned count_free(void) {
    jenturik_told a = jenturik_free_count(TABLE);
    if (a.code != JENTURIK_DONE) stop("free_count", a.code, a.detail, a.node);
    return a.node;
}

int main(void) {
    jenturik_told made = jenturik_fresh(TABLE, NODES, SLOTS);
    if (made.code != JENTURIK_DONE)
        return fputs("viewer: NODES or SLOTS is out of range\n", stderr), 1;
    printf("The lobby's glazing: %d panes, %d nodes, %d collector steps a frame.\n", PANES, NODES,
           BUDGET);
    puts(
        "In use are the nodes that some slot leads to, free those that can be taken; kept is what");
    puts("we keep for nodes that are not free.");
    for (int frame = 1; frame <= SECONDS * FRAMES; frame++) {
        int second = (frame - 1) / FRAMES + 1;
        if (frame == 4 * FRAMES + 1)
            puts("The client comes at six: both designers try every look that they have.");
        if (frame == 8 * FRAMES + 1) puts("The client likes the third.");
        edit(second >= 5 && second <= 8 ? 30 : 3);
        collect();
        unsigned light = draw(), used = count_in_use(), unused = count_free();
        if (frame % FRAMES == 0)
            printf("second %2d: frame %3d, %3u in use, %3u kept, %3u free, %3u cycles, %4u taken, "
                   "%3u refused, light %2u%%\n",
                   second, frame, used, kept, unused, (unsigned)words[JENTURIK_CYCLES], taken,
                   refused, light);
    }
    return 0;
}
