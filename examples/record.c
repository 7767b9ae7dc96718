/* A viewer with a bug, whose calls are recorded. It writes examples/record.txt, or the file that it
 * is given, and prints what each call answers. `./jenturik record.txt` makes the same calls again
 * and prints the same codes and nodes, line by line. (A collector's line has the node of its last
 * step, which is not shown here.)
 *
 * The viewer takes the layers of a pane away by a link to a place that is NIL. It was thought that
 * nothing has to be shaded then. So the third coat is refused with code 5: a shade is owed.
 */
#include "jenturik_record.h" /* in place of jenturik.h, and before jenturik_table.h */
#include "jenturik_table.h"
#include <stdio.h>

enum { NODES = 9, PANE = 0, BARE = 1, SLOTS = 2, LEFT = 0, RIGHT = 1 };

static uint16_t left[NODES], right[NODES];
static uint8_t colour[NODES];
static jenturik_table t = {left, right, colour, NODES, {0}};

static uint32_t told(jenturik_told a) {
    printf("code=%u node=%u\n", (unsigned)a.code, (unsigned)a.node);
    return a.code;
}

/* Hangs a layer on the pane and a tint on the layer; what hung there is garbage. */
static void coat(void) {
    if (told(jenturik_table_take(&t, PANE, 0, 0, LEFT)) != JENTURIK_DONE) return;
    told(jenturik_table_take(&t, PANE, 1, 0, RIGHT));
}

/* Takes the layer away: the pane's left edge leads to NIL, as that of the bare slot. */
static void strip(void) {
    told(jenturik_table_link(&t, PANE, 0, 0, LEFT, BARE, 1, 0));
    /* the bug: jenturik_table_shade(&t) is missing */
}

static void collect(size_t steps) {
    jenturik_last a = jenturik_table_collect_many(&t, steps);
    printf("code=%u\n", (unsigned)a.code);
}

int main(int argc, char **argv) {
    if (!jenturik_record(argc > 1 ? argv[1] : "record.txt", t.words))
        return fputs("record: the file cannot be written\n", stderr), 1;
    if (told(jenturik_table_fresh(&t, SLOTS)) != JENTURIK_DONE) return 1;
    coat();
    collect(20);
    coat();
    collect(3 * jenturik_bound(NODES, SLOTS));
    strip();
    collect(20);
    coat();
    told(jenturik_table_look(&t, PANE, 1, 0));
    jenturik_record(NULL, NULL);
    return 0;
}
