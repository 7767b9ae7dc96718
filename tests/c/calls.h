/* The exported calls by number, each with arguments that a sound table accepts, so that a test can
 * try all of them alike. jenturik_fresh and jenturik_load are apart. */
#ifndef CALLS_H
#define CALLS_H

#include "table.h"

enum {
    LOOK,
    IN_USE,
    FREE_COUNT,
    LINK,
    SHADE,
    TAKE,
    COLLECT,
    MANY,
    MANY_NONE,
    FREED,
    FREED_NONE,
    SCHEDULE,
    SCHEDULE_EMPTY,
    SCHEDULE_RAGGED,
    CALLS
};

static const char *const call_names[CALLS] = {"look",
                                              "in_use",
                                              "free_count",
                                              "link",
                                              "shade",
                                              "take",
                                              "collect",
                                              "collect_many",
                                              "collect_many of none",
                                              "collect_freed",
                                              "collect_freed into no list",
                                              "schedule",
                                              "schedule of no steps",
                                              "schedule of ragged length"};

/* What any of the calls answers; done is 0 or 1 where the call is of one step, and what and node
 * are 0 for a schedule and for collect_freed. */
typedef struct {
    size_t done;
    uint32_t what, code, detail, node, changed;
} answer;

static fence call_steps;

static inline answer of_told(jenturik_told a) {
    answer all = {a.code == 0, a.what, a.code, a.detail, a.node, a.changed};
    return all;
}

static inline answer of_last(jenturik_last a) {
    answer all = {a.done, a.what, a.code, a.detail, a.node, a.changed};
    return all;
}

/* A schedule of so many words: a collector step, a look at slot 0, and a word too many. */
static inline answer call_schedule(lent *t, size_t numbers) {
    static const uint32_t words[2 * JENTURIK_STEP_WORDS + 1] = {
        [0] = 3, [JENTURIK_STEP_WORDS] = 4, [2 * JENTURIK_STEP_WORDS] = 3};
    uint32_t *steps = fence_lay(&call_steps, words, 4 * numbers, 1);
    jenturik_done d = jenturik_schedule(LENT(t), steps, numbers);
    if (!fence_kept(&call_steps) || (numbers != 0 && memcmp(steps, words, 4 * numbers) != 0))
        fence_fail("the steps were written");
    answer all = {d.done, 0, d.code, d.detail, 0, d.changed};
    return all;
}

/* Three collector steps, with a list of so many nodes, on the room of the steps. */
static inline answer call_freed(lent *t, size_t nodes) {
    static const uint16_t list[2];
    uint16_t *freed = fence_lay(&call_steps, list, sizeof *list * nodes, 1);
    jenturik_freed a = jenturik_collect_freed(LENT(t), 3, freed, nodes);
    if (!fence_kept(&call_steps)) fence_fail("collect_freed wrote outside its list");
    if (a.freed > nodes) fence_fail("collect_freed tells more nodes than there is room for");
    answer all = {a.done, 0, a.code, a.detail, 0, a.changed};
    return all;
}

static inline answer call(lent *t, int which) {
    switch (which) {
    case LOOK:
        return of_told(jenturik_look(LENT(t), 0, 0, 0));
    case IN_USE:
        return of_told(ask(t));
    case FREE_COUNT:
        return of_told(ask_free(t));
    case LINK:
        return of_told(jenturik_link(LENT(t), 0, 0, 0, 0, 0, 0, 0));
    case SHADE:
        return of_told(jenturik_shade(LENT(t)));
    case TAKE:
        return of_told(jenturik_take(LENT(t), 0, 0, 0, 0));
    case COLLECT:
        return of_told(jenturik_collect(LENT(t)));
    case MANY:
        return of_last(jenturik_collect_many(LENT(t), 3));
    case MANY_NONE:
        return of_last(jenturik_collect_many(LENT(t), 0));
    case FREED:
        return call_freed(t, 2);
    case FREED_NONE:
        return call_freed(t, 0);
    case SCHEDULE:
        return call_schedule(t, 2 * JENTURIK_STEP_WORDS);
    case SCHEDULE_EMPTY:
        return call_schedule(t, 0);
    default:
        return call_schedule(t, 2 * JENTURIK_STEP_WORDS + 1);
    }
}

#endif
