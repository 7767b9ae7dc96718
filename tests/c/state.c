/* Reads lines as the second program's modes take them (tests/second/model/main.rs), makes the calls
 * through the library and writes what that mode writes, so that the two can be compared:
 *
 * - state --state: the step by its own call; then from the same state as a schedule of one step,
 *   and a collector step by jenturik_collect_many too, which must do and tell the same. The
 *   colours changed are also counted here. A kind above 4 has no call of its own, only the
 *   schedule.
 * - state --run: jenturik_schedule.
 * - state --many: the lines of --run; each span of collector steps by jenturik_collect_many, the
 *   others by jenturik_schedule, one by one.
 * - state --fresh: jenturik_fresh.
 * - state --load: jenturik_load.
 * - state --inuse, state --free: jenturik_in_use, jenturik_free_count, which may write nothing.
 *
 * A line has k and the number read apart, each in its own phases; the library's words have one word
 * for both.
 *
 * Lines have numbers of 64 bits, the library's have 32: a larger one becomes the largest. Both
 * refuse either where they read it; a record's number that does not fit its words would show as a
 * difference. */
#define _DEFAULT_SOURCE
#include "lists.h"

enum { STEPS = 2000, LINE = 1 << 20 };

static char line[LINE], out[LINE];
static char *in, *to;
static int high; /* against which page the arrays lie: in turn */
static table given, after, again;
static lists edges;
static uint32_t steps[JENTURIK_STEP_WORDS * STEPS];
static lent t;
static fence order;

static uint64_t number(void) {
    uint64_t n = 0;
    while (*in == ' ') in++;
    if (*in < '0' || *in > '9') fence_fail("a number is missing");
    while (*in >= '0' && *in <= '9') n = 10 * n + (uint64_t)(*in++ - '0');
    return n;
}

static uint32_t word(void) {
    uint64_t n = number();
    return n > UINT32_MAX ? UINT32_MAX : (uint32_t)n;
}

static void put(uint64_t n) {
    char digits[20];
    int have = 0;
    do digits[have++] = (char)('0' + n % 10);
    while ((n /= 10) != 0);
    if (to != out) *to++ = ' ';
    while (have != 0) *to++ = digits[--have];
}

static size_t length(void) {
    uint64_t n = number();
    if (n > MOST) fence_fail("an array is too long");
    return (size_t)n;
}

static void read_arrays(void) {
    given.lefts = length();
    for (size_t i = 0; i < given.lefts; i++) given.left[i] = (uint16_t)number();
    given.rights = length();
    for (size_t i = 0; i < given.rights; i++) given.right[i] = (uint16_t)number();
    given.colours = length();
    for (size_t i = 0; i < given.colours; i++) given.colour[i] = (uint8_t)number();
}

static size_t read_list(uint32_t *list) {
    size_t n = length();
    for (size_t i = 0; i < n; i++) list[i] = word();
    return n;
}

/* Whether the words' phase is one that shades a number read. */
static int shades(const uint32_t *words) {
    return words[JENTURIK_PHASE] == 6 || words[JENTURIK_PHASE] == 7;
}

static void read_state(void) {
    memset(given.words, 0, sizeof given.words);
    for (int i = 0; i < JENTURIK_USED; i++) given.words[i] = word();
    uint32_t read = word();
    if (shades(given.words)) given.words[JENTURIK_READ] = read;
    read_arrays();
}

static void put_state(const table *s) {
    for (int i = 0; i < JENTURIK_USED; i++)
        put(i == JENTURIK_K && shades(s->words) ? 0 : s->words[i]);
    put(shades(s->words) ? s->words[JENTURIK_READ] : 0);
    for (int i = JENTURIK_USED; i < JENTURIK_WORDS; i++)
        if (s->words[i] != 0) fence_fail("a word that has no use is not 0");
    put(s->lefts);
    for (size_t i = 0; i < s->lefts; i++) put(s->left[i]);
    put(s->rights);
    for (size_t i = 0; i < s->rights; i++) put(s->right[i]);
    put(s->colours);
    for (size_t i = 0; i < s->colours; i++) put(s->colour[i]);
}

/* The numbers of a step; its words without a use are 0. */
static void read_step(uint32_t *step) {
    memset(step, 0, sizeof(jenturik_step));
    for (int i = 0; i < STEP_USED; i++) step[i] = word();
}

/* A schedule of some of the steps read, which must not change. */
static jenturik_done follow(const uint32_t *from, size_t count) {
    size_t bytes = count * sizeof(jenturik_step);
    const uint32_t *lent_steps = fence_lay(&order, from, bytes, high);
    jenturik_done d = jenturik_schedule(LENT(&t), lent_steps, JENTURIK_STEP_WORDS * count);
    if (!fence_kept(&order) || (bytes != 0 && memcmp(lent_steps, from, bytes) != 0))
        fence_fail("the steps were written");
    return d;
}

/* What was done as the mode tells it: the collector's steps from 1 on, 0 for the editor's and for a
 * refusal. */
static uint32_t did(uint32_t kind, jenturik_told a) {
    static const uint32_t whats[] = {JENTURIK_TAKEN, JENTURIK_LINKED, JENTURIK_SHADED, 0,
                                     JENTURIK_NAMED};
    if ((a.what == JENTURIK_REFUSED) != (a.code != JENTURIK_DONE))
        fence_fail("what was done and the code contradict each other");
    if (a.what == JENTURIK_REFUSED) return 0;
    if (kind == 3) return a.what - JENTURIK_SHADED + 1;
    if (a.what != whats[kind]) fence_fail("a call tells that it did what another does");
    return 0;
}

static void by_many(jenturik_told told) {
    lend(&t, &given, high);
    jenturik_last a = jenturik_collect_many(LENT(&t), 1);
    take_back(&t, &again);
    if (a.what != told.what || a.code != told.code || a.detail != told.detail ||
        a.node != told.node || a.changed != told.changed || a.done != (told.code == 0))
        fence_fail("collect_many tells another answer");
    if (!same(&after, &again)) fence_fail("collect_many leaves another state");
}

static void state_line(void) {
    read_state();
    read_step(steps);
    lend(&t, &given, high);
    jenturik_done d = follow(steps, 1);
    take_back(&t, &after);
    jenturik_told told = {0, d.code, d.detail, 0, d.changed};
    if (steps[0] <= 4) {
        lend(&t, &given, high);
        told = own_call(&t, steps);
        take_back(&t, &again);
        if (!same(&after, &again)) fence_fail("the call and the schedule leave different states");
    }
    if (told.code != d.code || told.detail != d.detail || d.done != (d.code == 0))
        fence_fail("the call and the schedule tell different codes");
    if (told.changed != d.changed || d.changed != changes(&given, &after))
        fence_fail("another number of colours changed than is told");
    if (steps[0] == 3) by_many(told);
    put(told.code);
    put(told.node);
    put(told.detail);
    put(told.changed);
    put(did(steps[0], told));
    put_state(&after);
}

static size_t read_run(void) {
    read_state();
    uint64_t count = number();
    if (count > STEPS) fence_fail("too many steps");
    for (size_t i = 0; i < count; i++) read_step(steps + JENTURIK_STEP_WORDS * i);
    lend(&t, &given, high);
    return (size_t)count;
}

static void put_run(jenturik_done d) {
    take_back(&t, &after);
    put(d.done);
    put(d.code);
    put(d.detail);
    put(d.changed);
    put_state(&after);
}

static void run_line(void) {
    size_t count = read_run();
    put_run(follow(steps, count));
}

/* The collector steps from the i-th step on, as many as stand together. */
static size_t span(size_t i, size_t count) {
    size_t n = 0;
    while (i + n < count && steps[JENTURIK_STEP_WORDS * (i + n)] == 3) n++;
    return n;
}

static void many_line(void) {
    size_t count = read_run();
    jenturik_done all = follow(steps, 0);
    while (all.code == 0 && all.done < count) {
        size_t n = span(all.done, count);
        if (n == 0) {
            jenturik_done d = follow(steps + JENTURIK_STEP_WORDS * all.done, 1);
            all.done += d.done, all.code = d.code, all.detail = d.detail;
            all.changed += d.changed;
        } else {
            jenturik_last a = jenturik_collect_many(LENT(&t), n);
            if ((a.done == n) != (a.code == 0)) fence_fail("collect_many stops without a code");
            all.done += a.done, all.code = a.code, all.detail = a.detail;
            all.changed += a.changed;
        }
    }
    put_run(all);
}

/* The arrays that a start is lent, with words that are no record's. */
static void lend_start(void) {
    memset(given.words, 0xff, sizeof given.words);
    read_arrays();
    lend(&t, &given, high);
}

static void take_start(jenturik_told a) {
    take_back(&t, &after);
    if (a.what != (a.code == 0 ? JENTURIK_STARTED : JENTURIK_REFUSED))
        fence_fail("a start tells that it did something else");
    if (a.code == 0 && a.node != after.words[JENTURIK_LAST])
        fence_fail("a start tells something else than the last free node");
    if (a.changed != 0) fence_fail("a start tells colours that it changed");
}

static void fresh_line(void) {
    uint32_t nodes = word(), slots = word();
    lend_start();
    jenturik_told a = jenturik_fresh(LENT(&t), nodes, slots);
    take_start(a);
    if (a.code != 0 && a.node != 0) fence_fail("a refused fresh has a node");
    put(a.code);
    put(a.detail);
    put_state(&after);
}

static void load_line(void) {
    uint32_t nodes = word(), slots = word();
    edges.lefts = read_list(edges.left);
    edges.rights = read_list(edges.right);
    lend_start();
    jenturik_told a = load(&t, &edges, nodes, slots, high);
    take_start(a);
    if (!fence_kept(&list_left) || !fence_kept(&list_right)) fence_fail("a list was written");
    put(a.code);
    put(a.node);
    put(a.detail);
    put_state(&after);
}

/* A call that counts nodes. */
static void count_line(jenturik_told (*count)(const lent *)) {
    read_state();
    lend(&t, &given, high);
    jenturik_told a = count(&t);
    take_back(&t, &after);
    if (a.what != (a.code == 0 ? JENTURIK_COUNTED : JENTURIK_REFUSED))
        fence_fail("a call that counts tells that it did something else");
    if (!same(&given, &after)) fence_fail("a call that counts leaves another state");
    if (a.changed != 0) fence_fail("a call that counts tells colours that it changed");
    put(a.code);
    put(a.node);
    put(a.detail);
}

static void in_use_line(void) { count_line(ask); }

static void free_line(void) { count_line(ask_free); }

int main(int argc, char **argv) {
    static const char *const names[] = {"--state", "--run",   "--many", "--fresh",
                                        "--load",  "--inuse", "--free"};
    static void (*const modes[])(void) = {state_line, run_line,    many_line, fresh_line,
                                          load_line,  in_use_line, free_line};
    enum { MODES = sizeof modes / sizeof *modes };
    size_t mode = 0;
    while (mode < MODES && (argc != 2 || strcmp(argv[1], names[mode]) != 0)) mode++;
    if (mode == MODES)
        fence_fail("usage: state --state | --run | --many | --fresh | --load | --inuse | --free");
    lent_open(&t);
    lists_open();
    fence_open(&order);
    while (fgets(line, sizeof line, stdin)) {
        in = line;
        to = out;
        modes[mode]();
        *to++ = '\n';
        fwrite(out, 1, (size_t)(to - out), stdout);
        high = !high;
    }
    return 0;
}
