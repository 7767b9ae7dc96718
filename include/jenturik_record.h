/* Records the calls of a program as a schedule, a text that the program ./jenturik replays: so a
 * bug in a viewer becomes a file.
 *
 * Include this header in place of jenturik.h, before jenturik_table.h, in every file that calls the
 * library. The calls stay as they are. Say once, before the table is made, which file to write, and
 * which table is meant, by its words:
 *
 *     jenturik_record("bug.txt", words);
 *
 * and when the bug has shown itself:
 *
 *     ./jenturik bug.txt
 *
 * prints an answer to each line of the file. Most lines are written before their call is made, so
 * they are there if the program is stopped. Recording is for finding bugs: each call writes to the
 * file. One table is recorded at a time. It is known by the address of its words, so calls over a
 * copy of them are not written.
 *
 * What is written
 *
 * - jenturik_fresh and jenturik_load begin the file anew: it has the last table that was made.
 *   jenturik_load writes the first line and the lines of its lists; these get an answer each.
 * - jenturik_take, jenturik_link, jenturik_shade and jenturik_look write a line each. Its answer
 *   has the code and the node of the call.
 * - jenturik_collect and jenturik_collect_many write the number of steps: more than 1,000,000 in
 *   several lines. The answer has the code. Its node is the one that the last step was at, which
 *   need not be the node of the call's answer.
 * - jenturik_collect_freed does so after the call: it writes the steps that were done and the one
 *   that was refused. So does jenturik_schedule.
 * - jenturik_in_use, jenturik_free_count and jenturik_version change nothing, and are not written.
 * - Arguments that no line can have are refused by the library, whatever they are exactly. Their
 *   line has others in their place, which ./jenturik refuses with the same code.
 *
 * An answer of ./jenturik that is not the one that the program got shows that something else has
 * written to the table or to the words.
 */
#ifndef JENTURIK_RECORD_H
#define JENTURIK_RECORD_H

#ifdef JENTURIK_TABLE_H
#error "include jenturik_record.h before jenturik_table.h"
#endif

#include "jenturik.h"
#include <stdio.h>

/* What is being recorded: one for all files of the program. */
typedef struct {
    const char *path;
    const uint32_t *words;
    FILE *file;
    int begun; /* a table was made since */
} jenturik_recorder;

__attribute__((weak)) jenturik_recorder jenturik_recording;

/* From the next jenturik_fresh or jenturik_load on, writes the calls over the table with these
 * words to a file, which is emptied at once. The path is not copied: it must stay. Answers 0 if the
 * file cannot be written. Ends the recording before it; with a null path it does no more. */
static inline int jenturik_record(const char *path, const uint32_t *words) {
    jenturik_recorder *r = &jenturik_recording;
    if (r->file != NULL) fclose(r->file);
    r->path = path;
    r->words = words;
    r->file = path != NULL ? fopen(path, "w") : NULL;
    r->begun = 0;
    return path == NULL || r->file != NULL;
}

/* The file, if the calls over these words are written to it, or else NULL. */
static inline FILE *jenturik_record_file(const uint32_t *words) {
    const jenturik_recorder *r = &jenturik_recording;
    return r->begun && r->words == words ? r->file : NULL;
}

/* A number as a line can have it. */
static inline unsigned jenturik_record_number(uint32_t n) { return n < 9999999 ? n : 9999999; }

/* A table is made: the file begins anew. Sizes that do not fit the arrays are refused, as 0 is. */
static inline FILE *jenturik_record_start(const uint32_t *words, int fits, uint32_t nodes,
                                          uint32_t slots) {
    jenturik_recorder *r = &jenturik_recording;
    if (r->file == NULL || r->words != words) return NULL;
    r->file = freopen(r->path, "w", r->file);
    r->begun = r->file != NULL;
    if (!r->begun) return NULL;
    setvbuf(r->file, NULL, _IOLBF, BUFSIZ);
    fprintf(r->file, "nodes=%u slots=%u\n", fits ? jenturik_record_number(nodes) : 0,
            jenturik_record_number(slots));
    return r->file;
}

/* A place. No table has slot 99. Turns that are refused become 13, which are refused. */
static inline void jenturik_record_place(FILE *f, const char *to, uint32_t slot, uint32_t count,
                                         uint32_t word) {
    if (count > 12 || word >> count != 0) count = 13;
    fprintf(f, " %sslot=%u %sturns=%s", to, slot < 99 ? (unsigned)slot : 99, to,
            count == 0 ? "-" : "");
    for (uint32_t j = 0; j < count; j++) fputc(word >> j & 1 ? 'R' : 'L', f);
}

/* A side; one above 1 makes a line that cannot be read, which is refused with the same code. */
static inline void jenturik_record_side(FILE *f, uint32_t side) {
    fprintf(f, " side=%c", side < 2 ? "LR"[side] : '?');
}

/* A step as jenturik_schedule is given it. */
static inline void jenturik_record_step(FILE *f, const uint32_t *s) {
    static const char *const names[] = {"take", "link", "shade", "collect count=1", "look"};
    uint32_t kind = (s[8] | s[9] | s[10] | s[11]) == 0 ? s[0] : 5;
    fprintf(f, "op=%s", kind < 5 ? names[kind] : "?");
    if (kind < 2 || kind == 4) jenturik_record_place(f, "", s[1], s[2], s[3]);
    if (kind < 2) jenturik_record_side(f, s[4]);
    if (kind == 1) jenturik_record_place(f, "to", s[5], s[6], s[7]);
    fputc('\n', f);
}

/* A call of one step. */
static inline void jenturik_record_call(const uint32_t *words, uint32_t kind, uint32_t slot,
                                        uint32_t count, uint32_t word, uint32_t side,
                                        uint32_t toslot, uint32_t tocount, uint32_t toword) {
    const uint32_t step[JENTURIK_STEP_WORDS] = {kind,    slot,   count, word, side, toslot,
                                                tocount, toword, 0,     0,    0,    0};
    FILE *f = jenturik_record_file(words);
    if (f != NULL) jenturik_record_step(f, step);
}

static inline void jenturik_record_collects(const uint32_t *words, size_t n) {
    FILE *f = jenturik_record_file(words);
    if (f == NULL) return;
    for (; n > 1000000; n -= 1000000) fputs("op=collect count=1000000\n", f);
    fprintf(f, "op=collect count=%u\n", (unsigned)n);
}

/* The arrays and the words as a call is given them, and as they are passed on. */
#define JENTURIK_GIVEN(edge, shade, word)                                                          \
    edge *left, size_t lefts, edge *right, size_t rights, shade *colour, size_t colours, word *words
#define JENTURIK_PASSED left, lefts, right, rights, colour, colours, words

JENTURIK_NODISCARD
static inline jenturik_told jenturik_recorded_fresh(JENTURIK_GIVEN(uint16_t, uint8_t, uint32_t),
                                                    uint32_t nodes, uint32_t slots) {
    int fits = lefts == nodes && rights == nodes && colours == nodes;
    jenturik_record_start(words, fits, nodes, slots);
    return jenturik_fresh(JENTURIK_PASSED, nodes, slots);
}

JENTURIK_NODISCARD
static inline jenturik_told jenturik_recorded_load(JENTURIK_GIVEN(uint16_t, uint8_t, uint32_t),
                                                   const uint32_t *given_left, size_t given_lefts,
                                                   const uint32_t *given_right, size_t given_rights,
                                                   uint32_t nodes, uint32_t slots) {
    int fits = lefts == nodes && rights == nodes && colours == nodes && given_lefts == nodes &&
               given_rights == nodes;
    FILE *f = jenturik_record_start(words, fits, nodes, slots);
    for (uint32_t n = 0; f != NULL && fits && nodes <= 4096 && n < nodes; n++)
        fprintf(f, "node=%u left=%u right=%u\n", (unsigned)n, jenturik_record_number(given_left[n]),
                jenturik_record_number(given_right[n]));
    return jenturik_load(JENTURIK_PASSED, given_left, given_lefts, given_right, given_rights, nodes,
                         slots);
}

JENTURIK_NODISCARD
static inline jenturik_told jenturik_recorded_look(JENTURIK_GIVEN(const uint16_t, const uint8_t,
                                                                  const uint32_t),
                                                   uint32_t slot, uint32_t count, uint32_t word) {
    jenturik_record_call(words, 4, slot, count, word, 0, 0, 0, 0);
    return jenturik_look(JENTURIK_PASSED, slot, count, word);
}

JENTURIK_NODISCARD
static inline jenturik_told
jenturik_recorded_link(JENTURIK_GIVEN(uint16_t, const uint8_t, uint32_t), uint32_t slot,
                       uint32_t count, uint32_t word, uint32_t side, uint32_t toslot,
                       uint32_t tocount, uint32_t toword) {
    jenturik_record_call(words, 1, slot, count, word, side, toslot, tocount, toword);
    return jenturik_link(JENTURIK_PASSED, slot, count, word, side, toslot, tocount, toword);
}

static inline jenturik_told jenturik_recorded_shade(JENTURIK_GIVEN(const uint16_t, uint8_t,
                                                                   uint32_t)) {
    jenturik_record_call(words, 2, 0, 0, 0, 0, 0, 0, 0);
    return jenturik_shade(JENTURIK_PASSED);
}

JENTURIK_NODISCARD
static inline jenturik_told jenturik_recorded_take(JENTURIK_GIVEN(uint16_t, uint8_t, uint32_t),
                                                   uint32_t slot, uint32_t count, uint32_t word,
                                                   uint32_t side) {
    jenturik_record_call(words, 0, slot, count, word, side, 0, 0, 0);
    return jenturik_take(JENTURIK_PASSED, slot, count, word, side);
}

static inline jenturik_told jenturik_recorded_collect(JENTURIK_GIVEN(uint16_t, uint8_t, uint32_t)) {
    jenturik_record_collects(words, 1);
    return jenturik_collect(JENTURIK_PASSED);
}

static inline jenturik_last
jenturik_recorded_collect_many(JENTURIK_GIVEN(uint16_t, uint8_t, uint32_t), size_t n) {
    jenturik_record_collects(words, n);
    return jenturik_collect_many(JENTURIK_PASSED, n);
}

JENTURIK_NODISCARD
static inline jenturik_freed
jenturik_recorded_collect_freed(JENTURIK_GIVEN(uint16_t, uint8_t, uint32_t), size_t n,
                                uint16_t *freed, size_t freeds) {
    jenturik_freed a = jenturik_collect_freed(JENTURIK_PASSED, n, freed, freeds);
    jenturik_record_collects(words, a.code == 0 ? a.done : a.done + 1);
    return a;
}

JENTURIK_NODISCARD
static inline jenturik_done jenturik_recorded_schedule(JENTURIK_GIVEN(uint16_t, uint8_t, uint32_t),
                                                       const uint32_t *steps, size_t numbers) {
    jenturik_done d = jenturik_schedule(JENTURIK_PASSED, steps, numbers);
    FILE *f = numbers % JENTURIK_STEP_WORDS == 0 ? jenturik_record_file(words) : NULL;
    for (size_t i = 0; f != NULL && i < numbers / JENTURIK_STEP_WORDS && i <= d.done; i++)
        jenturik_record_step(f, steps + JENTURIK_STEP_WORDS * i);
    return d;
}

JENTURIK_NODISCARD
static inline jenturik_done
jenturik_recorded_schedule_steps(JENTURIK_GIVEN(uint16_t, uint8_t, uint32_t),
                                 const jenturik_step *steps, size_t count) {
    return jenturik_recorded_schedule(JENTURIK_PASSED, (const uint32_t *)steps,
                                      JENTURIK_STEP_WORDS * count);
}

#undef JENTURIK_GIVEN
#undef JENTURIK_PASSED

#define jenturik_fresh jenturik_recorded_fresh
#define jenturik_load jenturik_recorded_load
#define jenturik_look jenturik_recorded_look
#define jenturik_link jenturik_recorded_link
#define jenturik_shade jenturik_recorded_shade
#define jenturik_take jenturik_recorded_take
#define jenturik_collect jenturik_recorded_collect
#define jenturik_collect_many jenturik_recorded_collect_many
#define jenturik_collect_freed jenturik_recorded_collect_freed
#define jenturik_schedule jenturik_recorded_schedule
#define jenturik_schedule_steps jenturik_recorded_schedule_steps

#endif
