/* Jenturik: the program ./jenturik as a call. The README says what the program reads and prints.
 *
 * jenturik_turn is given a block of a schedule's text, and puts into `out` what ./jenturik prints
 * for it. Give it all blocks in their order, and then a block of no bytes, which ends the text. The
 * text may be cut anywhere, also within a line. What is printed for the blocks, one after the
 * other, is what ./jenturik prints for the whole text. That is proved for every text, and for every
 * way to cut it.
 *
 *     static uint16_t left[4096], right[4096];
 *     static uint8_t colour[4096], line[JENTURIK_LINE], out[64 * JENTURIK_ANSWER];
 *     static uint32_t lefts[4096], rights[4096], words[JENTURIK_SESSION_WORDS];
 *     uint8_t in[64];
 *     size_t n;
 *     jenturik_turned t;
 *     do {
 *         n = fread(in, 1, sizeof in, stdin);
 *         t = jenturik_turn(left, 4096, right, 4096, colour, 4096, lefts, 4096, rights, 4096,
 *                           line, sizeof line, out, sizeof out, words, in, n);
 *         fwrite(out, 1, t.used, stdout);
 *     } while (n != 0 && t.code == 0 && t.over == 0);
 *
 * What the caller keeps
 *
 * The session: JENTURIK_SESSION_WORDS words of 32 bits. All 0 is the start of a run, whatever the
 * arrays hold then. The table: left, right and colour. The edges of an export: lefts and rights.
 * With 4096 entries in each of the five, every text is answered as ./jenturik answers it. With
 * fewer, a table that has no room is refused with code=1.
 * The line at hand: exactly JENTURIK_LINE bytes. The output: JENTURIK_ANSWER bytes for each byte of
 * the block, and at least 2 * JENTURIK_ANSWER. What has no room in it is lost.
 *
 * As in jenturik.h, each array is a pointer and its number of entries, arrays must not overlap, and
 * between two calls the caller may read them and must not write to them. The first
 * words[JENTURIK_NODES] entries of left, right and colour are the table, and the session's first
 * JENTURIK_WORDS words are its record. So between two blocks the calls of jenturik.h may be made
 * with them, but for jenturik_fresh and jenturik_load.
 */
#ifndef JENTURIK_TEXT_H
#define JENTURIK_TEXT_H

#include "jenturik.h"

#ifdef __cplusplus
extern "C" {
#endif

/* The session's words behind those of the record. */
enum {
    JENTURIK_STAGE = 24,        /* which line is awaited, as below */
    JENTURIK_STAGE_NODES = 25,  /* the nodes of the table; 0 in stages 0 and 4 */
    JENTURIK_STAGE_LINE = 26,   /* in stage 2 the export's line, the first is 0; else 0 */
    JENTURIK_LINE_USED = 27,    /* the bytes of the line at hand, at most JENTURIK_LINE */
    JENTURIK_SESSION_USED = 28, /* the words from here on are not used yet, and are 0 */
    JENTURIK_SESSION_WORDS = 32 /* how many there are */
};

/* The stages. */
enum {
    JENTURIK_OPENING = 0, /* the first line is awaited */
    JENTURIK_SECOND = 1,  /* the line after it: a step, or the first of an export */
    JENTURIK_LOADING = 2, /* a later line of an export */
    JENTURIK_SERVING = 3, /* a step */
    JENTURIK_OVER = 4,    /* none: the first line was refused */
    JENTURIK_STOPPED = 5  /* none: the export was refused */
};

/* The bytes of a line that are kept, one more than a line may have; and an answer's at most. */
enum { JENTURIK_LINE = 81, JENTURIK_ANSWER = 22 };

/* What is answered: how many bytes of `out` are printed, from its start on; the code; whether the
 * run is over: 0 it goes on, 1 the first line was refused, 2 the export was. `zero` is 0.
 * The code is 0, or JENTURIK_BAD_RECORD if the words form no session, or JENTURIK_BAD_SIZE if
 * `line` has not JENTURIK_LINE bytes. Then nothing is changed, and nothing is printed. */
typedef struct {
    size_t used;
    uint16_t code, over;
    uint32_t zero;
} jenturik_turned;

/* Answers a block of the text, or its end if the block has no bytes. */
JENTURIK_NODISCARD
jenturik_turned jenturik_turn(uint16_t *left, size_t left_entries, uint16_t *right,
                              size_t right_entries, uint8_t *colour, size_t colour_entries,
                              uint32_t *lefts, size_t lefts_entries, uint32_t *rights,
                              size_t rights_entries, uint8_t *line, size_t line_bytes, uint8_t *out,
                              size_t out_bytes, uint32_t words[JENTURIK_SESSION_WORDS],
                              const uint8_t *input, size_t input_bytes);

#ifdef __cplusplus
}
#endif

#endif
