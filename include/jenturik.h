/* Jenturik: an on-the-fly garbage collector for graphs of nodes with two edges each.
 *
 * `./library` makes target/library/TARGET/libjenturik.a, for Linux on x86-64 and on 64-bit Arm and
 * for Android on 64-bit Arm, with this header beside it. It needs no other library, not even libc:
 *
 *     cc -Itarget/library/x86-64-linux program.c target/library/x86-64-linux/libjenturik.a
 *
 * What each call does is proved, for all arguments, of the library's LLVM module, which is one and
 * the same for all machines. What is below that is trusted, not proved: LLVM's back end for the
 * machine, two loops in C that fill and copy bytes, the linker and the processor.
 *
 * jenturik_table.h has the same calls over a struct, with one pointer to hand over. With
 * jenturik_record.h the calls of a program become a file that the program ./jenturik replays.
 *
 * How it is used
 *
 * Make a table once (jenturik_fresh, or jenturik_load with edges that are there already). Edit the
 * graph with jenturik_take and jenturik_link; call jenturik_shade after each link. Spend some
 * collector steps each frame (jenturik_collect_many, or jenturik_collect_freed).
 * The collector finds the nodes that no slot leads to, and makes them free. How many nodes slots
 * lead to is told by jenturik_in_use, how many are free by jenturik_free_count. examples/viewer.c
 * is such a program.
 *
 * What the caller keeps
 *
 * The table: three arrays with the nodes' left edges, right edges and colours. Each has M entries,
 * M from 3 to 4096. The record: JENTURIK_WORDS words of 32 bits. Each array is passed as a pointer
 * and its number of entries; a pointer may be null if that number is 0. The arrays must be as long
 * as the numbers say, and must not overlap.
 *
 * A call reads and writes only these arrays. It keeps nothing and allocates nothing, and it ends,
 * whatever they hold. Between two calls the caller may read all of them (left[n] is the node that
 * n's left edge leads to), and must not write to them.
 *
 * What a node stands for is kept by the caller, under the node's number, which jenturik_take
 * answers. The number stays valid as long as a slot leads to the node. jenturik_collect_freed makes
 * collector steps and lists the nodes that they freed: drop what you keep for these. With
 * jenturik_collect_many, which tells none, overwrite it when a number is taken again.
 *
 * Nodes, slots and places
 *
 * Node 0 is NIL: an edge to it is a missing edge. Node 1 is FREE: its left edge leads to the first
 * free node, whose left edge leads to the next; the last one's is 0. There are R slots: at
 * least 1, at most 64, and at most M - 2. Slot s is node s + 2, and it is always there.
 *
 * A place names a node by the way to it: a slot, a count of turns (0 to 12), and a word whose bit
 * j, lowest first, is turn j: 0 left, 1 right. The other bits are 0. (s, 0, 0) is the slot's own
 * node, (s, 1, 0) the node on its left, (s, 2, 2) the node on the right of that. Behind a missing
 * edge every place is NIL.
 *
 * Edits name nodes by places, never by numbers. To remove an edge, link it to a place that is NIL,
 * such as (s, 1, 0) for a slot s on which nothing ever hangs. To reach a node that is deeper than
 * 12 turns, link a slot to a node on the way.
 *
 * A side is 0 for left, 1 for right. A colour is 0 for white, 1 for gray, 2 for black. To shade a
 * node is to make it gray if it is white.
 *
 * Refusals
 *
 * A refused call answers a code above 0 and changes neither the arrays nor the words. There are two
 * exceptions: jenturik_fresh and jenturik_load write the words in any case; in a schedule, and in
 * many steps, the steps before the refused one stay done. A number out of range is refused, however
 * large it is. Words that form no valid record are refused with code 2, before anything else is
 * judged. If there are several reasons, the answer has the first in this order: 1, 2, 10, 3, 4, 5
 * or 6; then 7 and 8 on the way to the places; then 7, 9, 14 and 15 as the values are read. For
 * jenturik_load it is 1, 11, 12, 13.
 *
 * Codes 7, 14 and 15 are damage: the call read an edge or a colour that is bad, or a colour that
 * no run leaves at this node. The answer has the node, and the detail says which: for an edge its
 * side, for 15 the reason. jenturik_code_text says it in words.
 *
 * Codes 1, 2, 7, 14 and 15 cannot occur, and no collector step is refused, if jenturik_fresh or
 * jenturik_load made the table, only these calls have written to it and to the words since, and
 * every call is given the arrays with their own lengths.
 *
 * How many collector steps
 *
 * Let B = M * M + 7 * M + R + 2. A cycle takes at most B collector steps. A node that no slot leads
 * to is free again after at most 3 * B, however busy the program is; usually much sooner. After
 * code 9 make collector steps and try again. If 3 * B of them do not help, nothing was garbage, and
 * the table is full. jenturik_bound(M, R) is B.
 *
 * Threads
 *
 * Do not make two calls over the same arrays at the same time.
 */
#ifndef JENTURIK_H
#define JENTURIK_H

#include <stddef.h>
#include <stdint.h>

#if SIZE_MAX != UINT64_MAX
#error "jenturik.h is for 64-bit machines; for WebAssembly there is jenturik.mjs"
#endif

/* The version of this header. jenturik_version() answers that of the library. */
#define JENTURIK_VERSION "4.7"
#define JENTURIK_VERSION_MAJOR 4
#define JENTURIK_VERSION_MINOR 7
#define JENTURIK_VERSION_NUMBER (1000 * JENTURIK_VERSION_MAJOR + JENTURIK_VERSION_MINOR)

/* The compiler warns where an answer is forgotten that should not be. Define this as nothing before
 * the header to be spared. */
#ifndef JENTURIK_NODISCARD
#if defined(__cplusplus) && __cplusplus >= 201703L
#define JENTURIK_NODISCARD [[nodiscard]]
#elif defined(__STDC_VERSION__) && __STDC_VERSION__ >= 202311L
#define JENTURIK_NODISCARD [[nodiscard]]
#elif defined(__GNUC__)
#define JENTURIK_NODISCARD __attribute__((warn_unused_result))
#else
#define JENTURIK_NODISCARD
#endif
#endif

#ifdef __cplusplus
extern "C" {
#endif

/* The record's words. In a valid record all but steps, cycles and took are below 65536. */
enum {
    JENTURIK_NODES = 0,      /* M */
    JENTURIK_SLOTS = 1,      /* R */
    JENTURIK_PHASE = 2,      /* 0 Roots, 1 Scan, 2 Left, 3 Right, 4 Black, 5 Append, 6 ShadeLeft,
                                7 ShadeRight */
    JENTURIK_I = 3,          /* the phase's i */
    JENTURIK_K = 4,          /* Scan's k; in ShadeLeft and ShadeRight the number read; 0 in the
                                other phases */
    JENTURIK_READ = 4,       /* the same word, by its other name: the node to which the edge led
                                when it was read, and which the next step shades */
    JENTURIK_OWES = 5,       /* 1 if a link still lacks its shade, else 0 */
    JENTURIK_OWED = 6,       /* the node to be shaded, which may be 0; 0 if there is none */
    JENTURIK_LAST = 7,       /* the last free node; 1 if the free list is empty */
    JENTURIK_STEPS = 8,      /* collector steps of this cycle */
    JENTURIK_CYCLES = 9,     /* cycles completed; stays at its largest value */
    JENTURIK_TOOK = 10,      /* collector steps of the last completed cycle */
    JENTURIK_BLACKENED = 11, /* nodes blackened in this marking */
    JENTURIK_BLACKENED_LAST_CYCLE = 12, /* nodes blackened in the last completed marking: NIL, FREE,
                                           the slots and the free nodes are counted too, and what
                                           became garbage since. For the nodes in use there is
                                           jenturik_in_use */
    JENTURIK_FREE_COUNT = 13,           /* how many nodes are free */
    JENTURIK_USED = 14,                 /* the words from here on are not used yet, and are 0 */
    JENTURIK_WORDS = 24                 /* how many there are */
};

/* What was done. */
enum {
    JENTURIK_REFUSED = 0,
    JENTURIK_STARTED = 1,    /* fresh, load: the last free node, 1 if none is free */
    JENTURIK_NAMED = 2,      /* look */
    JENTURIK_LINKED = 3,     /* link: the target */
    JENTURIK_TAKEN = 4,      /* take: the node taken */
    JENTURIK_SHADED = 5,     /* shade, and the collector: the node shaded */
    JENTURIK_LOOKED = 6,     /* the collector: looked at a node, or read an edge of it */
    JENTURIK_MADE_BLACK = 7, /* the collector: made a node black */
    JENTURIK_WHITENED = 8,   /* the collector: made a black node white; it is kept in this cycle */
    JENTURIK_APPENDED = 9,   /* the collector: appended a white node to the free list: its
                                number may be taken again */
    JENTURIK_COUNTED = 10    /* in use, free count: in place of the node the number of nodes */
};

/* Codes: why a call was refused. Those that tell a node say so; with the others it is 0. The detail
 * is 0 but for 7, 11 and 15. */
enum {
    JENTURIK_DONE = 0,
    JENTURIK_BAD_SIZE = 1,        /* M or R out of range, or a length that is not the record's M */
    JENTURIK_BAD_RECORD = 2,      /* words that form no valid record */
    JENTURIK_NO_SLOT = 3,         /* a place's slot is not below R */
    JENTURIK_BAD_TURNS = 4,       /* more than 12 turns, or a bit set at or above the count */
    JENTURIK_SHADE_IS_OWED = 5,   /* link or take before the last link's shade */
    JENTURIK_NOTHING_IS_OWED = 6, /* shade without a link before it */
    JENTURIK_BAD_EDGE = 7,        /* the call met a bad edge; the node has it, on the side that the
                                     detail tells. Bad is an edge that is 1 or not below M; and for
                                     take, of FREE or of the first free node, one to a slot */
    JENTURIK_SOURCE_IS_NIL = 8,   /* link or take: the source place is NIL, which has no edges */
    JENTURIK_NO_FREE_NODE = 9,    /* take: the free list is empty */
    JENTURIK_UNREADABLE = 10,     /* a side above 1, a kind above 4, an unused word of a step that
                                     is not 0, or a schedule with words left over */
    /* load only; the answer has a node */
    JENTURIK_BAD_GIVEN_EDGE = 11,   /* an edge that is 1 or not below M, or an edge of NIL that is
                                       not 0: the lowest node that has one. The detail tells the
                                       side; left, if both are bad */
    JENTURIK_BAD_FREE_LIST = 12,    /* the first node on the way from FREE along the left edges
                                       whose right edge is not 0, or whose left edge leads to a
                                       slot's node or to a node that was passed */
    JENTURIK_FREE_NODE_IN_USE = 13, /* the lowest free node that a slot leads to */
    /* damage; the answer has a node */
    JENTURIK_BAD_COLOUR = 14,   /* the call met a colour above 2, the node's */
    JENTURIK_NOT_TO_APPEND = 15 /* the collector, at the end of a cycle, met a node that it should
                                   not append; the detail tells why */
};

/* Details. With 7 and 11: the side of the bad edge. With 15: why the node is not to be appended,
 * the first reason that holds. Else the detail is 0. */
enum {
    JENTURIK_LEFT = 0,
    JENTURIK_RIGHT = 1,

    JENTURIK_GRAY = 0,       /* the node is gray */
    JENTURIK_WHITE_ROOT = 1, /* it is white, and NIL, FREE or a slot's */
    JENTURIK_WHITE_LAST = 2  /* it is white, and the last free node */
};

/* An answer: what was done, the code and its detail, the node, and how many colours were changed: 0
 * to 2, and 0 from fresh, load, in use and free count. A refusal's node is 0, but for codes 7
 * and 11 to 15. If nodes were counted, the number stands in place of the node. */
typedef struct {
    uint32_t what;
    uint16_t code, detail;
    uint32_t node, changed;
} jenturik_told;

/* A schedule's answer: how many steps were done, the refused step's code and detail, or 0, and how
 * many colours the steps changed in all (UINT32_MAX where that does not fit). */
typedef struct {
    size_t done;
    uint16_t code, detail;
    uint32_t changed;
} jenturik_done;

/* The answer of many collector steps: how many were done, how many colours they changed in all
 * (UINT32_MAX where that does not fit), and the answer of the last one, or of the one that was
 * refused. */
typedef struct {
    size_t done;
    uint32_t changed;
    uint16_t node;
    uint8_t what;
    uint8_t code : 5, detail : 3;
} jenturik_last;

/* The answer of many collector steps that list the nodes that they freed: how many steps were done,
 * how many colours they changed in all (UINT32_MAX where that does not fit), how many nodes were
 * written to the list, and the refused step's code and detail, or 0. */
typedef struct {
    size_t done;
    uint32_t changed;
    uint16_t freed;
    uint8_t code, detail;
} jenturik_freed;

/* A step of a schedule. The kinds are take 0, link 1, shade 2, one collector step 3, look 4. A
 * kind reads only the fields that it needs. The unused words are 0, whatever the kind is. */
typedef struct {
    uint32_t kind, slot, count, word, side, toslot, tocount, toword, unused[4];
} jenturik_step;

/* How many words a step has. */
enum { JENTURIK_STEP_WORDS = 12 };

/* Answers the library's version, as JENTURIK_VERSION_NUMBER has it. If it is another one than the
 * header's, compile the program anew with the header that the library came with. */
JENTURIK_NODISCARD
uint32_t jenturik_version(void);

/* B, the most collector steps that a cycle takes. */
static inline size_t jenturik_bound(uint32_t nodes, uint32_t slots) {
    size_t m = nodes, r = slots;
    return m * m + 7 * m + r + 2;
}

/* Makes a fresh table of `nodes` nodes and `slots` slots in arrays of `nodes` entries, and its
 * record: no edges, every node white, the nodes from R + 2 on free, in rising order. Answers the
 * last free node. Writes all three arrays and the words.
 * If it is refused (1), the arrays stay as they are and the words become all 0: the record of a
 * table of no nodes, which every other call refuses with 1. */
JENTURIK_NODISCARD
jenturik_told jenturik_fresh(uint16_t *left, size_t lefts, uint16_t *right, size_t rights,
                             uint8_t *colour, size_t colours, uint32_t words[JENTURIK_WORDS],
                             uint32_t nodes, uint32_t slots);

/* Makes a table of `nodes` nodes and `slots` slots with the edges of two lists of `nodes` entries:
 * node n's left edge is given_left[n]. Every node is white, no shade is owed, and the counts are 0,
 * except for that of the free nodes. These are the nodes that FREE leads to along the left edges;
 * what neither FREE nor a slot leads to is garbage, and may have any good edges. Answers the last
 * free node. Writes all three arrays and the words; the lists are only read, and overlap none of
 * these. On the stack it keeps arrays of 44 KiB.
 * If it is refused (1, 11, 12, 13), the arrays stay as they are and the words become all 0, as with
 * jenturik_fresh. */
JENTURIK_NODISCARD
jenturik_told jenturik_load(uint16_t *left, size_t lefts, uint16_t *right, size_t rights,
                            uint8_t *colour, size_t colours, uint32_t words[JENTURIK_WORDS],
                            const uint32_t *given_left, size_t given_lefts,
                            const uint32_t *given_right, size_t given_rights, uint32_t nodes,
                            uint32_t slots);

/* Names the node at a place, 0 for NIL. Writes nothing. */
JENTURIK_NODISCARD
jenturik_told jenturik_look(const uint16_t *left, size_t lefts, const uint16_t *right,
                            size_t rights, const uint8_t *colour, size_t colours,
                            const uint32_t words[JENTURIK_WORDS], uint32_t slot, uint32_t count,
                            uint32_t word);

/* Counts the nodes in use: those that some slot leads to at this moment, the slots' own nodes and
 * NIL left out. Answers JENTURIK_COUNTED and the number, in place of the node. It does not matter
 * what the collector has done so far or is doing now: colours are not read. Writes nothing, and a
 * panel may ask in each frame: its time grows with M alone. On the stack it keeps arrays of 24 KiB.
 * Refused with 1, 2, and with 7 if a slot, or a node that some slot leads to, has a bad edge, which
 * leads nowhere: the answer has the lowest such node, and in the detail the side; left, if both are
 * bad. Bad edges of other nodes, NIL's among them, do not matter. */
JENTURIK_NODISCARD
jenturik_told jenturik_in_use(const uint16_t *left, size_t lefts, const uint16_t *right,
                              size_t rights, const uint8_t *colour, size_t colours,
                              const uint32_t words[JENTURIK_WORDS]);

/* Answers how many nodes are free: JENTURIK_COUNTED and the number, in place of the node. It is the
 * number in the words (JENTURIK_FREE_COUNT), which the calls keep. So no list is walked, and a
 * panel may ask in each frame: its time does not grow with M. In every run from a fresh or loaded
 * table it is the length of the free list. Edges and colours are not read: in a damaged table it is
 * what the words say. Writes nothing. Refused with 1 and 2 only. Like every other call it answers 2
 * if the number is above M - R - 2, if it is 0 and last is not 1, and if last is 1 and it is
 * not 0. */
JENTURIK_NODISCARD
jenturik_told jenturik_free_count(const uint16_t *left, size_t lefts, const uint16_t *right,
                                  size_t rights, const uint8_t *colour, size_t colours,
                                  const uint32_t words[JENTURIK_WORDS]);

/* Points an edge of the node at the source place (slot, count, word), on this side, to the node at
 * the target place (toslot, tocount, toword). Answers the target, whose shade is then owed: call
 * jenturik_shade before the next link or take. Looks and collector steps may come between. Writes
 * one edge and the words. */
JENTURIK_NODISCARD
jenturik_told jenturik_link(uint16_t *left, size_t lefts, uint16_t *right, size_t rights,
                            const uint8_t *colour, size_t colours, uint32_t words[JENTURIK_WORDS],
                            uint32_t slot, uint32_t count, uint32_t word, uint32_t side,
                            uint32_t toslot, uint32_t tocount, uint32_t toword);

/* Shades the node owed and answers it. Writes one colour and the words. */
jenturik_told jenturik_shade(const uint16_t *left, size_t lefts, const uint16_t *right,
                             size_t rights, uint8_t *colour, size_t colours,
                             uint32_t words[JENTURIK_WORDS]);

/* Takes the first free node off the free list, and points the edge of the node at the place, on
 * this side, to it. The left edge of the node taken becomes NIL; its right edge is NIL in every run
 * from a fresh or loaded table. Answers the node taken. Writes three edges, at most two colours and
 * the words. */
JENTURIK_NODISCARD
jenturik_told jenturik_take(uint16_t *left, size_t lefts, uint16_t *right, size_t rights,
                            uint8_t *colour, size_t colours, uint32_t words[JENTURIK_WORDS],
                            uint32_t slot, uint32_t count, uint32_t word, uint32_t side);

/* Makes one collector step. Answers what was done and the node that it was done to. Writes at most
 * three edges or one colour, and the words. */
jenturik_told jenturik_collect(uint16_t *left, size_t lefts, uint16_t *right, size_t rights,
                               uint8_t *colour, size_t colours, uint32_t words[JENTURIK_WORDS]);

/* Makes n collector steps, or as many as are done before one is refused. It does exactly what n
 * calls of jenturik_collect do, much faster. If n is 0, codes 1 and 2 are judged, and otherwise the
 * answer is JENTURIK_NAMED with node 0. */
jenturik_last jenturik_collect_many(uint16_t *left, size_t lefts, uint16_t *right, size_t rights,
                                    uint8_t *colour, size_t colours, uint32_t words[JENTURIK_WORDS],
                                    size_t n);

/* Makes n collector steps, as jenturik_collect_many does, and writes the nodes that they append to
 * the free list to freed[0], freed[1], .., in that order. It stops before n if the list is full:
 * after `freeds` nodes, and after 65535 in any case. Then call it again to go on. A list of M
 * entries is never full. If freeds is 0 no step is made, and codes 1 and 2 are judged, as they are
 * if n is 0. What the list has behind the nodes stays as it was. It overlaps none of the arrays.
 * A refusal has no node here: the next jenturik_collect is refused with the same code and detail,
 * and tells it. */
JENTURIK_NODISCARD
jenturik_freed jenturik_collect_freed(uint16_t *left, size_t lefts, uint16_t *right, size_t rights,
                                      uint8_t *colour, size_t colours,
                                      uint32_t words[JENTURIK_WORDS], size_t n, uint16_t *freed,
                                      size_t freeds);

/* Makes the steps of a schedule in order, until one is refused. The refused step changes nothing;
 * the steps before it stay done. The steps are `numbers` words, JENTURIK_STEP_WORDS to a step in
 * the order of jenturik_step. If `numbers` is no multiple of that, nothing is done and the code
 * is 10. Codes 1 and 2 are judged first, for an empty schedule too. The steps are not written. */
JENTURIK_NODISCARD
jenturik_done jenturik_schedule(uint16_t *left, size_t lefts, uint16_t *right, size_t rights,
                                uint8_t *colour, size_t colours, uint32_t words[JENTURIK_WORDS],
                                const uint32_t *steps, size_t numbers);

/* The same over an array of `count` steps. */
JENTURIK_NODISCARD
static inline jenturik_done jenturik_schedule_steps(uint16_t *left, size_t lefts, uint16_t *right,
                                                    size_t rights, uint8_t *colour, size_t colours,
                                                    uint32_t words[JENTURIK_WORDS],
                                                    const jenturik_step *steps, size_t count) {
    return jenturik_schedule(left, lefts, right, rights, colour, colours, words,
                             (const uint32_t *)steps, JENTURIK_STEP_WORDS * count);
}

/* What a code and its detail mean, in words that go with the answer's node:
 *
 *     printf("node %u: %s\n", told.node, jenturik_code_text(told.code, told.detail));
 *
 * "no such code" for a pair that no call answers. */
static inline const char *jenturik_code_text(unsigned code, unsigned detail) {
    static const char *const texts[16] = {
        "done",
        "the number of nodes or of slots, or the length of an array, is not allowed",
        "the words are no valid record",
        "a place names a slot that is not there",
        "a place has more than 12 turns, or a turn beyond its count",
        "the last link still lacks its shade",
        "no shade is owed",
        "the left edge of the node leads to FREE or out of the table, or from the free list to a "
        "slot",
        "the source is NIL, which has no edges",
        "no node is free",
        "the step cannot be read",
        "the left edge given for the node leads to FREE or out of the table, or is NIL's and not 0",
        "the node is on the free list given, but has a right edge, or leads to a slot or to a node "
        "already passed",
        "the node is on the free list given, and a slot leads to it",
        "the colour of the node is none of white, gray and black",
        "the node is gray where a cycle ends"};
    if (code < 16 && detail == 0) return texts[code];
    if (code == 7 && detail == JENTURIK_RIGHT)
        return "the right edge of the node leads to FREE or out of the table";
    if (code == 11 && detail == JENTURIK_RIGHT)
        return "the right edge given for the node leads to FREE or out of the table, or is NIL's "
               "and not 0";
    if (code == 15 && detail == JENTURIK_WHITE_ROOT)
        return "the node is white where a cycle ends, but is NIL, FREE or a slot's";
    if (code == 15 && detail == JENTURIK_WHITE_LAST)
        return "the node is white where a cycle ends, but is the last free node already";
    return "no such code";
}

#ifdef __cplusplus
}
#endif

#endif
