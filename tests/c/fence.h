/* Rooms for arrays lent to the library, by which [C 11] is tried. A page that may be neither read
 * nor written stands before and behind each room. An array lies against one of the two pages; on
 * its other side stand bytes that must not change. */
#ifndef FENCE_H
#define FENCE_H

#include <stdio.h>
#include <stdlib.h>
#include <string.h>
#include <sys/mman.h>
#include <unistd.h>

enum { FENCE_ROOM = 1 << 17, FENCE_BYTES = 256, FENCE_MARK = 0xa5 };

typedef struct {
    unsigned char *room;  /* FENCE_ROOM bytes */
    unsigned char *array; /* where the array lies in it */
    size_t bytes;         /* the array's */
} fence;

static inline void fence_fail(const char *why) {
    fprintf(stderr, "%s\n", why);
    exit(3);
}

static inline void fence_open(fence *f) {
    size_t page = (size_t)sysconf(_SC_PAGESIZE);
    unsigned char *all =
        mmap(NULL, FENCE_ROOM + 2 * page, PROT_NONE, MAP_PRIVATE | MAP_ANONYMOUS, -1, 0);
    if (all == MAP_FAILED || mprotect(all + page, FENCE_ROOM, PROT_READ | PROT_WRITE) != 0)
        fence_fail("no memory for a fence");
    f->room = f->array = all + page;
    f->bytes = 0;
}

/* The side of the array that has no page: the bytes that must not change. */
static inline unsigned char *fence_side(const fence *f) {
    return f->array == f->room ? f->array + f->bytes : f->array - FENCE_BYTES;
}

/* Lays a copy of an array against the page behind the room (high) or before it, and answers where.
 * An array of no bytes is null where high. */
static inline void *fence_lay(fence *f, const void *from, size_t bytes, int high) {
    if (bytes > FENCE_ROOM - FENCE_BYTES) fence_fail("an array is too long for its fence");
    f->array = high ? f->room + FENCE_ROOM - bytes : f->room;
    f->bytes = bytes;
    memset(fence_side(f), FENCE_MARK, FENCE_BYTES);
    if (bytes != 0) memcpy(f->array, from, bytes);
    return bytes == 0 && high ? NULL : f->array;
}

static inline int fence_kept(const fence *f) {
    const unsigned char *side = fence_side(f);
    for (size_t i = 0; i < FENCE_BYTES; i++)
        if (side[i] != FENCE_MARK) return 0;
    return 1;
}

/* Forbids writing into the room, so that a write ends the program; or allows it again. */
static inline void fence_forbid(const fence *f, int forbid) {
    if (mprotect(f->room, FENCE_ROOM, forbid ? PROT_READ : PROT_READ | PROT_WRITE) != 0)
        fence_fail("a fence cannot be forbidden");
}

/* Forbids reading too; or allows all again. */
static inline void fence_hide(const fence *f, int hide) {
    if (mprotect(f->room, FENCE_ROOM, hide ? PROT_NONE : PROT_READ | PROT_WRITE) != 0)
        fence_fail("a fence cannot be hidden");
}

#endif
