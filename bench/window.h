/*
 * window.h: the only memory that a vendor's process shares with the score: the lent pieces, each between pages that may
 * not be touched, and a desk for what the two tell each other.
 *
 * The vendor may write anything to all of it. So the score never acts on a pointer or a length that it finds here: it
 * copies what it lends in, and only compares what comes back. Bytes are copied out where they differ or are told.
 */
#ifndef WINDOW_H
#define WINDOW_H

#include "night.h"

#include <stdatomic.h>

/* Words on the first and the last bytes of the desk, by which the score notices that it was written over. */
enum { DESK_MARK = 0x4144444B, DESK_TEXT = 1024 };

/* The descriptor by which a vendor's process gets the window's file. */
enum { WINDOW_FILE = 3 };

/* A number that one side counts up and the other waits for. */
struct turn {
    _Alignas(64) _Atomic uint32_t number;
    _Atomic uint32_t awaited; /* the other side sleeps until the number changes */
};

/* A call as it lies on the desk: its place in KINDS, the lengths of what is lent, and its numbers. */
struct posted_call {
    size_t kind, len[PIECES];
    uint64_t n[NUMBERS];
};

struct desk {
    uint32_t front;
    struct turn ready, posted, done; /* the process can be watched; a call is there; it was made */
    const uint8_t *base;             /* where the window lies in the vendor's process */
    struct posted_call call;
    adk_found found;
    char unfit[DESK_TEXT]; /* why the library cannot be called, if it cannot */
    bool lacks_conversion;
    uint32_t back;
};

struct window {
    int file; /* what both processes map */
    uint8_t *all;
    size_t size;
    struct desk *desk;
    uint8_t *end[PIECES]; /* where the pages of the piece end; a piece is lent so that it ends there */
};

/* Makes a window; opens that of another process, by its file; and gives it back. */
bool make_window(struct window *w);
bool open_window(struct window *w, int file);
void free_window(struct window *w);

/* Where a piece of this length is lent. */
uint8_t *lent_at(const struct window *w, enum piece p, size_t len);

/* Puts a call and what it is lent into the window. The bytes in front of a piece go with it; behind it there is nothing
   that could be touched. keeps_store: the store is the vendor's own; it is neither written nor looked at, but what a
   conversion had as its target is the store from then on. */
void put_call(struct window *w, const struct call *c, bool keeps_store);

/* Whether the bytes are those that the library left. */
bool holds_ours(const struct window *w, const struct call *c, bool keeps_store);

/* Puts the bytes into OTHER; a store that is the vendor's own is taken to be the library's. */
void take_bytes(const struct window *w, const struct call *c, bool keeps_store);

bool desk_intact(const struct window *w);

/* The piece that an address belongs to, or PIECES, in a process that has the window at base; at is the byte of the
   piece, counted from what was lent of it. */
enum piece piece_at(const struct window *w, const struct call *c, const uint8_t *base, const uint8_t *address,
                    long *at);

/* ---- Turns ---- */

void tell_turn(struct turn *t, uint32_t number);

/* Looks for the number for a short while; true if it came. */
bool spin_for_turn(struct turn *t, uint32_t number);

/* Sleeps until the number may have come, a signal has, or so many milliseconds have passed; 0 is no limit. */
void sleep_for_turn(struct turn *t, uint32_t number, unsigned milliseconds);

#endif
