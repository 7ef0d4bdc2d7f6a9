/*
 * vendor.h: a vendor's library in a process of its own, and calls on it.
 *
 * The library may be wrong or hostile in every way: it may crash, hang, exit, fork, print, close descriptors, raise
 * signals, or write over all memory that it reaches. Each is told as what it is, the process is started anew, and
 * nothing of the score but a window of lent memory is in its reach: the process is another program (host.c). It is
 * traced, so that a fork, a signal and the address of a fault are known; where tracing is forbidden, forks go unnoticed
 * and the rest is told all the same.
 */
#ifndef VENDOR_H
#define VENDOR_H

#include "window.h"

#include <sys/types.h>

/* What may be wrong after a call, its answer apart; several may be at once. A new one has its name in WHAT_NAME. */
enum what {
    STORE_BYTES,
    BUFFER_BYTES,
    OUTPUT_REFUSED, /* a run's output, judged and not compared byte for byte */
    OUTSIDE,   /* memory that was not lent was written, or touched where that shows */
    PRINTED,   /* something came on standard output */
    CLOSED,    /* standard output was closed */
    OVERWROTE, /* the desk was written over */
    EXITED,
    CRASHED,
    SIGNALLED,
    FORKED,
    HUNG,
    WHATS
};

extern const char *const WHAT_NAME[WHATS];

/* After so many calls that did not return in time, the others get only this part of it: a vendor that hangs always
   shall not hold up the night. */
enum { PATIENCE = 3, IMPATIENCE = 10, NOTE_SIZE = 160 };

struct vendor {
    const char *path;
    bool keeps_store;         /* what it knows is its own, and not in the lent store */
    bool orders_outputs;      /* its outputs may have an order of their own, so they are judged */
    unsigned seconds;         /* how long a call may take */
    const volatile int *stop; /* nonzero: the score is to stop, and waits no longer */
    struct window window;
    pid_t pid;                /* 0: there is no process */
    int output;               /* what the process writes on standard output */
    const uint8_t *base;      /* where it has the window */
    bool converts;            /* it exports adk_convert */
    uint32_t turn;            /* of the call that was posted last */
    unsigned hung;            /* how many calls did not return in time */
};

/* How a call went. */
struct deed {
    bool made; /* false where the score was stopped before the call ended */
    bool returned;
    unsigned what;        /* bits of enum what */
    char note[NOTE_SIZE]; /* what the process did, in words, if not only return */
};

/* Makes the window and starts the process. Where the library is unfit, says why on standard error. */
bool open_vendor(struct vendor *v);
void close_vendor(struct vendor *v);

/* Starts the process if there is none. */
bool start_vendor(struct vendor *v, char why[DESK_TEXT]);

/* A call: begun, and then waited for. In between the score does what it has to do itself. A process that did more than
   return is ended; what it left stays in the window. */
void post_call(struct vendor *v, const struct call *c);
struct deed await_call(struct vendor *v, const struct call *c, adk_found *found);

/* Whether the vendor left the bytes that the library did; and all that it left, put into OTHER. */
bool left_ours(const struct vendor *v, const struct call *c);
void take_theirs(const struct vendor *v, const struct call *c);

#endif
