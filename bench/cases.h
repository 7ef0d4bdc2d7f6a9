/*
 * cases.h: the cases on which the library is measured against the model: speed.c times them, and count.c is for
 * counting their instructions.
 */
#ifndef CASES_H
#define CASES_H

#include "l0.h"
#include "store.h"

/* The PVR that a filled store has, which is no logical PVR: the guest is offered all elements. As r4: the guest. */
enum { ANY_PVR = 0, THE_GUEST = -1 };

struct buffer;
struct party; /* an L0 with its store and its buffers */

struct work {
    const char *name;
    adk_answer (*call)(struct party *s); /* handed on as it is: to copy it would be timed too */
    void (*build)(struct buffer *b);
    unsigned count, effect; /* how many elements the buffer has, and the effect */
    uint64_t r3, r4;
    uint32_t pvr; /* the guest's logical PVR, or ANY_PVR */
};

/* A case is a work on a store of one size: all on a small store, then those again that are lent one, on a large one. */
struct measured {
    const struct work *work;
    enum size size;
    char name[96];
};

/* In the store that is filled, the vCPU in the last slot is the only one of the last guest: finding it, and testing the
   store, take longest. */
enum { VCPU = ADK_VCPU_MAX };

extern struct party library, model;

/* How many cases there are, and each, from 0. */
size_t case_count(void);
struct measured case_of(size_t number);

/* Makes a store of the layout with every guest and every slot in use. */
bool fill_store(uint8_t *store);

/* Gives both sides a filled store of the case's size, and its buffers; false if the store could not be filled. */
bool prepare(const struct measured *m);

/* Makes one call on each side: whether both give the answer that the work names, and leave the same bytes. */
bool agree(const struct work *w);

#endif
