/*
 * history.h: what a history of calls gives for each vCPU (02, L5), from the calls and their answers alone: no slot and
 * no store is looked at. Summary records must hold that, if nothing but the tally writes them and the store.
 */
#ifndef HISTORY_H
#define HISTORY_H

#include "night.h"

/* Elements and NOPs that an accepted buffer in BEFORE holds. */
struct content {
    uint64_t elements, nops;
    bool twice; /* two elements with one ID, one straight behind the other */
};

struct content content_of(enum piece p);

/* A fresh store: no vCPU was created yet. */
void begin_history(void);

/* One of the eight calls, answered so; BEFORE holds what it was lent. */
void note_history(const struct call *c, const adk_found *f);

/* Whether the history gives this record for a vCPU that there is; the sums stop at 2^32 - 1 where they are shown. */
bool history_gives(uint64_t guest, unsigned vcpu, const adk_summary *r);

#endif
