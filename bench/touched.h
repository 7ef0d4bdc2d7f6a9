/*
 * touched.h: which vCPUs a night by calls touched (02, L5). The library's calls go through its tally, with summary
 * records beside its store; a vCPU is touched once its record counts something.
 *
 * In other nights the score itself writes the store between calls, and what the records hold would not be what a
 * history of calls gives: there the library's calls are made by their own entries.
 */
#ifndef TOUCHED_H
#define TOUCHED_H

#include "night.h"

struct touched {
    uint64_t created, touched; /* how many vCPUs were created, and how many of these were touched */
    uint64_t part;             /* the last part of the night that was made, from 1, and the vCPUs at its end */
    unsigned vcpus;
    struct vcpu {
        unsigned slot, guest, id;
        adk_summary record;
    } vcpu[SLOTS_MOST];
};

/* Begins with records of new vCPUs, in a night by calls or another. */
void begin_tally(bool by_calls);

/* Makes a call of a night on the library; one of the eight, in a night by calls, through the tally. */
adk_found make_on_library(const struct call *c, uint8_t *const *m);

/* Counts after a call that was answered so; and tells the vCPUs that a part left. */
void note_touched(struct touched *t, const struct call *c, const adk_found *f);
void end_tally(struct touched *t, uint64_t part);

/* Adds what other parts of the night touched. */
void add_touched(struct touched *to, const struct touched *from);

/* The last exit reason of a vCPU in words. */
enum { EXIT_TEXT = 32 };
void name_exit(const adk_summary *r, char text[EXIT_TEXT]);

#endif
