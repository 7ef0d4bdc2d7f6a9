/*
 * recording.h: the calls of a night written down as records (adderknot.h, "CALL RECORDS"), and the lines that the
 * program replay prints for them: the library's answers.
 *
 * A night can be recorded if its store changes by calls only. A fresh store is none of the eight calls; it is recorded
 * as two of them, all guests deleted and no capability agreed, since every later answer is then that of a fresh store.
 * What no record tells is left out, and none of it changes the store: the clock, lookups, and runs with an exit reason
 * over 4,095 or refused since the lent output is too short.
 */
#ifndef RECORDING_H
#define RECORDING_H

#include "judge.h"
#include "order.h"

struct recording {
    FILE *records, *answers; /* NULL where they are not asked for */
    uint64_t count;
};

/* Opens the files that are asked for; where one cannot be written, now or in the end, says why on standard error. */
bool open_recording(struct recording *r, const struct order *o);
bool end_recording(struct recording *r, const struct order *o);

/* Records a call that was made, before what it left is settled. */
void record_call(struct recording *r, const struct made *m);

#endif
