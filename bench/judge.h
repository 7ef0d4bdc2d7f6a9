/*
 * judge.h: one call made on the library and on a vendor's, and what differs after it.
 *
 * Every buffer is compared byte for byte. With --judge-outputs a vendor that keeps its own state may put the elements
 * of an output in its own order and add NOPs: where both sides accept a run, its output is judged by adk_judge_output
 * and the library's store after the run (02, L10). It is then the vendor's up to the registered size; bytes behind that
 * stay.
 */
#ifndef JUDGE_H
#define JUDGE_H

#include "vendor.h"

/* A call that was made on both sides. */
struct made {
    uint64_t number;
    struct call call;
    adk_found ours, theirs;
    struct deed deed;
    bool answers_differ;
    bool judged;       /* it is a run whose output is not the library's, byte for byte, and was judged */
    adk_answer output; /* what was said of that */
};

/* Makes the call on the library alone; on both sides; and makes what the library left what the next call meets. */
void make_ours(struct made *m);
void make_both(struct made *m, struct vendor *v);
void settle(const struct made *m);

bool agrees(const struct made *m);

/* Whether the call is a run whose output need not be the library's byte for byte. */
bool has_own_output(const struct made *m, const struct vendor *v);

/* Whether the vendor may from now on keep something else than the library: one of them accepted a call that changes
   what is kept, other values came back, or the process is gone. */
bool keeps_something_else(const struct made *m);

#endif
