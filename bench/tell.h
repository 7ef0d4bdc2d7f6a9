/* tell.h: a call, its answers and its bytes, printed for a person. */
#ifndef TELL_H
#define TELL_H

#include "night.h"

#include <stdio.h>

/* The name of the call and its numbers; and, where the guest's list counts, its logical PVR before the call. */
void print_call(FILE *to, const struct call *c);

void print_answer(FILE *to, const char *who, const struct call *c, const adk_found *f);

/* The first bytes, at most so many, at which the sides differ from each other or, where the call may not write, from
   before; guards count as well. other names the other side. */
void print_differing(FILE *to, const struct call *c, bool refused, const char *other, unsigned most);

/* What was said of a vendor's output, and of which element. OTHER holds the output, LIBRARY the store. */
void print_judged(FILE *to, const struct call *c, const adk_answer *output);

/* A call that is told, with both answers; theirs is NULL where the call did not return. Of a buffer at most so many
   elements are shown, and as many again that an answer names or at which the sides differ. */
struct telling {
    FILE *to;
    const struct call *call;
    const adk_found *ours, *theirs;
    const char *other;
    unsigned most;
    const adk_answer *output; /* what was said of the other side's output, if it was judged; else NULL */
};

/* What was lent: of the store so many bytes; buffers by their elements, before the call and, where one of the sides
   changed something, after it. */
void print_lent(const struct telling *t, size_t store_bytes);

/* Whether there is a call that can give the answer. */
bool some_call_gives(int answer);

/* How often each call gave each answer, in a night of this manner. */
void print_tally(FILE *to, const uint64_t tally[KIND_COUNT][ANSWERS], struct manner manner);

#endif
