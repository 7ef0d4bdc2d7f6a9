/*
 * deep.h: each call on a full store of either size, its vCPU in the last slot, with the longest buffers: accepted, and
 * refused with each answer that it can give.
 */
#ifndef DEEP_H
#define DEEP_H

#include "night.h"

/* Tries a case: a call, the answer that it must give, and what is special in it. BEFORE and both sides hold what it is
   lent. */
typedef void try_case(const struct call *c, uint64_t answer, const char *what);

/* Tries all cases on a store of this size; false if it could not be filled. longest: buffers are full to their last
   byte. Without it they hold some elements of each kind, so that the same code is run and its loops end sooner. */
bool each_case(enum size size, bool longest, try_case *try);

#endif
