/* account.h: a call that was made on both sides, told in full. */
#ifndef ACCOUNT_H
#define ACCOUNT_H

#include "judge.h"
#include "order.h"

/* all: every byte; else what long pieces hold is left to --only, and the command for it is told. */
void tell_made(FILE *to, const struct order *o, const struct made *m, bool all);

#endif
