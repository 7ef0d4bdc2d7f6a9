/*
 * summaries.h: summary records (02, L5) that are lent to both sides of a comparison, as lent.h lends bytes: to the
 * library, to the model, and as they were before the call. Between two calls the three are equal, with the records that
 * lie beside them.
 */
#ifndef SUMMARIES_H
#define SUMMARIES_H

#include "lent.h"

/* The greatest number that is lent has 64 in its last 16 bits; so many lie beside what is lent. */
enum { SUMMARIES_MOST = 65536 + ADK_LARGE_SLOTS, SUMMARIES_BESIDE = 2 };

/* The numbers in a record, in their order; where several are meant it is said of the record. */
enum number { RUNS, ELEMENTS_SET, REFUSALS, EXIT_REASON, NUMBERS_OF_RECORD };

extern const char *const NUMBER_NAME[NUMBERS_OF_RECORD + 1];

/* The records that a side has, that of slot 0 first. */
adk_summary *summaries_of(enum side s);

uint32_t number_in(const adk_summary *r, enum number n);
void put_in(adk_summary *r, enum number n, uint32_t value);
bool same_summary(const adk_summary *a, const adk_summary *b);

/* Whether it is a new vCPU's. */
bool is_new(const adk_summary *r);

/* Makes every record a new vCPU's; or all of them anything. */
void renew_summaries(void);
void fill_summaries(void);

/* Gives both sides the record of a slot that was written to BEFORE; and makes the first n what the library left. */
void share_summary(unsigned slot);
void settle_summaries(size_t n);

/* The first of n records at which two sides differ, and the number in it, or NUMBERS_OF_RECORD for several; false if
   there is none. */
bool summaries_differ(enum side a, enum side b, size_t n, size_t *slot, enum number *number);

/* Whether those beside n records are as they were. */
bool beside_intact(enum side s, size_t n);

#endif
