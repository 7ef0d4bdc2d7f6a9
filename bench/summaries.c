/* summaries.c: see summaries.h. */
#include "summaries.h"

#include "chance.h"

#include <string.h>

const char *const NUMBER_NAME[] = { "runs", "elements", "refusals", "exit reason", "record" };

static adk_summary summaries[SIDES][SUMMARIES_BESIDE + SUMMARIES_MOST + SUMMARIES_BESIDE];

adk_summary *summaries_of(enum side s)
{
    return summaries[s] + SUMMARIES_BESIDE;
}

uint32_t number_in(const adk_summary *r, enum number n)
{
    const uint32_t numbers[NUMBERS_OF_RECORD] = { r->runs, r->elements, r->refusals, r->exit_reason };
    return numbers[n];
}

void put_in(adk_summary *r, enum number n, uint32_t value)
{
    uint32_t *const numbers[NUMBERS_OF_RECORD] = { &r->runs, &r->elements, &r->refusals, &r->exit_reason };
    *numbers[n] = value;
}

bool same_summary(const adk_summary *a, const adk_summary *b)
{
    return memcmp(a, b, sizeof *a) == 0;
}

bool is_new(const adk_summary *r)
{
    const adk_summary new = ADK_NEW_SUMMARY;
    return same_summary(r, &new);
}

static void share_all_summaries(void)
{
    for (enum side s = 0; s < BEFORE; s++)
        memcpy(summaries[s], summaries[BEFORE], sizeof summaries[s]);
}

void renew_summaries(void)
{
    const adk_summary new = ADK_NEW_SUMMARY;
    for (size_t i = 0; i < COUNT(summaries[BEFORE]); i++)
        summaries[BEFORE][i] = new;
    share_all_summaries();
}

void fill_summaries(void)
{
    any_bytes((uint8_t *)summaries[BEFORE], sizeof summaries[BEFORE]);
    share_all_summaries();
}

void share_summary(unsigned slot)
{
    for (enum side s = 0; s < BEFORE; s++)
        summaries_of(s)[slot] = summaries_of(BEFORE)[slot];
}

void settle_summaries(size_t n)
{
    memcpy(summaries_of(BEFORE), summaries_of(LIBRARY), n * sizeof summaries[0][0]);
}

/* The number at which two records differ, if there is just one. */
static enum number only_other(const adk_summary *a, const adk_summary *b)
{
    enum number found = NUMBERS_OF_RECORD;
    for (enum number n = 0; n < NUMBERS_OF_RECORD; n++) {
        if (number_in(a, n) == number_in(b, n))
            continue;
        if (found != NUMBERS_OF_RECORD)
            return NUMBERS_OF_RECORD;
        found = n;
    }
    return found;
}

bool summaries_differ(enum side a, enum side b, size_t n, size_t *slot, enum number *number)
{
    const adk_summary *x = summaries_of(a), *y = summaries_of(b);
    if (memcmp(x, y, n * sizeof *x) == 0)
        return false;
    *slot = 0;
    while (same_summary(&x[*slot], &y[*slot]))
        ++*slot;
    *number = only_other(&x[*slot], &y[*slot]);
    return true;
}

bool beside_intact(enum side s, size_t n)
{
    static const size_t size = SUMMARIES_BESIDE * sizeof summaries[0][0];
    return memcmp(summaries[s], summaries[BEFORE], size) == 0 &&
           memcmp(summaries_of(s) + n, summaries_of(BEFORE) + n, size) == 0;
}
