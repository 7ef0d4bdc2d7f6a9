/* touched.c: see touched.h. */
#include "touched.h"

#include "numbered.h"

#include <inttypes.h>
#include <stdio.h>

static const struct l0 library = L0_LIBRARY;

/* A small store goes by the first of them. A conversion leaves each vCPU in its slot. */
static adk_summary records[SLOTS_MOST];
static bool counted[SLOTS_MOST]; /* whether the vCPU of the slot was counted as touched */
static bool tallies;             /* whether calls go through the tally */

static void renew_records(void)
{
    static const adk_summary new = ADK_NEW_SUMMARY;
    for (unsigned slot = 0; slot < SLOTS_MOST; slot++) {
        records[slot] = new;
        counted[slot] = false;
    }
}

void begin_tally(bool by_calls)
{
    tallies = by_calls;
    renew_records();
}

adk_found make_on_library(const struct call *c, uint8_t *const *m)
{
    if (tallies && record_kind(c->kind) != 0) {
        struct numbered n = by_number(c, 0);
        return make_tallied(adk_tally, &n, records, records_asked(&n), m);
    }
    adk_found f = c->kind->make(&library, c, m);
    if (makes_fresh(c->kind) && f.r3 == ADK_OK)
        renew_records();
    return f;
}

static bool is_touched(const adk_summary *r)
{
    return (r->runs | r->elements | r->refusals) != 0;
}

void note_touched(struct touched *t, const struct call *c, const adk_found *f)
{
    t->created += record_kind(c->kind) == ADK_KIND_CREATE_VCPU && f->r3 == ADK_OK;
    for (unsigned slot = 0; slot < SLOTS_MOST; slot++) {
        t->touched += is_touched(&records[slot]) && !counted[slot];
        counted[slot] = is_touched(&records[slot]);
    }
}

void end_tally(struct touched *t, uint64_t part)
{
    const uint8_t *s = memory[BEFORE][STORE];
    t->part = part;
    t->vcpus = 0;
    for (unsigned slot = 0; slot < layout->slots; slot++)
        if (is_used(slot)) {
            unsigned w = word_in(s, slot);
            t->vcpu[t->vcpus++] = (struct vcpu){ slot, guest_in(w), vcpu_in(w), records[slot] };
        }
}

void add_touched(struct touched *to, const struct touched *from)
{
    uint64_t created = to->created + from->created, touched = to->touched + from->touched;
    if (from->part > to->part)
        *to = *from;
    to->created = created;
    to->touched = touched;
}

void name_exit(const adk_summary *r, char text[EXIT_TEXT])
{
    if (r->exit_reason == ADK_NO_EXIT)
        snprintf(text, EXIT_TEXT, "none");
    else
        snprintf(text, EXIT_TEXT, "0x%03" PRIX32 " %s", r->exit_reason, adk_exit_name(r->exit_reason));
}
