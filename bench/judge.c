/* judge.c: see judge.h. */
#include "judge.h"

#include "touched.h"

#include <string.h>

/* Whether the side left alone what it was not lent of the piece. */
static bool outside_intact(const struct call *c, enum piece p, enum side s)
{
    size_t len = c->len[p], all = extent(c, p);
    return memcmp(memory[s][p] + len, memory[BEFORE][p] + len, all - len) == 0 && guards_intact(p, s, all);
}

/* Behind the first n bytes, which may differ. */
static unsigned differing_in(const struct call *c, enum piece p, size_t n)
{
    bool same = memcmp(memory[LIBRARY][p] + n, memory[OTHER][p] + n, c->len[p] - n) == 0;
    return same ? 0 : A(is_store(p) ? STORE_BYTES : BUFFER_BYTES);
}

/* ours: the vendor left what the library did, so what is outside of one is outside of both. judged: the bytes of the
   output that are not compared. */
static unsigned differing_bytes(const struct call *c, bool ours, size_t judged)
{
    unsigned what = 0;
    for (int p = 0; p < PIECES; p++) {
        if (c->kind->use[p] == NOT_LENT)
            continue;
        if (!ours)
            what |= differing_in(c, p, p == OUTPUT ? judged : 0);
        if (!outside_intact(c, p, LIBRARY) || (!ours && !outside_intact(c, p, OTHER)))
            what |= A(OUTSIDE);
    }
    return what;
}

bool has_own_output(const struct made *m, const struct vendor *v)
{
    return v->orders_outputs && is_run(m->call.kind) && m->deed.returned && m->ours.r3 == ADK_OK && !m->answers_differ;
}

/* A run changes no registration, so the size before it is that after it. */
static size_t judge_output(struct made *m)
{
    const struct call *c = &m->call;
    size_t registered = registered_size(slot_of(c), ADK_GSID_RUN_OUTPUT);
    m->judged = !same_bytes(OUTPUT, LIBRARY, OTHER, registered);
    if (m->judged)
        m->output = adk_judge_output(memory[LIBRARY][STORE], c->len[STORE], c->n[1], c->n[2], c->n[3],
                                     memory[OTHER][OUTPUT], registered);
    if (m->judged && m->output.r3 != ADK_OK)
        m->deed.what |= A(OUTPUT_REFUSED);
    return registered;
}

void make_ours(struct made *m)
{
    m->ours = make_on_library(&m->call, memory[LIBRARY]);
    m->deed = (struct deed){ .made = true, .returned = true };
    m->answers_differ = m->judged = false;
}

/* The library's call is made while the vendor's process is at its own. */
void make_both(struct made *m, struct vendor *v)
{
    post_call(v, &m->call);
    make_ours(m);
    m->deed = await_call(v, &m->call, &m->theirs);
    if (!m->deed.returned)
        return;
    m->answers_differ = !same_answer(&m->ours, &m->theirs);
    bool ours = left_ours(v, &m->call);
    size_t judged = 0;
    if (!ours)
        take_theirs(v, &m->call);
    if (!ours && has_own_output(m, v))
        judged = judge_output(m);
    m->deed.what |= differing_bytes(&m->call, ours, judged);
}

void settle(const struct made *m)
{
    for (int p = 0; p < PIECES; p++)
        if (m->call.kind->use[p] == WRITTEN && m->ours.r3 == ADK_OK)
            memcpy(memory[BEFORE][p], memory[LIBRARY][p], m->call.len[p]);
    if (!agrees(m))
        share_all();
}

bool agrees(const struct made *m)
{
    return !m->answers_differ && m->deed.what == 0;
}

bool keeps_something_else(const struct made *m)
{
    bool accepted = m->ours.r3 == ADK_OK || m->theirs.r3 == ADK_OK;
    bool changes = m->call.kind->use[STORE] == WRITTEN || m->call.kind->use[TARGET] == WRITTEN;
    if (!m->deed.returned || m->deed.what != 0)
        return true;
    return m->answers_differ && accepted && changes;
}
