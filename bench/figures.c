/* figures.c: see figures.h. */
#include "figures.h"

#include <stdio.h>
#include <stdlib.h>
#include <string.h>

/* ---- Counting ---- */

static size_t pair_of(const adk_found *ours, const adk_found *theirs)
{
    size_t theirs_r3 = theirs->r3 < ANSWERS ? theirs->r3 : NO_ANSWER;
    return WHATS + (size_t)ours->r3 * (ANSWERS + 1) + theirs_r3;
}

static bool count_sort(struct seen *seen, uint64_t number)
{
    if (seen->calls++ > 0)
        return false;
    seen->first = number;
    return true;
}

bool count_call(struct figures *f, const struct made *m)
{
    struct seen *seen = f->seen[m->call.kind - KINDS];
    bool first = false;
    f->made++;
    f->agreed += agrees(m);
    note_cover(&f->cover, &m->call, &m->ours);
    note_touched(&f->touched, &m->call, &m->ours);
    for (int w = 0; w < WHATS; w++)
        if (m->deed.what & A(w))
            first = count_sort(&seen[w], m->number) || first;
    if (m->answers_differ)
        first = count_sort(&seen[pair_of(&m->ours, &m->theirs)], m->number) || first;
    return first;
}

void count_output(struct figures *f, const struct made *m)
{
    f->outputs.all++;
    f->outputs.other += m->judged;
    f->outputs.refused += m->judged && m->output.r3 != ADK_OK;
}

struct told *tell_next(struct figures *f, uint64_t number)
{
    if (f->told_count == TOLD_MOST)
        return NULL;
    struct told *t = &f->told[f->told_count++];
    t->number = number;
    return t;
}

/* ---- Adding up ---- */

static void add_seen(struct seen *to, const struct seen *from)
{
    if (from->calls > 0 && (to->calls == 0 || from->first < to->first))
        to->first = from->first;
    to->calls += from->calls;
}

static void add_numbers(struct figures *to, const struct figures *from)
{
    to->made += from->made;
    to->agreed += from->agreed;
    to->skipped += from->skipped;
    to->outputs.all += from->outputs.all;
    to->outputs.other += from->outputs.other;
    to->outputs.refused += from->outputs.refused;
    for (size_t k = 0; k < KIND_COUNT; k++)
        for (size_t s = 0; s < SORTS; s++)
            add_seen(&to->seen[k][s], &from->seen[k][s]);
    add_cover(&to->cover, &from->cover);
    add_touched(&to->touched, &from->touched);
}

static bool is_first(const struct figures *f, uint64_t number)
{
    for (size_t k = 0; k < KIND_COUNT; k++)
        for (size_t s = 0; s < SORTS; s++)
            if (f->seen[k][s].calls > 0 && f->seen[k][s].first == number)
                return true;
    return false;
}

static void add_told(struct figures *to, const struct told *told)
{
    unsigned at = to->told_count;
    while (at > 0 && to->told[at - 1].number > told->number)
        at--;
    if (at == TOLD_MOST)
        return;
    unsigned last = to->told_count < TOLD_MOST ? to->told_count++ : TOLD_MOST - 1;
    memmove(&to->told[at + 1], &to->told[at], (last - at) * sizeof *told);
    to->told[at] = *told;
}

/* Each job told the first of each kind that it met; here those stay that are the first of all. A job that has no room
   for one has told as many before it, so none is missing. */
void add_figures(struct figures *to, const struct figures *from, size_t n)
{
    for (size_t i = 0; i < n; i++)
        add_numbers(to, &from[i]);
    for (size_t i = 0; i < n; i++)
        for (unsigned t = 0; t < from[i].told_count; t++)
            if (is_first(to, from[i].told[t].number))
                add_told(to, &from[i].told[t]);
}

/* ---- Kinds, one by one ---- */

static int by_first(const void *a, const void *b)
{
    const struct sight *x = a, *y = b;
    if (x->seen->first != y->seen->first)
        return x->seen->first < y->seen->first ? -1 : 1;
    return x->seen < y->seen ? -1 : 1;
}

size_t list_sights(const struct figures *f, struct sight *sights)
{
    size_t n = 0;
    for (size_t k = 0; k < KIND_COUNT; k++)
        for (size_t s = 0; s < SORTS; s++)
            if (f->seen[k][s].calls > 0)
                sights[n++] = (struct sight){ k, s, &f->seen[k][s] };
    qsort(sights, n, sizeof *sights, by_first);
    return n;
}

bool is_pair(size_t sort, unsigned *ours, unsigned *theirs)
{
    if (sort < WHATS)
        return false;
    *ours = (unsigned)(sort - WHATS) / (ANSWERS + 1);
    *theirs = (unsigned)(sort - WHATS) % (ANSWERS + 1);
    return true;
}

void name_sort(size_t sort, char text[KIND_TEXT])
{
    unsigned ours, theirs;
    if (!is_pair(sort, &ours, &theirs))
        snprintf(text, KIND_TEXT, "%s", WHAT_NAME[sort]);
    else if (theirs == NO_ANSWER)
        snprintf(text, KIND_TEXT, "answer %u -> none", ours);
    else
        snprintf(text, KIND_TEXT, "answer %u -> %u", ours, theirs);
}

void name_sight(const struct sight *s, char text[KIND_TEXT])
{
    char sort[KIND_TEXT];
    name_sort(s->sort, sort);
    snprintf(text, KIND_TEXT, "%.32s: %.60s", KINDS[s->call].name, sort);
}

const char *told_of(const struct figures *f, uint64_t number)
{
    for (unsigned i = 0; i < f->told_count; i++)
        if (f->told[i].number == number)
            return f->told[i].text;
    return NULL;
}
