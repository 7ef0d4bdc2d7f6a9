/* result.c: see result.h. */
#include "result.h"

#include <inttypes.h>

const char *verdict_name(enum verdict v)
{
    static const char *const names[] = {
        [PASSED] = "PASSED", [FAILED] = "FAILED", [UNFIT] = "UNFIT", [WORTH_NOTHING] = "WORTH NOTHING",
        [STOPPED] = "STOPPED"
    };
    return names[v];
}

static enum verdict verdict_of(const struct figures *f, bool stopped)
{
    if (stopped)
        return STOPPED;
    if (f->agreed != f->made)
        return FAILED;
    return worth_nothing(&f->cover) ? WORTH_NOTHING : PASSED;
}

void judge_night(struct result *r, bool stopped)
{
    const struct figures *f = r->figures;
    const struct cover *v = &f->cover;
    static struct sight sights[SIGHTS_MOST];
    uint64_t wrong = f->made - f->agreed;
    size_t kinds = list_sights(f, sights);
    r->verdict = verdict_of(f, stopped);
    switch (r->verdict) {
    case STOPPED:
        snprintf(r->sentence, SENTENCE,
                 "The night was stopped after %" PRIu64 " of %" PRIu64 " calls; %" PRIu64 " of these disagreed.",
                 f->made, r->order->calls, wrong);
        break;
    case FAILED:
        snprintf(r->sentence, SENTENCE, "%" PRIu64 " of %" PRIu64 " calls disagreed, in %zu kind%s.", wrong, f->made,
                 kinds, kinds == 1 ? "" : "s");
        break;
    case WORTH_NOTHING:
        snprintf(r->sentence, SENTENCE,
                 "All %" PRIu64 " calls agreed, but no element was set: agreement on NOPs says nothing about values.",
                 f->made);
        break;
    default:
        snprintf(r->sentence, SENTENCE,
                 "All %" PRIu64 " calls agreed; %u of %u settable elements were set, %u of %u readable ones read, by "
                 "POWER9 guests %u of %u and %u of %u.",
                 f->made, how_many(v, WHOLE, SET, is_covered), how_many_can_be(WHOLE, SET),
                 how_many(v, WHOLE, GOT, is_covered), how_many_can_be(WHOLE, GOT), how_many(v, POWER9, SET, is_covered),
                 how_many_can_be(POWER9, SET), how_many(v, POWER9, GOT, is_covered), how_many_can_be(POWER9, GOT));
    }
}
