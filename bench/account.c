/* account.c: see account.h. */
#include "account.h"

#include "figures.h"
#include "tell.h"

#include <inttypes.h>
#include <limits.h>

static void print_what(FILE *to, const struct made *m)
{
    const char *before = " differs in ";
    if (agrees(m))
        fprintf(to, " agrees");
    if (m->answers_differ) {
        fprintf(to, "%sanswer", before);
        before = ", ";
    }
    for (int w = 0; w < WHATS; w++)
        if (m->deed.what & A(w)) {
            fprintf(to, "%s%s", before, WHAT_NAME[w]);
            before = ", ";
        }
    fprintf(to, "\n");
}

void tell_made(FILE *to, const struct order *o, const struct made *m, bool all)
{
    const struct call *c = &m->call;
    const adk_found *theirs = m->deed.returned ? &m->theirs : NULL;
    fprintf(to, "call %" PRIu64 ", vendor %s: %s", m->number, o->vendor, c->kind->name);
    print_what(to, m);
    fprintf(to, "  ");
    print_call(to, c);
    print_answer(to, "library", &m->call, &m->ours);
    if (theirs != NULL)
        print_answer(to, "vendor", &m->call, theirs);
    if (m->deed.note[0] != '\0')
        fprintf(to, "  vendor %s\n", m->deed.note);
    if (m->judged)
        print_judged(to, c, &m->output);
    if (theirs != NULL && (!m->judged || (m->deed.what & ~A(OUTPUT_REFUSED)) != 0))
        print_differing(to, c, m->ours.r3 != ADK_OK, "vendor", all ? 64 : 4);
    struct telling t = { to, c, &m->ours, theirs, "vendor", all ? UINT_MAX / 2 : 12, m->judged ? &m->output : NULL };
    print_lent(&t, all ? SIZE_MAX : layout->header);
    if (all)
        return;
    fprintf(to, "  to repeat: ");
    print_command(to, o, m->number);
    fprintf(to, "\n");
}
