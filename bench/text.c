/* text.c: the score as text, for a person at a terminal. */
#include "result.h"

#include "tell.h"

#include <inttypes.h>

/* ---- Disagreements ---- */

static void print_told(FILE *to, const struct figures *f)
{
    for (unsigned i = 0; i < f->told_count; i++)
        fprintf(to, "%s\n", f->told[i].text);
}

static void print_disagreements(FILE *to, const struct figures *f)
{
    static struct sight sights[SIGHTS_MOST];
    size_t n = list_sights(f, sights);
    if (n == 0)
        return;
    fprintf(to, "%-18s %-16s %8s %12s   %s\n", "disagreements", "differs in", "calls", "first call",
            "R3: library -> vendor");
    for (size_t i = 0; i < n; i++) {
        unsigned ours, theirs;
        char sort[KIND_TEXT];
        name_sort(sights[i].sort, sort);
        fprintf(to, "%-18s %-16s %8" PRIu64 " %12" PRIu64, KINDS[sights[i].call].name, sort, sights[i].seen->calls,
                sights[i].seen->first);
        if (is_pair(sights[i].sort, &ours, &theirs))
            fprintf(to, "   %s -> %s%s", adk_answer_name(ours), adk_answer_name(theirs),
                    ours == theirs ? ", with another R4, R5 or place" : "");
        fprintf(to, "\n");
    }
    fprintf(to, "\n");
}

/* ---- Coverage ---- */

/* The IDs, those that follow each other as one range. */
static void print_ids(FILE *to, const struct cover *v, enum list list, enum way way, id_test *which)
{
    for (unsigned id = 0; id <= 0xFFFF; id++) {
        unsigned last = id;
        if (!which(v, list, way, id))
            continue;
        while (last < 0xFFFF && which(v, list, way, last + 1))
            last++;
        fprintf(to, " 0x%04X", id);
        if (last != id)
            fprintf(to, "-0x%04X", last);
        id = last;
    }
    fprintf(to, "\n");
}

static void print_elements(FILE *to, const struct cover *v, enum list list)
{
    fprintf(to, "\n%-12s %8s %8s %8s   which, of %s\n", "elements", "covered", "can be", "missed", LIST_NAME[list]);
    for (enum way way = 0; way < WAYS; way++) {
        unsigned missed = how_many(v, list, way, is_missed);
        fprintf(to, "%-12s %8u %8u %8u  ", WAY_NAME[way], how_many(v, list, way, is_covered),
                how_many_can_be(list, way), missed);
        print_ids(to, v, list, way, is_covered);
        if (missed != 0) {
            fprintf(to, "%-39s  missed:", "");
            print_ids(to, v, list, way, is_missed);
        }
    }
}

/* How often POWER9 guests were refused each element that they lack. */
static void print_refused(FILE *to, const struct cover *v)
{
    fprintf(to, "\n%-12s", "refused");
    for (unsigned i = 0; i < LATER_COUNT; i++)
        fprintf(to, "   0x%04X", later_id(i));
    fprintf(to, "   what %s lack\n", LIST_NAME[POWER9]);
    for (int j = 0; j < JUDGED; j++) {
        fprintf(to, "%-12s", JUDGED_NAME[j]);
        for (unsigned i = 0; i < LATER_COUNT; i++)
            fprintf(to, " %8" PRIu64, v->refused[j][i]);
        fprintf(to, "\n");
    }
}

static void print_buffers(FILE *to, const struct cover *v)
{
    fprintf(to, "\n%-12s %8s %8s %8s\n", "buffers", "accepted", "NOPs", "longest");
    for (int j = 0; j < JUDGED; j++)
        fprintf(to, "%-12s %8" PRIu64 " %8" PRIu64 " %8" PRIu64 "\n", JUDGED_NAME[j], v->accepted[j], v->only_nops[j],
                v->longest[j]);
}

static void print_handed(FILE *to, const struct cover *v)
{
    fprintf(to, "\n%-12s %8s %8s %8s\n", "vCPUs", "all", "empty", "full");
    for (int h = 0; h < HANDS; h++)
        fprintf(to, "%-12s %8" PRIu64 " %8" PRIu64 " %8" PRIu64 "\n", HAND_NAME[h], v->handed[h].vcpus,
                v->handed[h].empty, v->handed[h].full);
}

static void print_fullest(FILE *to, const struct cover *v, const struct layout *l)
{
    fprintf(to, "\n%-12s %8s %8s\n", "fullest", "at once", "of");
    fprintf(to, "%-12s %8" PRIu64 " %8u\n%-12s %8" PRIu64 " %8u\n", "guests", v->guests, l->guests, "slots", v->slots,
            l->slots);
}

static void print_touched(FILE *to, const struct touched *t)
{
    char exit[EXIT_TEXT];
    if (t->vcpus == 0)
        return;
    fprintf(to, "\n%-12s %8s %8s %8s %8s %8s   last exit, of the vCPUs at the end\n", "tally", "guest", "vCPU", "runs",
            "elements", "refusals");
    for (const struct vcpu *v = t->vcpu; v < t->vcpu + t->vcpus; v++) {
        name_exit(&v->record, exit);
        fprintf(to, "slot %-7u %8u %8u %8" PRIu32 " %8" PRIu32 " %8" PRIu32 "   %s\n", v->slot, v->guest, v->id,
                v->record.runs, v->record.elements, v->record.refusals, exit);
    }
}

/* ---- The lines that sum it up ---- */

static void print_agreed(FILE *to, const struct figures *f, bool large)
{
    fprintf(to, "agreed: %" PRIu64 " of %" PRIu64 " calls%s", f->agreed, f->made, large ? " of the large store" : "");
    if (f->skipped != 0)
        fprintf(to, "; %" PRIu64 " more were not made, since their part was left before", f->skipped);
    fprintf(to, "\n");
}

/* What only a night by calls tells; of outputs, only one that judges them. */
static void print_by_calls(FILE *to, const struct figures *f, const struct order *o)
{
    if (o->judge_outputs)
        fprintf(to, "outputs: %" PRIu64 " of %" PRIu64 " accepted runs gave other bytes than ours; %" PRIu64
                " of these were refused\n", f->outputs.other, f->outputs.all, f->outputs.refused);
    if (o->manner.opaque)
        fprintf(to, "touched: %" PRIu64 " of %" PRIu64 " vCPUs ran, were set or were refused an element\n",
                f->touched.touched, f->touched.created);
}

static void print_ways(FILE *to, const struct cover *v, enum list list)
{
    static const char *const can[WAYS] = { "settable elements set", "readable read", "in effects", "returned", "taken",
                                           "given back" };
    for (enum way way = 0; way < WAYS; way++)
        fprintf(to, "%s%u of %u %s", way == 0 ? "" : ", ", how_many(v, list, way, is_covered),
                how_many_can_be(list, way), can[way]);
}

/* What a POWER9 guest can't cover is not counted as missed; that it was refused is told instead. */
static void print_power9(FILE *to, const struct cover *v)
{
    fprintf(to, "%s: ", LIST_NAME[POWER9]);
    print_ways(to, v, POWER9);
    fprintf(to, "; of the %d that they lack were refused", LATER_COUNT);
    for (int j = 0; j < JUDGED; j++)
        fprintf(to, "%s %u in %s", j == 0 ? "" : ",", how_many_refused(v, j), JUDGED_NAME[j]);
    fprintf(to, "\n");
}

static void print_worth(FILE *to, const struct cover *v)
{
    uint64_t accepted = all_accepted(v), nops = all_only_nops(v);
    fprintf(to, "worth: %s", worth_nothing(v) ? "NOTHING: " : "");
    print_ways(to, v, WHOLE);
    if (nops == accepted)
        fprintf(to, "; all %" PRIu64 " accepted buffers held nothing but NOPs\n", accepted);
    else
        fprintf(to, "; %" PRIu64 " of %" PRIu64 " accepted buffers held nothing but NOPs\n", nops, accepted);
    print_power9(to, v);
}

void print_score(FILE *to, const struct result *r)
{
    const struct figures *f = r->figures;
    print_told(to, f);
    print_disagreements(to, f);
    print_tally(to, f->cover.answers, r->order->manner);
    for (enum list list = 0; list < LISTS; list++)
        print_elements(to, &f->cover, list);
    print_refused(to, &f->cover);
    print_buffers(to, &f->cover);
    print_handed(to, &f->cover);
    print_fullest(to, &f->cover, layout_of_night(r->order->manner));
    if (r->order->manner.opaque)
        print_touched(to, &f->touched);
    fputc('\n', to);
    print_by_calls(to, f, r->order);
    print_agreed(to, f, r->order->manner.large);
    print_worth(to, &f->cover);
    fprintf(to, "verdict: %s, vendor %s\n", verdict_name(r->verdict), r->order->vendor);
}
