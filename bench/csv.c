/* csv.c: the score as rows of four fields, for a program. */
#include "result.h"

#include <inttypes.h>
#include <string.h>

/* In quotes where it holds what would end it. */
static void print_field(FILE *to, const char *text)
{
    if (strpbrk(text, ",\"\n") == NULL) {
        fprintf(to, "%s", text);
        return;
    }
    fputc('"', to);
    for (; *text != '\0'; text++)
        fprintf(to, *text == '"' ? "\"%c" : "%c", *text);
    fputc('"', to);
}

static void row(FILE *to, const char *section, const char *subject, const char *measure, uint64_t number)
{
    fprintf(to, "%s,", section);
    print_field(to, subject);
    fprintf(to, ",%s,%" PRIu64 "\n", measure, number);
}

static void rows_of_disagreements(FILE *to, const struct figures *f)
{
    static struct sight sights[SIGHTS_MOST];
    char name[KIND_TEXT];
    size_t n = list_sights(f, sights);
    for (size_t i = 0; i < n; i++) {
        name_sight(&sights[i], name);
        row(to, "disagreement", name, "calls", sights[i].seen->calls);
        row(to, "disagreement", name, "first", sights[i].seen->first);
    }
}

/* A measure of guests with the whole list is named by itself, one of POWER9 guests has that before it. */
static const char *measure_of(enum list list, const char *name)
{
    static char measure[32];
    snprintf(measure, sizeof measure, "%s%s", list == POWER9 ? "POWER9 " : "", name);
    return measure;
}

static void rows_of_answers(FILE *to, const struct cover *v, struct manner manner)
{
    char text[16];
    for (size_t k = 0; k < KIND_COUNT; k++)
        for (unsigned a = 0; a < ANSWERS; a++)
            if (can_answer(&KINDS[k], (int)a, manner)) {
                snprintf(text, sizeof text, "%u", a);
                row(to, "answer", KINDS[k].name, text, v->answers[k][a]);
            }
}

static void rows_of_element(FILE *to, const struct cover *v, unsigned id)
{
    char text[16];
    snprintf(text, sizeof text, "0x%04X", id);
    for (enum list list = 0; list < LISTS; list++)
        for (enum way way = 0; way < WAYS; way++)
            if (can_be(list, way, id))
                row(to, "element", text, measure_of(list, WAY_NAME[way]), v->elements[list][way][id]);
}

static void rows_of_refused(FILE *to, const struct cover *v)
{
    char text[16];
    for (int j = 0; j < JUDGED; j++)
        for (unsigned i = 0; i < LATER_COUNT; i++) {
            snprintf(text, sizeof text, "0x%04X", later_id(i));
            row(to, "POWER9 refused", JUDGED_NAME[j], text, v->refused[j][i]);
        }
}

/* The exit reason of a vCPU that never ran is ADK_NO_EXIT. */
static void rows_of_touched(FILE *to, const struct touched *t)
{
    char name[48];
    row(to, "touched", "vCPUs", "touched", t->touched);
    row(to, "touched", "vCPUs", "of", t->created);
    for (const struct vcpu *v = t->vcpu; v < t->vcpu + t->vcpus; v++) {
        snprintf(name, sizeof name, "guest %u vCPU %u", v->guest, v->id);
        row(to, "tally", name, "slot", v->slot);
        row(to, "tally", name, "runs", v->record.runs);
        row(to, "tally", name, "elements", v->record.elements);
        row(to, "tally", name, "refusals", v->record.refusals);
        row(to, "tally", name, "exit reason", v->record.exit_reason);
    }
}

static void rows_of_outputs(FILE *to, const struct outputs *o)
{
    row(to, "outputs", "run_vcpu", "accepted", o->all);
    row(to, "outputs", "run_vcpu", "other bytes", o->other);
    row(to, "outputs", "run_vcpu", "refused", o->refused);
}

static void rows_of_worth(FILE *to, const struct cover *v, enum way way)
{
    for (enum list list = 0; list < LISTS; list++) {
        row(to, "worth", WAY_NAME[way], measure_of(list, "covered"), how_many(v, list, way, is_covered));
        row(to, "worth", WAY_NAME[way], measure_of(list, "can be"), how_many_can_be(list, way));
    }
}

static void rows_of_cover(FILE *to, const struct cover *v, struct manner manner)
{
    rows_of_answers(to, v, manner);
    for (const struct row *r = ROWS; r < ROWS + ROW_COUNT; r++)
        for (unsigned id = r->first; id <= r->last; id++)
            rows_of_element(to, v, id);
    rows_of_refused(to, v);
    for (int j = 0; j < JUDGED; j++) {
        row(to, "buffers", JUDGED_NAME[j], "accepted", v->accepted[j]);
        row(to, "buffers", JUDGED_NAME[j], "only NOPs", v->only_nops[j]);
        row(to, "buffers", JUDGED_NAME[j], "longest", v->longest[j]);
    }
    for (int h = 0; h < HANDS; h++) {
        row(to, "vCPUs", HAND_NAME[h], "all", v->handed[h].vcpus);
        row(to, "vCPUs", HAND_NAME[h], "empty", v->handed[h].empty);
        row(to, "vCPUs", HAND_NAME[h], "full", v->handed[h].full);
    }
    row(to, "fullest", "guests", "at once", v->guests);
    row(to, "fullest", "guests", "of", layout_of_night(manner)->guests);
    row(to, "fullest", "slots", "at once", v->slots);
    row(to, "fullest", "slots", "of", layout_of_night(manner)->slots);
    for (enum way way = 0; way < WAYS; way++)
        rows_of_worth(to, v, way);
}

void csv_score(FILE *to, const struct result *r)
{
    const struct figures *f = r->figures;
    fprintf(to, "section,subject,measure,number\n");
    row(to, "night", "seed", "number", r->order->seed);
    row(to, "night", "store", "bytes", layout_of_night(r->order->manner)->size);
    row(to, "night", "conversion", "scored", r->order->manner.large && !r->order->manner.no_conversion);
    row(to, "night", "calls", "made", f->made);
    row(to, "night", "calls", "agreed", f->agreed);
    row(to, "night", "calls", "not made", r->order->calls - f->made);
    rows_of_disagreements(to, f);
    if (r->order->judge_outputs)
        rows_of_outputs(to, &f->outputs);
    if (r->order->manner.opaque)
        rows_of_touched(to, &f->touched);
    rows_of_cover(to, &f->cover, r->order->manner);
    row(to, "verdict", r->order->vendor, verdict_name(r->verdict), r->verdict);
}
