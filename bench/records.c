/*
 * records.c: writes calls as records by the library and by the model, and compares every answer and every byte.
 *
 *     make target/bench/records
 *     records [--calls N] [--seed S | --seed fresh]
 *
 * Each call at an edge is written with room at each edge, and then N calls by chance. Lines 'passed records NAME' or
 * 'failed records NAME' say what was established:
 *
 *     agreement   answers and records are the same
 *     order       each call has the answer that the request puts first
 *     unchanged   a refusal changed no byte, success none behind the record, and none beside what was lent changed, nor
 *                 of data and effect
 *     read        what was written is read by adderknot_record.h as it was given; with a byte less it is no record
 *     coverage    each answer was given, and success and refusal on both sides of each edge
 *
 * The run ends at the first difference.
 */
#include "chance.h"
#include "fields.h"
#include "model.h"

#include <inttypes.h>
#include <stdio.h>
#include <stdlib.h>
#include <string.h>

/* What was met with the answer that it must have. */
static struct met {
    bool shortest, longest, exact, lacking, data_over, effect_over, no_kind, no_exit;
} met;

static uint64_t number; /* of the call */

static bool same(const adk_answer *a, const adk_answer *b)
{
    return a->r3 == b->r3 && a->r4 == b->r4 && a->r5 == b->r5;
}

/* Says what was not established, and ends. */
static void fail(const char *what, const char *differs, const struct fields *f, const adk_answer *lib,
                 const adk_answer *mdl)
{
    const adk_record *r = &f->record;
    const struct {
        const char *who;
        const adk_answer *answer;
    } answers[] = { { "library", lib }, { "model", mdl }, { "request", &f->answer } };
    printf("failed records %s\n  call %" PRIu64 " (%s) differs in %s\n", what, number, f->what, differs);
    printf("  kind 0x%" PRIX64 ", flags 0x%" PRIX64 ", guest 0x%" PRIX64 ", number 0x%" PRIX64, r->kind, r->flags,
           r->guest, r->number);
    printf(", exit reason 0x%" PRIX64 "\n  data: %zu bytes\n  effect: %zu bytes\n  room: %zu bytes\n", r->exit_reason,
           r->data_len, r->effect_len, f->room);
    for (size_t i = 0; i < COUNT(answers); i++)
        printf("  %s answers %" PRIu64 " %" PRIu64 " %" PRIu64 "\n", answers[i].who, answers[i].answer->r3,
               answers[i].answer->r4, answers[i].answer->r5);
    exit(1);
}

static bool reads_back(const adk_record *r, size_t len)
{
    const uint8_t *bytes = written_by(LIBRARY);
    adk_record read;
    if (adk_read_record(&read, bytes, len - 1) != 0 || adk_read_record(&read, bytes, len) != len)
        return false;
    return read.kind == r->kind && read.flags == r->flags && read.guest == r->guest && read.number == r->number &&
           read.exit_reason == r->exit_reason && read.data_len == r->data_len && read.effect_len == r->effect_len &&
           memcmp(read.data, r->data, r->data_len) == 0 && memcmp(read.effect, r->effect, r->effect_len) == 0;
}

static void note(const struct fields *f, const adk_answer *a)
{
    const adk_record *r = &f->record;
    size_t len = adk_record_length(r);
    bool good = a->r3 == ADK_OK, none = a->r3 == ADK_BAD_RECORD;
    met.shortest |= good && len == ADK_RECORD_HEAD;
    met.longest |= good && len == ADK_LONGEST_RECORD;
    met.exact |= good && len == f->room;
    met.lacking |= a->r3 == ADK_LENT_TOO_SHORT && len == f->room + 1;
    met.data_over |= none && r->data_len == ADK_RECORD_PIECE_MAX + 1;
    met.effect_over |= none && r->effect_len == ADK_RECORD_PIECE_MAX + 1;
    met.no_kind |= none && r->kind == 0;
    met.no_exit |= none && r->exit_reason == ADK_RECORD_EXIT_MAX + 1;
}

/* What was written is made as it was, for the next call. */
static void compare(const struct fields *f)
{
    adk_answer lib = write_fields(adk_write_record, LIBRARY, f), mdl = write_fields(mdl_write_record, OTHER, f);
    size_t n = lib.r3 == ADK_OK && lib.r4 <= f->room ? lib.r4 : 0;
    char answers[64];
    number++;
    snprintf(answers, sizeof answers, "answer %" PRIu64 " -> %" PRIu64, lib.r3, mdl.r3);
    if (!same(&lib, &mdl))
        fail("agreement", answers, f, &lib, &mdl);
    if (memcmp(written_by(LIBRARY), written_by(OTHER), f->room) != 0)
        fail("agreement", "lent bytes", f, &lib, &mdl);
    if (!same(&lib, &f->answer))
        fail("order", "the answer", f, &lib, &mdl);
    if (!rest_is_kept(LIBRARY, n) || !rest_is_kept(OTHER, n))
        fail("unchanged", "bytes that stay", f, &lib, &mdl);
    if (lib.r3 == ADK_OK && !reads_back(&f->record, n))
        fail("read", "what is read", f, &lib, &mdl);
    note(f, &lib);
    forget_written(n);
}

static bool all_met(void)
{
    bool all = met.shortest && met.longest && met.exact && met.lacking && met.data_over && met.effect_over &&
               met.no_kind && met.no_exit;
    if (!all)
        printf("  records of 31 %d and of 262,173 bytes %d, exact room %d, a byte short %d, refused for data %d and "
               "effect %d of 131,072 bytes, for kind 0 %d, for exit reason 4,096 %d\n",
               met.shortest, met.longest, met.exact, met.lacking, met.data_over, met.effect_over, met.no_kind,
               met.no_exit);
    return all;
}

int main(int argc, char **argv)
{
    uint64_t calls = 50000;
    if (!begin_run(argc, argv, "records", "each call at an edge", &calls))
        return 2;
    make_fields();
    each_fields(true, compare);
    some_fields(calls, compare);
    bool all = all_met();
    printf("passed records agreement\npassed records order\npassed records unchanged\npassed records read\n%s records "
           "coverage\n", all ? "passed" : "failed");
    return all ? 0 : 1;
}
