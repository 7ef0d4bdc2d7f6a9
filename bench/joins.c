/*
 * joins.c: joins pairs of buffers by the library and by the model, and compares every answer and every lent byte.
 *
 *     make target/bench/joins
 *     joins [--calls N] [--seed S | --seed fresh]
 *
 * Each buffer at an edge is joined with each, and then N pairs by chance. Lines 'passed joins NAME' or 'failed joins
 * NAME' say what was established:
 *
 *     agreement   answers and results are the same, and no buffer changed
 *     order       each pair at an edge has the answer that the request puts first
 *     unchanged   a refusal changed no byte of the result, success none behind the joined buffer, and no byte beside
 *                 what was lent changed
 *     coverage    each answer was given, and success and refusal on both sides of each edge
 *
 * The run ends at the first difference.
 */
#include "chance.h"
#include "model.h"
#include "pairs.h"

#include <inttypes.h>
#include <stdio.h>
#include <stdlib.h>
#include <string.h>

enum { ANSWERS = 13 };

/* What was met: answers, and lengths at the edges with the answer that they must have. */
static struct met {
    uint64_t answers[ANSWERS];
    bool longest, over, exact, lacking, longer, dropped;
} met;

static uint64_t number; /* of the pair */

static bool same(const adk_answer *a, const adk_answer *b)
{
    return a->r3 == b->r3 && a->r4 == b->r4 && a->r5 == b->r5;
}

static void tell(const char *who, const adk_answer *a)
{
    printf("  %s: r3 %" PRIu64 ", r4 %" PRIu64 ", r5 %" PRIu64 "\n", who, a->r3, a->r4, a->r5);
}

/* Says what was not established, and ends. */
static void fail(const char *what, const char *differs, const struct pair *p, const adk_answer *lib, const char *who,
                 const adk_answer *other)
{
    printf("failed joins %s\n  pair %" PRIu64 " differs in %s\n", what, number, differs);
    printf("  first: %s, %zu bytes\n  second: %s, %zu bytes\n  result: %zu bytes\n", p->first, p->len[FIRST],
           p->second, p->len[SECOND], p->len[RESULT]);
    tell("library", lib);
    tell(who, other);
    exit(1);
}

/* The first bytes of the result that may have changed. */
static size_t written(const adk_answer *a)
{
    return a->r3 == ADK_OK ? a->r4 : 0;
}

/* Whether all other lent bytes are as they were. */
static bool kept(const struct pair *p, const adk_answer *a)
{
    size_t n = written(a);
    return same_bytes(FIRST, LIBRARY, BEFORE, p->len[FIRST]) && same_bytes(SECOND, LIBRARY, BEFORE, p->len[SECOND]) &&
           memcmp(memory[LIBRARY][RESULT] + n, memory[BEFORE][RESULT] + n, p->len[RESULT] - n) == 0;
}

static void note(const struct pair *p, const adk_answer *a)
{
    bool good = a->r3 == ADK_OK;
    met.answers[a->r3]++;
    met.longest |= good && a->r4 == ADK_BUFFER_MAX;
    met.over |= a->r3 == ADK_BAD_LENGTH && p->joined == ADK_BUFFER_MAX + 1;
    met.exact |= good && a->r4 == p->len[RESULT];
    met.lacking |= a->r3 == ADK_LENT_TOO_SHORT && p->joined == p->len[RESULT] + 1;
    met.longer |= good && p->len[RESULT] > ADK_BUFFER_MAX;
    met.dropped |= good && p->len[FIRST] == ADK_BUFFER_MAX && p->len[SECOND] == ADK_BUFFER_MAX;
}

/* What was written is made as it was, for the next pair. */
static adk_answer compare(const struct pair *p)
{
    adk_answer lib = join_pair(adk_join, LIBRARY, p), mdl = join_pair(mdl_join, OTHER, p);
    char answers[64];
    number++;
    snprintf(answers, sizeof answers, "answer %" PRIu64 " -> %" PRIu64, lib.r3, mdl.r3);
    if (!same(&lib, &mdl) || lib.r3 >= ANSWERS)
        fail("agreement", answers, p, &lib, "model", &mdl);
    if (!same_pieces(p))
        fail("agreement", "lent bytes", p, &lib, "model", &mdl);
    if (written(&lib) > p->len[RESULT] || !kept(p, &lib) || !only_lent_changed(p))
        fail("unchanged", "bytes that stay", p, &lib, "model", &mdl);
    note(p, &lib);
    share(RESULT, 0, written(&lib));
    return lib;
}

/* A pair at an edge: the request says its answer. */
static void compare_edge(const struct pair *p)
{
    adk_answer lib = compare(p);
    if (!same(&lib, &p->answer))
        fail("order", "answer", p, &lib, "request", &p->answer);
}

static bool all_met(void)
{
    static const int can[] = { ADK_OK, ADK_BAD_LENGTH, ADK_INVALID_ELEMENT_SIZE, ADK_LENT_TOO_SHORT };
    bool all = met.longest && met.over && met.exact && met.lacking && met.longer && met.dropped;
    if (!all)
        printf("  joined 65,536 %d and 65,537 %d bytes, exact result %d, a byte short %d, over 65,536 %d, two of 65,536 "
               "bytes joined %d\n", met.longest, met.over, met.exact, met.lacking, met.longer, met.dropped);
    for (size_t i = 0; i < COUNT(can); i++)
        if (met.answers[can[i]] == 0) {
            printf("  never answered %d\n", can[i]);
            all = false;
        }
    return all;
}

int main(int argc, char **argv)
{
    uint64_t pairs = 200000;
    if (!begin_run(argc, argv, "joins", "each pair at an edge", &pairs))
        return 2;
    make_memory();
    each_pair(true, compare_edge);
    for (uint64_t i = 0; i < pairs; i++) {
        struct pair p = any_pair();
        compare(&p);
    }
    bool all = all_met();
    printf("passed joins agreement\npassed joins order\npassed joins unchanged\n%s joins coverage\n",
           all ? "passed" : "failed");
    free_memory();
    return all ? 0 : 1;
}
