/*
 * judged.c: judges outputs of runs, as a vendor may give them back, by the library and by the model, and compares every
 * answer and every lent byte.
 *
 *     make target/bench/judged
 *     judged [--calls N] [--seed S | --seed fresh]
 *
 * For each size of the store, outputs of each exit and of vCPUs of both lists with one thing special in each, then N by
 * chance. Lines 'passed judged NAME' or 'failed judged NAME' say what was established:
 *
 *     agreement   answers are the same
 *     request     each output with one thing special has the answer that the request says: what a run wrote is
 *                 accepted, in any order and with NOPs, and every single damage is refused with its place
 *     unchanged   no lent byte changed, and none beside them
 *     coverage    each thing of SCENE_NAME was met with each exit that has the elements for it, and by chance each exit
 *                 gave each answer
 *
 * The run ends at the first difference.
 */
#include "chance.h"
#include "model.h"
#include "output.h"

#include <inttypes.h>
#include <stdio.h>
#include <stdlib.h>

/* What was met on stores of one size, with known exits: scenes, and answers by chance. */
static struct met {
    bool scenes[EXIT_COUNT][SCENES];
    bool answers[EXIT_COUNT][ANSWERS];
} met[SIZES];

static struct run {
    uint64_t number;
    enum size size;
} run;

static void tell(const char *who, const adk_found *a)
{
    printf("  %s: r3 %" PRIu64 ", r4 %" PRIu64 " (0x%" PRIX64 "), r5 %" PRIu64 "\n", who, a->r3, a->r4, a->r4, a->r5);
}

/* Says what was not established, and ends. */
static void fail(const char *what, const char *differs, const struct output *o, const adk_found *lib, const char *who,
                 const adk_found *other)
{
    printf("failed judged %s\n  output %" PRIu64 " of the %s store differs in %s\n", what, run.number,
           LAYOUTS[run.size].name, differs);
    printf("  %s: guest 0x%" PRIX64 ", vCPU 0x%" PRIX64 ", exit 0x%03" PRIX64 "\n", SCENE_NAME[o->scene], o->guest,
           o->vcpu, o->exit_reason);
    printf("  store of %zu bytes, output of %zu bytes:", o->len[STORE], o->len[BUFFER]);
    for (size_t i = 0; i < o->len[BUFFER] && i < 160; i++)
        printf("%s%02X", i % 4 == 0 ? " " : "", memory[BEFORE][BUFFER][i]);
    printf("\n");
    tell("library", lib);
    tell(who, other);
    exit(1);
}

static void note(const struct output *o, const adk_found *a)
{
    for (size_t i = 0; i < EXIT_COUNT; i++)
        if (EXITS[i] == o->exit_reason && o->scene == CHANCE)
            met[run.size].answers[i][a->r3] = true;
        else if (EXITS[i] == o->exit_reason)
            met[run.size].scenes[i][o->scene] = true;
}

static adk_found compare(const struct output *o)
{
    adk_found lib = plain(judge_as_lent(adk_judge_output, LIBRARY, o));
    adk_found mdl = plain(judge_as_lent(mdl_judge_output, OTHER, o));
    char answers[64];
    const char *changed = changed_piece(o, run.number++ % 64 == 0);
    snprintf(answers, sizeof answers, "answer %" PRIu64 " -> %" PRIu64, lib.r3, mdl.r3);
    if (!same_answer(&lib, &mdl) || lib.r3 >= ANSWERS)
        fail("agreement", answers, o, &lib, "model", &mdl);
    if (changed != NULL)
        fail("unchanged", changed, o, &lib, "model", &mdl);
    note(o, &lib);
    return lib;
}

/* An output with one thing special: the request says its answer. */
static void compare_special(const struct output *o)
{
    adk_found lib = compare(o), request = plain(o->answer);
    if (!same_answer(&lib, &request))
        fail("request", "answer", o, &lib, "request", &request);
}

static bool missed(size_t exit, const char *what, int answer)
{
    printf("  never seen, on %s stores with exit 0x%03" PRIX64 ": %s", LAYOUTS[run.size].name, EXITS[exit], what);
    if (answer >= 0)
        printf(" %d", answer);
    printf("\n");
    return false;
}

/* A value and a missing ID are told only of exits with elements. */
static bool exit_met(size_t exit)
{
    static const int can[] = { ADK_OK, ADK_BAD_STORE, ADK_BAD_PARAMETER, ADK_BAD_VCPU, ADK_WRONG_OWNER, ADK_BAD_LENGTH,
                               ADK_INVALID_ELEMENT_ID, ADK_INVALID_ELEMENT_SIZE, ADK_INVALID_ELEMENT_VALUE,
                               ADK_MISSING_ELEMENT };
    const struct met *m = &met[run.size];
    unsigned elements = exit_elements(EXITS[exit]);
    bool all = true;
    for (enum scene s = 0; s < CHANCE; s++)
        if (elements >= elements_needed(s) && s != REFUSED_BEFORE)
            all = (m->scenes[exit][s] || missed(exit, SCENE_NAME[s], -1)) && all;
    for (size_t i = 0; i < COUNT(can); i++) {
        bool needs_element = can[i] == ADK_INVALID_ELEMENT_VALUE || can[i] == ADK_MISSING_ELEMENT;
        if (elements > 0 || !needs_element)
            all = (m->answers[exit][can[i]] || missed(exit, "by chance, answer", can[i])) && all;
    }
    return all;
}

int main(int argc, char **argv)
{
    uint64_t outputs = 300000;
    bool all = true;
    if (!begin_run(argc, argv, "judged", "both sizes, each exit with one thing special", &outputs))
        return 2;
    make_memory();
    for (run.size = 0; run.size < SIZES; run.size++) {
        if (!begin_outputs(run.size))
            return 2;
        each_output(true, compare_special);
        for (uint64_t i = 0; i < outputs; i++) {
            struct output o = any_output();
            compare(&o);
        }
        for (size_t exit = 0; exit < EXIT_COUNT; exit++)
            all = exit_met(exit) && all;
    }
    printf("passed judged agreement\npassed judged request\npassed judged unchanged\n%s judged coverage\n",
           all ? "passed" : "failed");
    free_memory();
    return all ? 0 : 1;
}
