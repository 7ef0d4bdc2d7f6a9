/*
 * tallies.c: makes long mixes of calls through the tally of the library and of the model, and compares every answer,
 * every lent byte and every summary record.
 *
 *     make target/bench/tallies
 *     tallies [--calls N] [--seed S | --seed fresh]
 *
 * For each size of the store, first each number of records with each kind on good and bad stores, then N calls of a
 * night, between which some records are made to stand where a counter ends, and a fifth as many of a night by calls.
 * Lines 'passed tallies NAME' or 'failed tallies NAME' say what was established:
 *
 *     agreement   answers, records and all lent bytes are the same
 *     order       another number of records is 18, then another kind 19, then the answer is the call's own
 *     history     in a night whose store and records only the tally writes, from a fresh store and records of new vCPUs
 *                 on, the records are after each call what the history of calls gives (history.h)
 *     unchanged   no record changed but by an accepted call or by 6, 7 or 8, no refusal changed another lent byte, and
 *                 nothing beside what was lent changed
 *     coverage    each call gave each of its answers; each counter went up, reached 2^32 - 1 and stayed there; each exit
 *                 reason was kept; each wrong number of records was refused with stores of both sizes and of others;
 *                 and all that SCENE_NAME lists was met, at both sizes
 *
 * The run ends at the first difference.
 */
#include "chance.h"
#include "history.h"
#include "model.h"
#include "numbered.h"
#include "summaries.h"
#include "tell.h"

#include <inttypes.h>
#include <stdio.h>
#include <stdlib.h>
#include <string.h>

static const struct l0 library = L0_LIBRARY;

/* Beside both right numbers, and where only some of the last bits are one's. One of them is right for each store. */
static const size_t RECORD_COUNTS[] = {
    0, 1, 15, 16, 17, 32, 63, 64, 65, 128, 256 + 16, 256 + 64, 65536 + 16, 65536 + 64
};
enum { COUNTS = COUNT(RECORD_COUNTS) };

/* The store's length, as it decides on the number of records. */
enum length { SMALL_LENGTH, LARGE_LENGTH, NO_LENGTH, LENGTHS };

static const char *const LENGTH_NAME[LENGTHS] = { "a small store", "a large store", "a store of another length" };

enum scene {
    RUN_MIXED,
    RUN_EFFECT_ALONE,
    RUN_LONGER,
    RUN_BIT_0,
    RUN_BIT_0_REFUSED,
    RUN_OTHER_EXIT,
    RUN_REFUSED_EXIT,
    EFFECT_REFUSED,
    SET_MIXED,
    SET_NOPS,
    SET_TWICE,
    WIDE_SET,
    WIDE_GET_REFUSED,
    WIDE_SET_REFUSED,
    TAKEN_OVER,
    GIVEN_BACK,
    CREATED_OVER,
    CREATED_AGAIN,
    ONE_DROPPED,
    NONE_DROPPED,
    ALL_DROPPED,
    FIRST_SLOT,
    LAST_SLOT,
    SCENES
};

/* A record that is not a new one's shows whether it stays. */
static const char *const SCENE_NAME[SCENES] = {
    [RUN_MIXED] = "a run with elements and NOPs in its input",
    [RUN_EFFECT_ALONE] = "a run with elements in its effect and none in its input",
    [RUN_LONGER] = "a run that is lent more of its input than is registered",
    [RUN_BIT_0] = "an accepted run with flag bit 0",
    [RUN_BIT_0_REFUSED] = "a run with flag bit 0 refused for its input",
    [RUN_OTHER_EXIT] = "a run with another exit reason than that before",
    [RUN_REFUSED_EXIT] = "a run refused for its input that was told a known exit reason",
    [EFFECT_REFUSED] = "a run refused for its effect",
    [SET_MIXED] = "a set of elements and NOPs",
    [SET_NOPS] = "a set of NOPs alone",
    [SET_TWICE] = "a set of one element twice",
    [WIDE_SET] = "a guest-wide set of elements that names a vCPU",
    [WIDE_GET_REFUSED] = "a guest-wide get that names a vCPU, refused for an element",
    [WIDE_SET_REFUSED] = "a guest-wide set that names a vCPU, refused for an element",
    [TAKEN_OVER] = "a vCPU taken",
    [GIVEN_BACK] = "a vCPU with values given back",
    [CREATED_OVER] = "a vCPU created in a slot whose record is not a new one's",
    [CREATED_AGAIN] = "a vCPU created again in the slot that it had",
    [ONE_DROPPED] = "a guest deleted with two vCPUs or more, beside others' and free slots' records",
    [NONE_DROPPED] = "a guest deleted that has no vCPU",
    [ALL_DROPPED] = "all guests deleted with two vCPUs or more, beside free slots' records",
    [FIRST_SLOT] = "a call counted in the first slot",
    [LAST_SLOT] = "a call counted in the last slot",
};

/* What was met on stores of one size. */
static struct met {
    unsigned answers[KIND_COUNT];
    bool refused[2][2];       /* 18 and 19, over a good store and over a bad one */
    bool counts[LENGTHS][COUNTS];
    bool up[EXIT_REASON], reached[EXIT_REASON], full[EXIT_REASON];
    bool past;                /* elements that were more than there was room for */
    bool exits[EXIT_COUNT];
    bool scenes[SCENES];
    unsigned dropped[SLOTS_MOST]; /* the word that a slot had when its vCPU was dropped last */
} met[SIZES];

static struct run {
    uint64_t number;
    enum size size;
} run;

/* ---- One call through both tallies ---- */

static void tell_record(const char *who, enum side s, size_t slot)
{
    const adk_summary *r = summaries_of(s) + slot;
    printf("  %s: runs %" PRIu32 ", elements %" PRIu32 ", refusals %" PRIu32 ", exit reason %" PRIu32 "\n", who, r->runs,
           r->elements, r->refusals, r->exit_reason);
}

/* Says what was not established, and ends. slot: whose record differs, or NULL. */
static _Noreturn void fail(const char *what, const char *differs, const struct call *c, size_t count,
                           const adk_found *lib, const adk_found *mdl, const size_t *slot)
{
    printf("failed tallies %s\n  call %" PRIu64 " of the %s store differs in %s\n  ", what, run.number,
           LAYOUTS[run.size].name, differs);
    print_call(stdout, c);
    printf("  store of %zu bytes, %zu records\n", c->len[STORE], count);
    print_answer(stdout, "library", c, lib);
    print_answer(stdout, "model", c, mdl);
    if (slot != NULL) {
        printf("  the record of slot %zu\n", *slot);
        tell_record("before", BEFORE, *slot);
        tell_record("library", LIBRARY, *slot);
        tell_record("model", OTHER, *slot);
    }
    exit(1);
}

/* Whether a call with this answer may write a record. */
static bool may_count(const adk_found *f)
{
    return f->r3 == ADK_OK || (f->r3 >= ADK_INVALID_ELEMENT_ID && f->r3 <= ADK_INVALID_ELEMENT_VALUE);
}

/* The call on both sides, which must agree. What they left is not settled yet. */
static adk_found compare(const struct call *c, const struct numbered *n, size_t count)
{
    adk_found lib = make_tallied(adk_tally, n, summaries_of(LIBRARY), count, memory[LIBRARY]);
    adk_found mdl = make_tallied(mdl_tally, n, summaries_of(OTHER), count, memory[OTHER]);
    char answers[64];
    size_t slot;
    enum number number;
    snprintf(answers, sizeof answers, "answer %" PRIu64 " -> %" PRIu64, lib.r3, mdl.r3);
    if (!same_answer(&lib, &mdl))
        fail("agreement", answers, c, count, &lib, &mdl, NULL);
    if (summaries_differ(LIBRARY, OTHER, count, &slot, &number))
        fail("agreement", NUMBER_NAME[number], c, count, &lib, &mdl, &slot);
    if (!numbered_holds(n, c, &lib))
        fail("agreement", "lent bytes", c, count, &lib, &mdl, NULL);
    if (!may_count(&lib) && summaries_differ(LIBRARY, BEFORE, count, &slot, &number))
        fail("unchanged", NUMBER_NAME[number], c, count, &lib, &mdl, &slot);
    if (!beside_intact(LIBRARY, count) || !beside_intact(OTHER, count))
        fail("unchanged", "records that were not lent", c, count, &lib, &mdl, NULL);
    return lib;
}

/* What was accepted is what the next call meets; so with the records. */
static void settle(const struct call *c, const adk_found *f, size_t count)
{
    for (int p = 0; f->r3 == ADK_OK && p < PIECES; p++)
        if (c->kind->use[p] == WRITTEN)
            memcpy(memory[BEFORE][p], memory[LIBRARY][p], extent(c, p));
    settle_summaries(count);
}

/* ---- What was met ---- */

static void meet(enum scene s, bool seen)
{
    met[run.size].scenes[s] |= seen;
}

/* A counter to which something was added. */
static void note_counter(enum number n, const adk_summary *before, const adk_summary *after, uint64_t added)
{
    struct met *m = &met[run.size];
    uint32_t was = number_in(before, n), is = number_in(after, n);
    if (added == 0)
        return;
    m->up[n] |= is > was && is < UINT32_MAX;
    m->reached[n] |= was < UINT32_MAX && was + added == UINT32_MAX;
    m->full[n] |= was == UINT32_MAX && is == UINT32_MAX;
    m->past |= was < UINT32_MAX && was + added > UINT32_MAX;
}

static bool is_exit(uint64_t reason)
{
    bool is = false;
    for (size_t i = 0; i < EXIT_COUNT; i++)
        is |= EXITS[i] == reason;
    return is;
}

static void note_run(const struct call *c, const adk_found *f, unsigned slot)
{
    const adk_summary *before = &summaries_of(BEFORE)[slot], *after = &summaries_of(LIBRARY)[slot];
    bool bit_0 = (c->n[0] & ADK_RUN_EXTERNAL_INTERRUPT) != 0;
    meet(EFFECT_REFUSED, f->r3 == ADK_BAD_EFFECT);
    if (f->r3 != ADK_OK) {
        meet(RUN_BIT_0_REFUSED, may_count(f) && bit_0);
        meet(RUN_REFUSED_EXIT, may_count(f) && is_exit(c->n[3]) && before->exit_reason != c->n[3]);
        return;
    }
    struct content input = content_of(INPUT), effect = content_of(EFFECT);
    meet(RUN_MIXED, input.elements > 0 && input.nops > 0);
    meet(RUN_EFFECT_ALONE, input.elements == 0 && effect.elements > 0);
    meet(RUN_LONGER, input.elements > 0 && c->len[INPUT] > registered_size(slot, ADK_GSID_RUN_INPUT));
    meet(RUN_BIT_0, bit_0);
    meet(RUN_OTHER_EXIT, is_exit(before->exit_reason) && before->exit_reason != c->n[3]);
    note_counter(RUNS, before, after, 1);
    note_counter(ELEMENTS_SET, before, after, input.elements);
    for (size_t i = 0; i < EXIT_COUNT; i++)
        met[run.size].exits[i] |= after->exit_reason == EXITS[i];
}

/* An accepted get or set state of a vCPU that is there, with a hand-over or without. */
static void note_state(const struct call *c, unsigned slot)
{
    const adk_summary *before = &summaries_of(BEFORE)[slot];
    bool kept = !is_new(before);
    meet(TAKEN_OVER, c->kind->hand == TAKING && kept);
    meet(GIVEN_BACK, c->kind->hand == GIVING && kept && read_form(memory[BEFORE][BUFFER]).present > 0);
    if (c->kind->access != W)
        return;
    struct content set = content_of(BUFFER);
    meet(WIDE_SET, c->kind->wide && set.elements > 0);
    if (c->kind->wide)
        return;
    meet(SET_MIXED, set.elements > 0 && set.nops > 0);
    meet(SET_NOPS, set.elements == 0 && set.nops > 0);
    meet(SET_TWICE, set.twice);
    note_counter(ELEMENTS_SET, before, &summaries_of(LIBRARY)[slot], set.elements);
}

/* A call on a vCPU that is there; a guest-wide one that names it. */
static void note_vcpu(const struct call *c, const adk_found *f, unsigned slot)
{
    bool refused = may_count(f) && f->r3 != ADK_OK;
    meet(WIDE_GET_REFUSED, c->kind->wide && refused && c->kind->access == R);
    meet(WIDE_SET_REFUSED, c->kind->wide && refused && c->kind->access == W);
    if (refused && !c->kind->wide)
        note_counter(REFUSALS, &summaries_of(BEFORE)[slot], &summaries_of(LIBRARY)[slot], 1);
    if (is_run(c->kind))
        note_run(c, f, slot);
    else if (f->r3 == ADK_OK)
        note_state(c, slot);
    bool changed = !same_summary(&summaries_of(BEFORE)[slot], &summaries_of(LIBRARY)[slot]);
    meet(FIRST_SLOT, changed && slot == 0);
    meet(LAST_SLOT, changed && slot == layout->slots - 1);
}

/* An accepted create or delete: slots whose word is another now, by those of both stores. */
static void note_words(const struct call *c)
{
    const uint8_t *before = memory[BEFORE][STORE], *after = memory[LIBRARY][STORE];
    struct met *m = &met[run.size];
    unsigned dropped = 0, kept_dropped = 0, others = 0, unused = 0;
    for (unsigned slot = 0; slot < layout->slots; slot++) {
        unsigned was = word_in(before, slot), is = word_in(after, slot);
        bool kept = !is_new(&summaries_of(BEFORE)[slot]);
        meet(CREATED_OVER, was == 0 && is != 0 && kept);
        meet(CREATED_AGAIN, was == 0 && is != 0 && m->dropped[slot] == is);
        if (was != 0 && is == 0)
            m->dropped[slot] = was;
        dropped += was != 0 && is == 0;
        kept_dropped += was != 0 && is == 0 && kept;
        others += is != 0 && kept;
        unused += was == 0 && kept;
    }
    if (!is_delete(c->kind))
        return;
    bool all = (c->n[0] & ADK_DELETE_ALL) != 0;
    meet(ONE_DROPPED, !all && kept_dropped > 1 && others > 0 && unused > 0);
    meet(NONE_DROPPED, !all && dropped == 0);
    meet(ALL_DROPPED, all && kept_dropped > 1 && unused > 0);
}

/* In a night of the large store what is met on the small ones does not count. */
static void note(const struct call *c, const adk_found *f)
{
    bool on_vcpu = c->kind->access != 0 || c->kind->hand != NO_HAND || is_run(c->kind);
    if (layout != &LAYOUTS[run.size])
        return;
    met[run.size].answers[c->kind - KINDS] |= A(f->r3);
    if (on_vcpu && c->len[STORE] == layout->size && slot_of(c) < layout->slots)
        note_vcpu(c, f, slot_of(c));
    if (!on_vcpu && f->r3 == ADK_OK)
        note_words(c);
}

static enum length length_of(const struct numbered *n)
{
    return n->len[STORE] == ADK_STORE_SIZE ? SMALL_LENGTH : n->len[STORE] == ADK_LARGE_STORE_SIZE ? LARGE_LENGTH
                                                                                                   : NO_LENGTH;
}

/* ---- What the request puts first ---- */

/* A call with another number of records, another kind, or both, or on a bad store: the answer is told. */
static void compare_refused(const struct call *c, const struct numbered *n, size_t i, uint64_t answer, bool bad_store)
{
    const adk_found wanted = { .r3 = answer };
    size_t count = RECORD_COUNTS[i];
    run.number++;
    adk_found lib = compare(c, n, count);
    if (!same_answer(&lib, &wanted))
        fail("order", "answer", c, count, &lib, &wanted, NULL);
    if (answer == ADK_WRONG_RECORD_COUNT)
        met[run.size].counts[length_of(n)][i] = true;
    if (answer != ADK_BAD_STORE)
        met[run.size].refused[answer == ADK_BAD_RECORD][bad_store] = true;
}

static uint64_t any_kind(unsigned i)
{
    return i < 8 ? i + 1 : NO_KINDS[i - 8];
}

/* Each number of records with each kind, on a store that is good, is ill formed, or lacks a byte. What is refused for
   nothing of these is left to the mix. */
static void compare_order(enum length length, bool ill)
{
    struct call c = { .kind = &KINDS[0] };
    uint8_t *s = memory[BEFORE][STORE];
    layout = &LAYOUTS[run.size];
    memset(s, 0, layout->size);
    put_live(s, layout->guests + 1, ill);
    share(STORE, 0, layout->size);
    c.len[STORE] = layout->size - (length == NO_LENGTH);
    for (unsigned kind = 0; kind < 8 + NO_KIND_COUNT; kind++)
        for (size_t i = 0; i < COUNTS; i++) {
            struct numbered n = by_number(&c, run.number);
            n.kind = any_kind(kind);
            uint64_t answer = RECORD_COUNTS[i] != records_asked(&n) ? ADK_WRONG_RECORD_COUNT
                              : kind >= 8                            ? ADK_BAD_RECORD
                                                                     : ADK_BAD_STORE;
            if (answer != ADK_BAD_STORE || ill || length == NO_LENGTH)
                compare_refused(&c, &n, i, answer, ill || length == NO_LENGTH);
        }
}

/* ---- A mix of calls ---- */

/* Makes a number of a record what shows how it is counted on, mostly in the slot that the call names. */
static void touch_record(const struct call *c)
{
    unsigned slot = slot_of(c) < layout->slots ? slot_of(c) : below(layout->slots);
    enum number n = below(NUMBERS_OF_RECORD);
    uint32_t value = UINT32_MAX - below(percent(50) ? 3 : 200);
    if (n == EXIT_REASON || percent(20))
        value = (uint32_t)any_number();
    put_in(&summaries_of(BEFORE)[slot], n, value);
    share_summary(slot);
}

/* What is none of the eight calls is made by the library alone. Whether it made a fresh store. */
static bool pass_by(const struct call *c)
{
    adk_found f = c->kind->make(&library, c, memory[LIBRARY]);
    for (int p = 0; p < PIECES; p++)
        if (c->kind->use[p] == WRITTEN) {
            memcpy(memory[BEFORE][p], memory[LIBRARY][p], extent(c, p));
            share(p, 0, extent(c, p));
        }
    return makes_fresh(c->kind) && f.r3 == ADK_OK;
}

static void compare_one(const struct call *c)
{
    struct numbered n = by_number(c, run.number);
    bool bad_store = adk_get_capabilities(memory[BEFORE][STORE], c->len[STORE], 0).r3 != ADK_OK;
    size_t asked = records_asked(&n), i = below(COUNTS);
    if (percent(10) && RECORD_COUNTS[i] != asked) {
        struct numbered other = n;
        other.kind = percent(30) ? any_kind(8 + below(NO_KIND_COUNT)) : n.kind;
        compare_refused(c, &other, i, ADK_WRONG_RECORD_COUNT, bad_store);
    }
    if (percent(20))
        touch_record(c);
    adk_found f = compare(c, &n, asked);
    note(c, &f);
    settle(c, &f, asked);
}

/* Records of new vCPUs go with a fresh store, mostly. */
static void compare_mix(uint64_t calls)
{
    begin_night((struct manner){ .large = run.size == LARGE });
    fill_summaries();
    for (uint64_t i = 1; i <= calls; i++) {
        struct call c = next_call(i);
        run.number++;
        if (record_kind(c.kind) != 0)
            compare_one(&c);
        else if (pass_by(&c) && percent(70))
            renew_summaries();
    }
}

/* ---- A history ---- */

/* After a call was settled: the first slot whose record is not what the history gives, or the number of slots. */
static size_t wrong_slot(void)
{
    const uint8_t *s = memory[BEFORE][STORE];
    size_t slot = 0;
    for (; slot < layout->slots; slot++) {
        const adk_summary *r = &summaries_of(BEFORE)[slot];
        unsigned w = word_in(s, (unsigned)slot);
        if (w == 0 ? !is_new(r) : !history_gives(guest_in(w), vcpu_in(w), r))
            break;
    }
    return slot;
}

/* A fresh store is the first call of such a night, and new records go with each. */
static void compare_history(uint64_t calls)
{
    begin_night((struct manner){ .large = run.size == LARGE, .opaque = true });
    for (uint64_t i = 1; i <= calls; i++) {
        struct call c = next_call(i);
        run.number++;
        if (record_kind(c.kind) == 0) {
            if (pass_by(&c)) {
                renew_summaries();
                begin_history();
            }
            continue;
        }
        struct numbered n = by_number(&c, run.number);
        adk_found f = compare(&c, &n, records_asked(&n));
        note_history(&c, &f);
        settle(&c, &f, records_asked(&n));
        size_t slot = wrong_slot();
        if (slot < layout->slots)
            fail("history", "what the history gives", &c, records_asked(&n), &f, &f, &slot);
    }
}

/* ---- The end of a run ---- */

static bool missed(const char *what, const char *which)
{
    printf("  never seen, on %s stores: %s%s\n", LAYOUTS[run.size].name, what, which);
    return false;
}

static bool answers_met(const struct met *m)
{
    bool all = true;
    for (size_t k = 0; k < KIND_COUNT; k++)
        if (record_kind(&KINDS[k]) != 0 && m->answers[k] != KINDS[k].answers) {
            printf("  %s gave the answers 0x%X, not 0x%X\n", KINDS[k].name, m->answers[k], KINDS[k].answers);
            all = false;
        }
    return all;
}

static bool counters_met(const struct met *m)
{
    bool all = m->past || missed("more elements than a counter has room for", "");
    for (enum number n = 0; n < EXIT_REASON; n++) {
        all = (m->up[n] || missed("more of the ", NUMBER_NAME[n])) && all;
        all = (m->reached[n] || missed("2^32 - 1 reached by the ", NUMBER_NAME[n])) && all;
        all = (m->full[n] || missed("2^32 - 1 kept by the ", NUMBER_NAME[n])) && all;
    }
    for (size_t i = 0; i < EXIT_COUNT; i++)
        all = (m->exits[i] || missed("kept as the last exit reason: ", adk_exit_name(EXITS[i]))) && all;
    return all;
}

/* The size of the night, and another length; which number is right for one is known. */
static bool counts_met(const struct met *m)
{
    static const size_t right[LENGTHS] = { ADK_SLOTS, ADK_LARGE_SLOTS, ADK_SLOTS };
    bool all = true;
    for (enum length l = 0; l < LENGTHS; l++)
        for (size_t i = 0; i < COUNTS; i++)
            if ((l == NO_LENGTH || l == (enum length)run.size) && RECORD_COUNTS[i] != right[l] && !m->counts[l][i]) {
                printf("  never refused: %zu records with %s\n", RECORD_COUNTS[i], LENGTH_NAME[l]);
                all = false;
            }
    for (int bad = 0; bad < 2; bad++) {
        all = (m->refused[0][bad] || missed("18 over ", bad ? "a bad store" : "a good one")) && all;
        all = (m->refused[1][bad] || missed("19 over ", bad ? "a bad store" : "a good one")) && all;
    }
    return all;
}

static bool all_met(void)
{
    const struct met *m = &met[run.size];
    bool all = answers_met(m);
    all = counters_met(m) && all;
    all = counts_met(m) && all;
    for (enum scene s = 0; s < SCENES; s++)
        all = (m->scenes[s] || missed("", SCENE_NAME[s])) && all;
    return all;
}

int main(int argc, char **argv)
{
    uint64_t calls = 300000;
    bool all = true;
    if (!begin_run(argc, argv, "tallies", "both sizes, each number of records with each kind", &calls))
        return 2;
    make_memory();
    fill_summaries();
    for (run.size = 0; run.size < SIZES; run.size++) {
        compare_order((enum length)run.size, false);
        compare_order((enum length)run.size, true);
        compare_order(NO_LENGTH, false);
        compare_mix(calls);
        compare_history(calls / 5);
        all = all_met() && all;
    }
    printf("passed tallies agreement\npassed tallies order\npassed tallies history\npassed tallies unchanged\n"
           "%s tallies coverage\n", all ? "passed" : "failed");
    free_memory();
    return all ? 0 : 1;
}
