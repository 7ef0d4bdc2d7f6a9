/*
 * compare.c: makes long mixes of calls on the library and on the model, and compares every answer and every lent byte.
 *
 *     make target/bench/compare
 *     compare [--large] [--calls N] [--seed S | --seed fresh] [--quiet]
 *
 * With --large it is a night of the large store, in which small ones are converted. A seed fixes the whole run; --calls
 * only says where it ends. Lines 'passed compare SIZE NAME' or 'failed compare SIZE NAME' say what was established:
 *
 *     agreement   r3, r4, r5, the place of a value found, and all lent bytes are the same
 *     unchanged   a refusal changed no lent byte, and no call changed what it may only read
 *     guards      no byte beside lent memory changed
 *     order       each set of faults of a run, of get and set state, of both hand-overs and of a conversion gave the
 *                 answer of the one that the scope puts first; once with an unlisted ID, once with one that a POWER9
 *                 guest lacks
 *     numbered    a fourth of the calls, and each of those sets, made by their number too: by library and model the
 *                 answer and all bytes are the same, and they are those of the call itself; a kind that is none of the
 *                 eight is 19, whatever the store, and changes nothing
 *     coverage    each call gave each answer that it can give, 2 with each unsupported bit as r4, and no other; each
 *                 element was read and set where its access permits and refused where not, in a run's input and effect
 *                 too, for POWER9 guests and for others; what came after POWER9 was refused alone, with another size
 *                 and as the last of many, and taken with each other sort of PVR; PVRs changed; each edge of a value
 *                 rule, of a buffer's length and of a registered size was met; each exit was accepted, and numbers
 *                 close to one were refused; the clock was asked for each pair of a TB offset and a timebase at their
 *                 edges; with each bitmap agreed, each and one that is not offered was asked for, while guests lived
 *                 and while none did; each element was present and absent in a form that was taken and in one that was
 *                 given back, forms with just one wrong part were refused for each part, and a taken vCPU was met by
 *                 each call that could mistake it; the last guest and the last slot were given and used by each call,
 *                 and then there was none; stores with just one thing ill formed were refused for each, and lengths
 *                 beside both sizes and between them; each call gave each of its answers by its number too, and each
 *                 kind that is none of the eight was refused over good stores and over bad ones
 *     both        with --large: lists of calls gave the same answers and buffers on small stores and on their
 *                 conversions (both.h)
 *
 * The run ends at the first difference.
 */
#include "both.h"
#include "chance.h"
#include "lists.h"
#include "met.h"
#include "model.h"
#include "numbered.h"
#include "tell.h"

#include <inttypes.h>
#include <stdio.h>
#include <string.h>

static const struct l0 library = L0_LIBRARY, model = L0_MODEL;

/* The bitmaps that are offered. The number behind them stands for all others. */
enum { BITMAP_COUNT = 4 };

static const uint64_t BITMAPS[BITMAP_COUNT] = {
    0, ADK_CAP_POWER9, ADK_CAP_POWER10, ADK_CAP_POWER9 | ADK_CAP_POWER10
};
static const char *const BITMAP_NAME[BITMAP_COUNT + 1] = {
    "nothing", "POWER9", "POWER10", "POWER9 and POWER10", "what is not offered"
};

/* What is to happen around a vCPU that is handed over. */
enum scene {
    BACK_AS_TAKEN,
    BACK_TO_ANOTHER_GUEST,
    BYTES_BEHIND,
    CUT_BY_ONE,
    BACK_OVER_VALUES,
    CREATED_AGAIN,
    GUEST_DROPPED,
    ALL_DROPPED,
    WIDE_GET,
    WIDE_SET,
    BOTH_BITS,
    SCENES
};

static const char *const SCENE_NAME[SCENES] = {
    [BACK_AS_TAKEN] = "a vCPU given back with the form that was taken",
    [BACK_TO_ANOTHER_GUEST] = "a form given to another guest's vCPU of the same id",
    [BYTES_BEHIND] = "a form given back with bytes behind it",
    [CUT_BY_ONE] = "a form refused that lacks its last byte",
    [BACK_OVER_VALUES] = "a form with absent values given to a vCPU whose bytes are not zero",
    [CREATED_AGAIN] = "a taken vCPU created again, which exists",
    [GUEST_DROPPED] = "a guest deleted that has a taken vCPU",
    [ALL_DROPPED] = "all guests deleted, with a vCPU taken",
    [WIDE_GET] = "a guest-wide get that names a taken vCPU",
    [WIDE_SET] = "a guest-wide set that names a taken vCPU",
    [BOTH_BITS] = "bits 0 and 1 together",
};

/* ---- The comparison ---- */

/* How a call is made beside the call itself: by its number, or by a kind that is none of the eight. */
enum way { PLAIN, BY_NUMBER, BY_NO_KIND };

struct run {
    uint64_t seed, calls, number;
    enum size size;
    enum way way;
    uint64_t agreed; /* before the call */
    bool named_taken, guest_taken, any_taken; /* before it: the vCPU it names, one of the guest it names, any */
    bool over;                                /* before it: the vCPU it names had bytes that are not zero */
    enum list list;                           /* before it: that of the guest it names */
    bool quiet;
    uint64_t tally[KIND_COUNT][ANSWERS];
    unsigned numbered[KIND_COUNT];          /* the answers given by the call's number */
    bool no_kinds[NO_KIND_COUNT][2];        /* which were refused, over a good store and over a bad one */
    unsigned with_r4[KIND_COUNT][2];        /* the answers given with r4 0, and with another r4 */
    unsigned with_r5[KIND_COUNT];           /* those given with an r5 that is not 0 */
    uint64_t bad_bits[KIND_COUNT];          /* the bits told as r4 of answer 2 */
    uint32_t lengths[KIND_COUNT];           /* which of its lengths a buffer or an effect had that was judged */
    uint8_t used[LISTS][0x10000];           /* how an ID was used: read, set, or taken by a run */
    uint8_t refused[KIND_COUNT][LISTS][ROW_COUNT]; /* the uses for which an ID of the row was refused */
    struct lists lists;
    bool edges[EDGE_COUNT];      /* those that were judged as their row says */
    bool registered[EDGE_COUNT]; /* the same of sizes that a run met */
    bool lent[2][3];             /* of input and output: one byte short, as registered, one more */
    bool exits[EXIT_COUNT], no_exits[NO_EXIT_COUNT];
    bool clocks[OFFSET_COUNT][TIMEBASE_COUNT]; /* which pairs the clock was told for */
    bool bitmaps[BITMAP_COUNT][BITMAP_COUNT + 1][2]; /* which was agreed, which asked for, and whether a guest lived */
    bool handed[2][THREAD_ELEMENTS][2]; /* by call: which elements an accepted form had absent, and present */
    bool wrong[PARTS];                  /* the parts that were alone wrong in a form that was refused */
    bool zeros[17];                     /* the sizes of values that were alone wrong */
    bool scenes[SCENES];
    struct met_stores stores;
    struct taken {
        uint64_t guest;
        uint8_t form[ADK_FORM_MAX];
    } taken[ADK_VCPU_MAX + 1]; /* by vCPU id, what was taken last */
};

/* The lengths at which a call's judgement of them changes: of a guest state buffer, and of what is handed over. */
enum { LENGTHS_MOST = 12 };
static const struct lengths {
    size_t n, of[LENGTHS_MOST];
} BUFFER_LENGTHS = { 12, { 0, 1, 2, 3, 4, 5, 6, 7, 8, ADK_BUFFER_MAX - 1, ADK_BUFFER_MAX, ADK_BUFFER_MAX + 1 } },
  FORM_LENGTHS = { 6, { ADK_FORM_MIN - 1, ADK_FORM_MIN, ADK_FORM_MAX - 1, ADK_FORM_MAX, ADK_BUFFER_MAX,
                        ADK_BUFFER_MAX + 1 } };

static const struct lengths *lengths_of(const struct kind *k)
{
    return k->hand != NO_HAND ? &FORM_LENGTHS : &BUFFER_LENGTHS;
}

static struct manner manner_of(const struct run *r)
{
    return (struct manner){ .large = r->size == LARGE };
}

/* One of four calls goes by its number, and so does each whose answer the scope tells; one by no kind. */
static enum way way_of(const struct run *r, const struct call *c, const adk_found *expected)
{
    if (record_kind(c->kind) == 0)
        return PLAIN;
    if (expected != NULL || r->number % 4 == 0)
        return BY_NUMBER;
    return r->number % 4 == 1 ? BY_NO_KIND : PLAIN;
}

/* Which of NO_KINDS it is then. */
static size_t no_kind_of(const struct run *r)
{
    return r->number / 4 % NO_KIND_COUNT;
}

/* What the call broke in this piece, or NULL. Where it holds, BEFORE is brought up to date. */
static const char *breaks(const struct call *c, enum piece p, bool accepted)
{
    bool may_write = accepted && c->kind->use[p] == WRITTEN;
    const char *what = broken(p, extent(c, p), may_write);
    if (what == NULL && may_write)
        memcpy(memory[BEFORE][p], memory[OTHER][p], extent(c, p));
    return what;
}

static int report(const struct run *r, const char *name, const struct call *c, const adk_found *lib,
                  const adk_found *mdl)
{
    printf("failed compare %s %s\n  call %" PRIu64 ": ", LAYOUTS[r->size].name, name, r->number);
    print_call(stdout, c);
    print_lent(&(struct telling){ stdout, c, lib, mdl, "model", 40, NULL }, layout->header);
    print_answer(stdout, "library", c, lib);
    print_answer(stdout, "model", c, mdl);
    print_differing(stdout, c, lib->r3 != 0, "model", 1);
    printf("  to repeat: compare%s --seed 0x%" PRIX64 " --calls %" PRIu64 "\n", r->size == LARGE ? " --large" : "",
           r->seed, r->number);
    return 1;
}

/* What a call did is noted for the coverage. The element is one that was set, or whose value was refused. */
static void note_edge(struct run *r, const uint8_t *element, bool good)
{
    unsigned id = (unsigned)adk_read_be(element, 2);
    for (size_t i = 0; i < EDGE_COUNT; i++) {
        const struct edge *e = &VALUE_EDGES[i];
        if (at_edge(e, id) && e->good == good && e->value == ruled_number(element + 4, id))
            r->edges[i] = true;
    }
}

static void note_accepted(struct run *r, enum piece p, unsigned access)
{
    const uint8_t *b = memory[BEFORE][p], *element = b + 4;
    for (uint64_t left = adk_read_be(b, 4); left > 0; left--, element = next_element(element)) {
        r->used[r->list][adk_read_be(element, 2)] |= (uint8_t)access;
        if (access == W)
            note_edge(r, element, true);
    }
}

/* An element that was refused for its ID or its value, or in an effect for anything. */
static void note_bad(struct run *r, size_t k, const uint8_t *element, unsigned access, bool value)
{
    const struct row *row = row_of((unsigned)adk_read_be(element, 2));
    if (value)
        note_edge(r, element, false);
    else if (row != NULL)
        r->refused[k][r->list][row - ROWS] |= (uint8_t)access;
}

static void note_state(struct run *r, const struct call *c, const adk_found *f)
{
    if (f->r3 == ADK_OK)
        note_accepted(r, BUFFER, c->kind->access);
    if (f->r3 != ADK_INVALID_ELEMENT_ID && f->r3 != ADK_INVALID_ELEMENT_VALUE)
        return;
    const uint8_t *element = memory[BEFORE][BUFFER] + 4;
    for (uint64_t i = 0; i < f->r4; i++)
        element = next_element(element); /* those before the bad one are good, so they can be walked */
    note_bad(r, (size_t)(c->kind - KINDS), element, c->kind->access, f->r3 == ADK_INVALID_ELEMENT_VALUE);
}

/* How many of the tests 11 input, 11 output, 12 input and 12 output, in this order, a run passed, if it came there. */
static unsigned passed_tests(const adk_found *f)
{
    if (f->r3 == ADK_NOT_REGISTERED)
        return (unsigned)f->r4;
    return f->r3 == ADK_LENT_TOO_SHORT ? 2 + (unsigned)f->r4 : 4;
}

/* which: 0 the input, 1 the output. */
static void note_run_buffer(struct run *r, const struct call *c, const adk_found *f, unsigned which)
{
    unsigned passed = passed_tests(f);
    uint64_t size = registered_size(slot_of(c), 0x0C00 + which), len = c->len[which == 0 ? INPUT : OUTPUT];
    for (size_t i = 0; i < EDGE_COUNT && passed >= which; i++)
        if (VALUE_EDGES[i].id == 0x0C00 + which && VALUE_EDGES[i].value == size)
            r->registered[i] |= VALUE_EDGES[i].good == (passed > which);
    if (passed >= 2 + which && len + 1 >= size && len <= size + 1)
        r->lent[which][len + 1 - size] |= (len >= size) == (passed > 2 + which);
}

static void note_run(struct run *r, const struct call *c, const adk_found *f)
{
    size_t k = (size_t)(c->kind - KINDS);
    if (f->r3 == ADK_OK) {
        note_accepted(r, INPUT, RUN_IN);
        note_accepted(r, EFFECT, RUN_EFFECT);
    }
    if (f->r3 == ADK_INVALID_ELEMENT_ID)
        note_bad(r, k, memory[BEFORE][INPUT] + f->r4, RUN_IN, false);
    if (f->r3 == ADK_BAD_EFFECT && f->r4 != 0 && c->len[EFFECT] - f->r4 >= 4)
        note_bad(r, k, memory[BEFORE][EFFECT] + f->r4, RUN_EFFECT, false);
    if (f->r3 == ADK_OK || (f->r3 > ADK_BAD_VCPU && f->r3 != ADK_WRONG_OWNER)) {
        note_run_buffer(r, c, f, 0);
        note_run_buffer(r, c, f, 1);
    }
    for (size_t i = 0; i < EXIT_COUNT; i++)
        r->exits[i] |= f->r3 == ADK_OK && c->n[3] == EXITS[i];
    for (size_t i = 0; i < NO_EXIT_COUNT; i++)
        r->no_exits[i] |= f->r3 == ADK_UNKNOWN_EXIT && c->n[3] == NO_EXITS[i];
}

/* A clock that was told, so the guest is one. */
static void note_clock(struct run *r, const struct call *c)
{
    uint64_t offset = tb_offset(c->n[0]);
    for (size_t o = 0; o < OFFSET_COUNT; o++)
        for (size_t t = 0; t < TIMEBASE_COUNT; t++)
            r->clocks[o][t] |= offset == TB_OFFSETS[o] && c->n[1] == TIMEBASES[t];
}

static size_t bitmap_number(uint64_t bitmap)
{
    size_t i = 0;
    while (i < BITMAP_COUNT && BITMAPS[i] != bitmap)
        i++;
    return i;
}

/* A bitmap that was judged, so the store is well formed. */
static void note_bitmap(struct run *r, const struct call *c)
{
    bool alive = any_live(memory[BEFORE][STORE]);
    r->bitmaps[bitmap_number(r->agreed)][bitmap_number(c->n[1])][alive] = true;
}

/* ---- Hand-overs ---- */

static struct taken *taken_of(struct run *r, const struct call *c)
{
    return &r->taken[c->n[2] & ADK_VCPU_MAX];
}

/* A vCPU that was taken: BEFORE has the form. */
static void note_taken(struct run *r, const struct call *c)
{
    const uint8_t *form = memory[BEFORE][BUFFER];
    struct taken *t = taken_of(r, c);
    for (unsigned e = 0; e < THREAD_ELEMENTS; e++)
        r->handed[0][e][is_present(form, e)] = true;
    t->guest = c->n[1];
    memcpy(t->form, form, read_form(form).len);
}

/* A vCPU that was given back. */
static void note_given(struct run *r, const struct call *c)
{
    const uint8_t *form = memory[BEFORE][BUFFER];
    const struct taken *t = taken_of(r, c);
    struct form f = read_form(form);
    for (unsigned e = 0; e < THREAD_ELEMENTS; e++)
        r->handed[1][e][is_present(form, e)] = true;
    if (t->guest != 0 && memcmp(t->form, form, f.len) == 0)
        r->scenes[t->guest == c->n[1] ? BACK_AS_TAKEN : BACK_TO_ANOTHER_GUEST] = true;
    r->scenes[BYTES_BEHIND] |= c->len[BUFFER] > f.len;
    r->scenes[BACK_OVER_VALUES] |= r->over && f.present < THREAD_ELEMENTS;
}

/* A form that was refused, of at least ADK_FORM_MIN bytes. */
static void note_refused_form(struct run *r, const struct call *c)
{
    const uint8_t *form = memory[BEFORE][BUFFER];
    size_t len = c->len[BUFFER];
    unsigned wrong = wrong_parts(form, len, (unsigned)c->n[2]);
    for (unsigned p = 0; p < PARTS; p++)
        r->wrong[p] |= wrong == A(p);
    if (wrong == A(WRONG_VALUE))
        r->zeros[thread_size(zero_value(form, len))] = true;
    r->scenes[CUT_BY_ONE] |= wrong == A(CUT) && read_form(form).len == len + 1;
}

static void note_hand_over(struct run *r, const struct call *c, const adk_found *f)
{
    if (f->r3 == ADK_BAD_FORM)
        note_refused_form(r, c);
    if (f->r3 != ADK_OK)
        return;
    if (c->kind->hand == TAKING)
        note_taken(r, c);
    else
        note_given(r, c);
}

/* What the store before the call has, as far as a scene asks for it. */
static void look_before(struct run *r, const struct call *c)
{
    const uint8_t *s = memory[BEFORE][STORE];
    unsigned slot = c->kind->use[STORE] == NOT_LENT ? layout->slots : slot_of(c);
    bool used = slot < layout->slots;
    const uint8_t *values = s + slot_at(used ? slot : 0);
    r->agreed = agreed();
    r->list = list_of(c->n[1]);
    look_at_lists(&r->lists, c);
    r->named_taken = used && is_marked(slot);
    r->over = used && (values[0] != 0 || memcmp(values, values + 1, SLOT_SIZE - 1) != 0);
    r->guest_taken = r->any_taken = false;
    for (unsigned i = 0; i < layout->slots; i++) {
        r->any_taken |= is_marked(i);
        r->guest_taken |= is_marked(i) && guest_in(word_in(s, i)) == c->n[1];
    }
}

/* Where another call meets a taken vCPU. */
static void note_scene(struct run *r, const struct call *c, const adk_found *f)
{
    const struct kind *k = c->kind;
    bool accepted = f->r3 == ADK_OK, deletes = is_delete(k);
    r->scenes[CREATED_AGAIN] |= f->r3 == ADK_VCPU_EXISTS && r->named_taken;
    r->scenes[GUEST_DROPPED] |= deletes && accepted && c->n[0] == 0 && r->guest_taken;
    r->scenes[ALL_DROPPED] |= deletes && accepted && c->n[0] != 0 && r->any_taken;
    r->scenes[WIDE_GET] |= k->wide && k->access == R && accepted && r->named_taken;
    r->scenes[WIDE_SET] |= k->wide && k->access == W && accepted && r->named_taken;
    r->scenes[BOTH_BITS] |= k->wide && f->r3 == ADK_BAD_FLAG && c->n[0] == (ADK_GUEST_WIDE | ADK_HAND_OVER);
}

/* ---- All that is noted ---- */

/* The length that 5 or, in a run, 14 judged; or one that is no edge. 16 stands before both; 17 is given at any length
   that 5 lets pass. */
static size_t judged_length(const struct call *c, const adk_found *f)
{
    bool run = is_run(c->kind);
    if (f->r3 == ADK_WRONG_OWNER || f->r3 == ADK_BAD_FORM)
        return SIZE_MAX;
    if (f->r3 != ADK_OK && f->r3 < (run ? ADK_BAD_EFFECT : ADK_BAD_LENGTH))
        return SIZE_MAX;
    return c->len[run ? EFFECT : BUFFER];
}

/* In a night of the large store what is met on the small ones does not count, but for their conversions. */
static void note(struct run *r, const struct call *c, const adk_found *f)
{
    size_t k = (size_t)(c->kind - KINDS), len = judged_length(c, f);
    const struct lengths *lengths = lengths_of(c->kind);
    if (layout != &LAYOUTS[r->size] && !converts(c->kind))
        return;
    r->tally[k][f->r3]++;
    if (r->way == BY_NUMBER)
        r->numbered[k] |= A(f->r3);
    if (r->way == BY_NO_KIND)
        r->no_kinds[no_kind_of(r)][f->r3 == ADK_BAD_STORE] = true;
    r->with_r4[k][f->r4 != 0] |= A(f->r3);
    r->with_r5[k] |= f->r5 != 0 ? A(f->r3) : 0;
    if (f->r3 == ADK_BAD_FLAG)
        r->bad_bits[k] |= ADK_BIT(f->r4 & 63);
    for (size_t i = 0; i < lengths->n; i++)
        if (len == lengths->of[i])
            r->lengths[k] |= A(i);
    note_scene(r, c, f);
    note_stores(&r->stores, c, f);
    note_lists(&r->lists, c, f);
    if (c->kind->hand != NO_HAND)
        note_hand_over(r, c, f);
    else if (c->kind->access != 0)
        note_state(r, c, f);
    else if (is_run(c->kind))
        note_run(r, c, f);
    else if (is_clock(c->kind) && f->r3 == ADK_OK)
        note_clock(r, c);
    else if (sets_capabilities(c->kind) && f->r3 != ADK_BAD_STORE && f->r3 != ADK_BAD_FLAG)
        note_bitmap(r, c);
}

/* ---- Calls by their number ---- */

static int report_numbered(const struct run *r, const struct call *c, const adk_found *lib, const adk_found *mdl)
{
    report(r, "numbered", c, lib, mdl);
    if (same_answer(lib, mdl))
        printf("  by its number it differs in lent bytes\n");
    else
        printf("  by its number it differs in answer %" PRIu64 " -> %" PRIu64 "\n", lib->r3, mdl->r3);
    return 1;
}

/* The call by its number on both sides; 0 if nothing differs. Then OTHER has what it left, and LIBRARY is as before, so
   that the call itself can be laid beside it. */
static int compare_numbered(const struct run *r, const struct call *c, adk_found *mdl)
{
    struct numbered n = by_number(c, r->number);
    adk_found lib = make_numbered(adk_call, &n, memory[LIBRARY]);
    *mdl = make_numbered(mdl_call, &n, memory[OTHER]);
    if (!same_answer(&lib, mdl) || !numbered_holds(&n, c, &lib))
        return report_numbered(r, c, &lib, mdl);
    for (int p = 0; p < PIECES; p++)
        if (c->kind->use[p] == WRITTEN)
            memcpy(memory[LIBRARY][p], memory[BEFORE][p], extent(c, p));
    return 0;
}

/* The same by a kind that is none of the eight. */
static int compare_no_kind(const struct run *r, const struct call *c)
{
    const adk_found refused = { .r3 = ADK_BAD_RECORD };
    struct numbered n = by_number(c, r->number);
    n.kind = NO_KINDS[no_kind_of(r)];
    adk_found lib = make_numbered(adk_call, &n, memory[LIBRARY]), mdl = make_numbered(mdl_call, &n, memory[OTHER]);
    if (!same_answer(&lib, &refused) || !same_answer(&mdl, &refused) || !numbered_holds(&n, c, &refused))
        return report_numbered(r, c, &lib, &mdl);
    return 0;
}

/* One call on both sides; 0 if nothing differs. expected is the answer, or NULL where only the model tells it. */
static int compare_call(struct run *r, const struct call *c, const adk_found *expected)
{
    adk_found mdl;
    look_before(r, c);
    r->way = way_of(r, c, expected);
    if (r->way == BY_NO_KIND && compare_no_kind(r, c) != 0)
        return 1;
    if (r->way != BY_NUMBER)
        mdl = c->kind->make(&model, c, memory[OTHER]);
    else if (compare_numbered(r, c, &mdl) != 0)
        return 1;
    adk_found lib = c->kind->make(&library, c, memory[LIBRARY]);
    if (expected != NULL && !same_answer(&lib, expected)) {
        report(r, "order", c, &lib, &mdl);
        print_answer(stdout, "expected", c, expected);
        return 1;
    }
    if (!same_answer(&lib, &mdl))
        return report(r, "agreement", c, &lib, &mdl);
    for (int p = 0; p < PIECES; p++) {
        const char *name = c->kind->use[p] == NOT_LENT ? NULL : breaks(c, p, lib.r3 == 0);
        if (name != NULL)
            return report(r, name, c, &lib, &mdl);
    }
    if (lib.r3 >= ANSWERS || !(c->kind->answers & A(lib.r3)))
        return report(r, "coverage", c, &lib, &mdl);
    note(r, c, &lib);
    return 0;
}

/* ---- Every set of faults of a run ---- */

/* In the order of the scope, with their answers. */
enum fault {
    ILL_FORMED,
    FLAG,
    GUEST,
    VCPU,
    OWNER,
    INPUT_UNREGISTERED,
    OUTPUT_UNREGISTERED,
    INPUT_SHORT,
    OUTPUT_SHORT,
    INPUT_ELEMENT,
    EXIT,
    EFFECT_LENGTH,
    EFFECT_ELEMENT,
    FAULTS
};

static const adk_found FAULT_ANSWER[FAULTS] = {
    [ILL_FORMED] = { .r3 = 1 },
    [FLAG] = { .r3 = 2, .r4 = 3 },
    [GUEST] = { .r3 = 3 },
    [VCPU] = { .r3 = 4 },
    [OWNER] = { .r3 = 16 },
    [INPUT_UNREGISTERED] = { .r3 = 11, .r4 = 0 },
    [OUTPUT_UNREGISTERED] = { .r3 = 11, .r4 = 1 },
    [INPUT_SHORT] = { .r3 = 12, .r4 = 0 },
    [OUTPUT_SHORT] = { .r3 = 12, .r4 = 1 },
    [INPUT_ELEMENT] = { .r3 = 6, .r4 = 16, .r5 = 1 },
    [EXIT] = { .r3 = 13 },
    [EFFECT_LENGTH] = { .r3 = 14, .r4 = 0 },
    [EFFECT_ELEMENT] = { .r3 = 14, .r4 = 16, .r5 = 1 },
};

/* Lends a buffer of two elements of 8 bytes, the second at offset 16. */
static void lend_two(struct call *c, enum piece piece, unsigned first, unsigned second)
{
    struct build g = begin_build(piece, 0, false, WHOLE);
    g.len = 4;
    add_element(&g, first, 8);
    add_element(&g, second, 8);
    put_count(&g);
    lend(c, &g);
}

/* An ID of 8 bytes that a guest with this list is not offered. */
static unsigned bad_id(enum list list)
{
    return list == POWER9 ? 0x1031 : 0x1054;
}

/* A store with vCPU 0 of the last guest, of this list, in the last slot, taken or not, and a call on it; with those of
   these faults that all calls on a vCPU have. */
static void lend_faulty(struct call *c, unsigned faults, enum list list, bool taken)
{
    uint8_t *s = memory[BEFORE][STORE];
    unsigned guest = layout->guests, slot = layout->slots - 1;
    memset(s, 0, layout->size);
    put_live(s, guest, true);
    put_live(s, guest + 1, (faults & A(ILL_FORMED)) != 0);
    put_word(s, slot, word_of(guest, 0));
    put_mark(s, slot, taken);
    put_pvr(guest, list == POWER9 ? ADK_PVR_ARCH_300 : 0);
    c->len[STORE] = layout->size;
    c->n[0] = faults & A(FLAG) ? ADK_BIT(3) : 0;
    c->n[1] = faults & A(GUEST) ? guest - 1 : guest;
    c->n[2] = faults & A(VCPU) ? 1 : 0;
}

/* A run with these faults, each of which can be there beside the others. */
static void faulty_run(struct call *c, unsigned faults, enum list list)
{
    lend_faulty(c, faults, list, (faults & A(OWNER)) != 0);
    put_registered_size(layout->slots - 1, 0x0C00, faults & A(INPUT_UNREGISTERED) ? 3 : 28);
    put_registered_size(layout->slots - 1, 0x0C01, faults & A(OUTPUT_UNREGISTERED) ? 123 : 124);
    share(STORE, 0, layout->size);
    lend_two(c, INPUT, 0x1003, faults & A(INPUT_ELEMENT) ? bad_id(list) : 0x1004);
    lend_two(c, EFFECT, 0x1003, faults & A(EFFECT_ELEMENT) ? bad_id(list) : 0xF000);
    c->len[OUTPUT] = faults & A(OUTPUT_SHORT) ? 122 : 124;
    if (faults & A(INPUT_SHORT))
        c->len[INPUT] = 2;
    if (faults & A(EFFECT_LENGTH))
        c->len[EFFECT] = 3;
    c->n[3] = faults & A(EXIT) ? 0xC01 : 0xC00;
}

/* ---- And of get state, set state, the hand-overs and a conversion ---- */

/* Behind OWNER, with answers of their own: a length, and what the buffer holds, of which a take reads nothing. */
enum { LENGTH = OWNER + 1, CONTENT, STATE_FAULTS };

/* The faults that the call can have: guest-wide the vCPU is not looked at. */
static unsigned faults_of(const struct kind *k)
{
    unsigned all = A(STATE_FAULTS) - 1;
    if (converts(k))
        return A(ILL_FORMED) | A(LENGTH);
    if (k->hand == TAKING)
        all &= ~A(CONTENT);
    return k->wide ? all & ~(A(VCPU) | A(OWNER)) : all;
}

static adk_found state_answer(const struct kind *k, unsigned fault)
{
    if (fault == LENGTH)
        return (adk_found){ .r3 = 5 };
    if (fault == CONTENT)
        return k->hand == GIVING ? (adk_found){ .r3 = 17 } : (adk_found){ .r3 = 6, .r4 = 1, .r5 = 16 };
    return FAULT_ANSWER[fault];
}

/* The buffer holds a form of vCPU 0 without values, or two elements. */
static void lend_content(struct call *c, enum list list, bool bad)
{
    struct build g = begin_build(BUFFER, 0, false, WHOLE);
    unsigned good = c->kind->wide ? 0x0004 : 0x1003;
    if (c->kind->hand == NO_HAND) {
        lend_two(c, BUFFER, good, bad ? bad_id(list) : good);
        return;
    }
    g.len = c->kind->hand == TAKING ? ADK_FORM_MAX : ADK_FORM_MIN;
    memset(g.b, 0, g.len);
    g.b[0] = bad ? 0x20 : 0x10;
    lend(c, &g);
}

static void faulty_state(struct call *c, unsigned faults, enum list list)
{
    bool taken = (faults & A(OWNER)) != 0;
    lend_faulty(c, faults, list, c->kind->hand == GIVING ? !taken : taken);
    share(STORE, 0, layout->size);
    lend_content(c, list, (faults & A(CONTENT)) != 0);
    if (faults & A(LENGTH))
        c->len[BUFFER] = c->kind->hand == NO_HAND ? 3 : c->kind->hand == TAKING ? ADK_FORM_MAX - 1 : ADK_FORM_MIN - 1;
    if (c->kind->wide)
        c->n[0] |= ADK_GUEST_WIDE;
    if (c->kind->hand != NO_HAND)
        c->n[0] |= ADK_HAND_OVER;
}

/* A conversion of that store; the other faults are none of it. */
static void faulty_conversion(struct call *c, unsigned faults, enum list list)
{
    lend_faulty(c, faults, list, (faults & A(OWNER)) != 0);
    share(STORE, 0, layout->size);
    c->len[TARGET] = ADK_LARGE_STORE_SIZE - ((faults & A(LENGTH)) != 0);
}

/* ---- All of them ---- */

/* One set; without a fault that the call can have it is accepted. */
static int compare_faults(struct run *r, struct call *c, unsigned faults, enum list list)
{
    bool run = is_run(c->kind);
    unsigned first = 0, can = run ? A(FAULTS) - 1 : faults_of(c->kind);
    adk_found answer = { .r3 = 0, .r4 = run ? 0xC00 : 0 };
    while (first < FAULTS && !(faults & can & A(first)))
        first++;
    if (first < FAULTS)
        answer = run ? FAULT_ANSWER[first] : state_answer(c->kind, first);
    if (run)
        faulty_run(c, faults, list);
    else if (converts(c->kind))
        faulty_conversion(c, faults, list);
    else
        faulty_state(c, faults, list);
    r->number++;
    return compare_call(r, c, &answer);
}

static int compare_sets(struct run *r, const struct kind *kind, enum list list)
{
    bool judges = kind->access != 0 || kind->hand != NO_HAND || converts(kind);
    unsigned sets = is_run(kind) ? A(FAULTS) : judges ? A(STATE_FAULTS) : 0;
    struct call c = { .kind = kind };
    layout = &LAYOUTS[converts(kind) ? SMALL : r->size];
    for (unsigned faults = 0; faults < sets && r->number < r->calls; faults++)
        if (compare_faults(r, &c, faults, list) != 0)
            return 1;
    return 0;
}

static int compare_order(struct run *r)
{
    for (enum list list = 0; list < LISTS; list++)
        for (size_t k = 0; k < KIND_COUNT; k++)
            if (is_made(&KINDS[k], manner_of(r)) && compare_sets(r, &KINDS[k], list) != 0)
                return 1;
    return 0;
}

/* ---- A mix of calls ---- */

static int compare_mix(struct run *r)
{
    begin_night(manner_of(r));
    while (r->number++ < r->calls) {
        struct call c = next_call(r->number);
        if (compare_call(r, &c, NULL) != 0)
            return 1;
    }
    return 0;
}

/* ---- The end of a run ---- */

static bool lengths_covered(const struct run *r, size_t k)
{
    bool all = true;
    if (KINDS[k].use[BUFFER] == NOT_LENT && !is_run(&KINDS[k]))
        return true;
    const struct lengths *lengths = lengths_of(&KINDS[k]);
    for (size_t i = 0; i < lengths->n; i++)
        if (!(r->lengths[k] & A(i))) {
            printf("  %s never judged a length of %zu bytes\n", KINDS[k].name, lengths->of[i]);
            all = false;
        }
    return all;
}

/* Whether the call gave each answer that it can give; names those that are missing. */
static bool covered(const struct run *r, size_t k)
{
    bool all = true;
    for (int a = 0; a < ANSWERS; a++) {
        if (KINDS[k].answers & A(a) && r->tally[k][a] == 0) {
            printf("  %s never gave %d\n", KINDS[k].name, a);
            all = false;
        }
        if (KINDS[k].both & A(a) & ~(r->with_r4[k][0] & r->with_r4[k][1])) {
            printf("  %s never gave %d with r4 %s\n", KINDS[k].name, a, r->with_r4[k][0] & A(a) ? "not 0" : "0");
            all = false;
        }
        if (KINDS[k].answers & A(a) && tells_place(&KINDS[k], (uint64_t)a) && !(r->with_r5[k] & A(a))) {
            printf("  %s never gave %d with an r5\n", KINDS[k].name, a);
            all = false;
        }
    }
    uint64_t bits = ~KINDS[k].supported & ~r->bad_bits[k];
    if (KINDS[k].answers & A(ADK_BAD_FLAG) && bits != 0) {
        printf("  %s never gave 2 with r4 the number of a bit of 0x%016" PRIX64 "\n", KINDS[k].name, bits);
        all = false;
    }
    return lengths_covered(r, k) && all;
}

/* Whether each call gave each of its answers by its number, and each other kind was refused. */
static bool numbers_covered(const struct run *r)
{
    bool all = true;
    for (size_t k = 0; k < KIND_COUNT; k++)
        if (record_kind(&KINDS[k]) != 0 && r->numbered[k] != KINDS[k].answers) {
            printf("  by its number %s gave the answers 0x%X, not 0x%X\n", KINDS[k].name, r->numbered[k],
                   KINDS[k].answers);
            all = false;
        }
    for (size_t i = 0; i < NO_KIND_COUNT; i++)
        if (!r->no_kinds[i][0] || !r->no_kinds[i][1]) {
            printf("  kind 0x%" PRIX64 " was never refused over a %s store\n", NO_KINDS[i],
                   r->no_kinds[i][0] ? "bad" : "good");
            all = false;
        }
    return all;
}

static const struct {
    unsigned access;
    const char *missing;
} WAYS_OF_USE[] = {
    { R, "get_state never read" },
    { W, "set_state never set" },
    { RUN_IN, "run_vcpu never set by its input" },
    { RUN_EFFECT, "run_vcpu never set by its effect" },
};

/* Whether each element, the NOP too, was used wherever it may be by a guest with this list. */
static bool elements_covered(const struct run *r, enum list list)
{
    bool all = true;
    for (size_t u = 0; u < COUNT(WAYS_OF_USE); u++)
        for (unsigned id = 0; id <= 0xFFFF; id++)
            if (access_to(list, id) & WAYS_OF_USE[u].access & ~r->used[list][id]) {
                printf("  %s 0x%04X of %s\n", WAYS_OF_USE[u].missing, id, LIST_NAME[list]);
                all = false;
            }
    return all;
}

/* Whether get and set state, a run's input and its effect refused each row that is of the wrong scope, not permitted or
   not offered. */
static bool refusals_covered(const struct run *r, enum list list)
{
    bool all = true;
    for (size_t k = 0; k < KIND_COUNT; k++) {
        unsigned uses = is_run(&KINDS[k]) ? RUN_IN | RUN_EFFECT : KINDS[k].access;
        for (unsigned use = 1; use <= uses; use *= 2)
            for (size_t i = 0; i < ROW_COUNT; i++)
                if (uses & use && !takes(use, KINDS[k].wide, list, &ROWS[i]) && !(r->refused[k][list][i] & use)) {
                    printf("  %s never refused 0x%04X to 0x%04X%s of %s\n", KINDS[k].name, ROWS[i].first,
                           ROWS[i].last, use == RUN_EFFECT ? " in an effect" : "", LIST_NAME[list]);
                    all = false;
                }
    }
    return all;
}

static bool edges_covered(const struct run *r)
{
    bool all = true;
    for (size_t i = 0; i < EDGE_COUNT; i++)
        if (!r->edges[i]) {
            const struct edge *e = &VALUE_EDGES[i];
            printf("  0x%04X was never %s with 0x%" PRIX64 " (capabilities 0x%" PRIX64 ")\n", e->id,
                   e->good ? "set" : "refused", e->value, e->agreed);
            all = false;
        }
    return all;
}

/* Whether a run met each edge of a registered size, of what is lent of it, and of an exit reason. */
static bool runs_covered(const struct run *r)
{
    bool all = true;
    for (size_t i = 0; i < EDGE_COUNT; i++)
        if (VALUE_EDGES[i].id != 0x0003 && !r->registered[i]) {
            printf("  run_vcpu never met 0x%04X with size 0x%" PRIX64 "\n", VALUE_EDGES[i].id, VALUE_EDGES[i].value);
            all = false;
        }
    for (int which = 0; which < 2; which++)
        for (int i = 0; i < 3; i++)
            if (!r->lent[which][i]) {
                printf("  run_vcpu was never lent %d bytes more than registered of 0x%04X\n", i - 1, 0x0C00 + which);
                all = false;
            }
    for (size_t i = 0; i < EXIT_COUNT; i++)
        if (!r->exits[i]) {
            printf("  run_vcpu never accepted exit 0x%03" PRIX64 "\n", EXITS[i]);
            all = false;
        }
    for (size_t i = 0; i < NO_EXIT_COUNT; i++)
        if (!r->no_exits[i]) {
            printf("  run_vcpu never refused exit 0x%03" PRIX64 "\n", NO_EXITS[i]);
            all = false;
        }
    return all;
}

static bool clocks_covered(const struct run *r)
{
    bool all = true;
    for (size_t o = 0; o < OFFSET_COUNT; o++)
        for (size_t t = 0; t < TIMEBASE_COUNT; t++)
            if (!r->clocks[o][t]) {
                printf("  guest_clock was never told with offset 0x%" PRIX64 " and timebase 0x%" PRIX64 "\n",
                       TB_OFFSETS[o], TIMEBASES[t]);
                all = false;
            }
    return all;
}

static bool bitmaps_covered(const struct run *r)
{
    bool all = true;
    for (size_t was = 0; was < BITMAP_COUNT; was++)
        for (size_t asked = 0; asked <= BITMAP_COUNT; asked++)
            for (int alive = 0; alive < 2; alive++)
                if (!r->bitmaps[was][asked][alive]) {
                    printf("  with %s agreed and %s, set_capabilities never judged %s\n", BITMAP_NAME[was],
                           alive ? "a guest alive" : "no guest alive", BITMAP_NAME[asked]);
                    all = false;
                }
    return all;
}

static bool hand_overs_covered(const struct run *r)
{
    bool all = true;
    for (unsigned way = 0; way < 2; way++)
        for (unsigned e = 0; e < THREAD_ELEMENTS; e++)
            for (unsigned present = 0; present < 2; present++)
                if (!r->handed[way][e][present]) {
                    printf("  no form %s had 0x%04X %s\n", way == 0 ? "taken" : "given back", thread_id(e),
                           present ? "present" : "absent");
                    all = false;
                }
    for (unsigned p = 0; p < PARTS; p++)
        if (!r->wrong[p]) {
            printf("  no form was refused for its %s alone\n", PART_NAME[p]);
            all = false;
        }
    for (unsigned size = 4; size <= 16; size *= 2)
        if (!r->zeros[size]) {
            printf("  no form was refused for a value of %u zeros\n", size);
            all = false;
        }
    for (unsigned i = 0; i < SCENES; i++)
        if (!r->scenes[i]) {
            printf("  never seen: %s\n", SCENE_NAME[i]);
            all = false;
        }
    return all;
}

static int finish(const struct run *r)
{
    if (!r->quiet)
        print_tally(stdout, r->tally, manner_of(r));
    static const char *const established[] = { "agreement", "unchanged", "guards", "order", "numbered" };
    for (size_t i = 0; i < COUNT(established); i++)
        printf("passed compare %s %s\n", LAYOUTS[r->size].name, established[i]);
    bool all = stores_covered(&r->stores, manner_of(r));
    for (size_t k = 0; k < KIND_COUNT; k++)
        all = (!is_made(&KINDS[k], manner_of(r)) || covered(r, k)) && all;
    for (enum list list = 0; list < LISTS; list++) {
        all = elements_covered(r, list) && all;
        all = refusals_covered(r, list) && all;
    }
    all = lists_covered(&r->lists) && all;
    all = edges_covered(r) && all;
    all = runs_covered(r) && all;
    all = clocks_covered(r) && all;
    all = bitmaps_covered(r) && all;
    all = hand_overs_covered(r) && all;
    all = numbers_covered(r) && all;
    printf("%s compare %s coverage\n", all ? "passed" : "failed", LAYOUTS[r->size].name);
    return all ? 0 : 1;
}

static int usage(void)
{
    fprintf(stderr, "usage: compare [--large] [--calls N] [--seed S | --seed fresh] [--quiet]\n");
    return 2;
}

static bool read_options(struct run *r, int argc, char **argv)
{
    for (int i = 1; i < argc; i++) {
        bool more = i + 1 < argc;
        if (strcmp(argv[i], "--quiet") == 0)
            r->quiet = true;
        else if (strcmp(argv[i], "--large") == 0)
            r->size = LARGE;
        else if (more && strcmp(argv[i], "--seed") == 0 && read_seed(argv[i + 1], &r->seed))
            i++;
        else if (more && strcmp(argv[i], "--calls") == 0 && read_number(argv[i + 1], &r->calls))
            i++;
        else
            return false;
    }
    return true;
}

/* Lists of calls on small stores and on their conversions, a tenth as many calls. */
static int compare_both(const struct run *r)
{
    if (r->size != LARGE)
        return 0;
    bool same = same_on_both(r->calls / 10);
    printf("%s compare large both\n", same ? "passed" : "failed");
    return same ? 0 : 1;
}

int main(int argc, char **argv)
{
    static struct run r = { .seed = SEED, .calls = 2000000 };
    if (!read_options(&r, argc, argv))
        return usage();
    printf("compare: %" PRIu64 " calls of the %s store, seed 0x%" PRIX64 "\n", r.calls, LAYOUTS[r.size].name, r.seed);
    seed_chance(r.seed);
    make_memory();
    int result = compare_order(&r) != 0 || compare_mix(&r) != 0 ? 1 : finish(&r);
    result |= compare_both(&r);
    free_memory();
    return result;
}
