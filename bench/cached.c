/*
 * cached.c: makes long mixes of writes, reads and runs on the library's L1 cache and on the model's, on stores that a
 * night of calls changes between them, and compares every answer and every lent byte.
 *
 *     make target/bench/cached
 *     cached [--calls N] [--seed S | --seed fresh]
 *
 * N counts the operations of the cache, on small stores and again on large ones. Lines 'passed cached SIZE NAME' or
 * 'failed cached SIZE NAME' say what was established:
 *
 *     agreement   answers, caches, stores and buffers are the same, and a refusal changed no lent byte
 *     coverage    each operation gave each answer that it can give; reads were served from the cache and from the
 *                 store; a run sent all 164 elements and none; what came after POWER9 was refused where the operation
 *                 was told that PVR, and by the run where the guest has it and the operation was told another
 *
 * The run ends at the first difference.
 */
#include "cache.h"
#include "chance.h"
#include "night.h"

#include <inttypes.h>
#include <stdio.h>
#include <string.h>

/* A value has at most 16 bytes: what is lent longer is refused, and of that some is looked at. */
enum { VALUE_CAPACITY = 65536, VALUE_SHOWN = 32, ALL_SENT = 164 };

static const struct l0 library = L0_LIBRARY;

/* ---- The two sides; their stores, inputs, outputs and effects are the lent pieces ---- */

struct cache {
    uint8_t values[CACHE_VALUES], value[VALUE_CAPACITY];
    uint64_t marks[CACHE_MARKS];
};

static const struct l1 L1[] = { [LIBRARY] = L1_LIBRARY, [OTHER] = L1_MODEL };
static struct cache cache[SIDES];

/* An operation, its numbers and how much it is lent; of a piece that is not lent, nothing. */
struct op {
    enum kind_of_op { WRITE, READ_ONE, RUN, OPS } kind;
    uint64_t flags, guest, vcpu, exit_reason;
    uint32_t pvr;
    uint16_t id;
    size_t values_len, marks_len, value_len, len[PIECES];
};

static const char *const OP_NAME[OPS] = { "write", "read", "run" };

static adk_answer make_op(enum side s, const struct op *o)
{
    struct cache *c = &cache[s];
    uint8_t *const *m = memory[s];
    switch (o->kind) {
    case WRITE:
        return L1[s].write(c->values, o->values_len, c->marks, o->marks_len, o->pvr, o->id, c->value, o->value_len);
    case READ_ONE:
        return L1[s].read(m[STORE], o->len[STORE], o->guest, o->vcpu, o->pvr, c->values, o->values_len, c->marks,
                          o->marks_len, o->id, c->value, o->value_len);
    default:
        return L1[s].run(m[STORE], o->len[STORE], o->flags, o->guest, o->vcpu, o->pvr, c->values, o->values_len,
                         c->marks, o->marks_len, m[INPUT], o->len[INPUT], m[OUTPUT], o->len[OUTPUT], m[EFFECT],
                         o->len[EFFECT], o->exit_reason);
    }
}

/* ---- What an operation is given ---- */

/* A vCPU that is there, mostly the one of the last operation, or any numbers. */
static void choose_vcpu(struct op *o)
{
    static unsigned slot;
    if (percent(10))
        slot = below(layout->slots);
    unsigned word = word_in(memory[BEFORE][STORE], slot % layout->slots);
    o->guest = percent(95) ? guest_in(word) : any_number();
    o->vcpu = percent(95) ? vcpu_in(word) : any_number();
}

/* Mostly the guest's. */
static uint32_t any_pvr(uint64_t guest)
{
    static const uint32_t pvrs[] = { 0, ADK_PVR_ARCH_300, ADK_PVR_ARCH_31, 0x0F000004, 0x0500000F };
    return percent(85) ? pvr_of(guest) : pvrs[below(COUNT(pvrs))];
}

static uint16_t any_element(void)
{
    switch (below(8)) {
    case 0: return (uint16_t)any_id();
    case 1: return (uint16_t)later_id(below(LATER_COUNT));
    default: return (uint16_t)thread_id(below(THREAD_ELEMENTS));
    }
}

static size_t any_value_length(uint16_t id)
{
    static const size_t edges[] = { 0, 4, 8, 16, 24, 65527, 65528, 65529, VALUE_CAPACITY };
    const struct row *row = row_of(id);
    return row == NULL || percent(8) ? edges[below(COUNT(edges))] : row->size;
}

/* Run buffers that are registered and lent as that, or not quite. */
static void lend_run(struct op *o)
{
    struct call c = { .n = { 0, o->guest, o->vcpu } };
    struct build effect = begin_build(EFFECT, RUN_EFFECT, false, list_of(o->guest));
    unsigned slot = slot_of(&c);
    size_t input = percent(80) ? 2424 : below(2500);
    for (size_t i = 0; i < COUNT(effect.id); i++)
        effect.id[i] = taken_id(&effect);
    build_run(&effect);
    lend(&c, &effect);
    if (slot < layout->slots && percent(95)) {
        put_registered_size(slot, ADK_GSID_RUN_INPUT, input);
        put_registered_size(slot, ADK_GSID_RUN_OUTPUT, ADK_RUN_OUTPUT_MIN - percent(3));
        share(STORE, slot_at(slot), SLOT_SIZE);
    }
    o->len[EFFECT] = c.len[EFFECT];
    o->len[INPUT] = percent(90) ? input + below(40) : below(2500);
    o->len[OUTPUT] = percent(95) ? ADK_RUN_OUTPUT_MIN + below(9) : below(ADK_RUN_OUTPUT_MIN);
    o->flags = percent(95) ? 0 : any_bit();
    o->exit_reason = percent(90) ? EXITS[below(EXIT_COUNT)] : NO_EXITS[below(NO_EXIT_COUNT)];
}

static struct op next_op(void)
{
    static const enum kind_of_op often[] = { WRITE, WRITE, WRITE, READ_ONE, READ_ONE, RUN };
    struct op o = { .kind = often[below(COUNT(often))], .values_len = CACHE_VALUES, .marks_len = CACHE_MARKS };
    choose_vcpu(&o);
    o.pvr = any_pvr(o.guest);
    o.id = any_element();
    o.value_len = any_value_length(o.id);
    o.len[STORE] = percent(98) ? layout->size : layout->size - 1;
    if (percent(2))
        o.values_len -= 1 + below(3);
    if (percent(2))
        o.marks_len -= 1 + below(3);
    if (o.kind == RUN)
        lend_run(&o);
    return o;
}

/* All elements of a run input changed, an empty cache, or any bit another. Mostly the marks are what was left. */
static void touch_cache(void)
{
    struct cache *c = &cache[BEFORE];
    unsigned what = below(200);
    if (what < 4)
        memset(c->marks, 0, sizeof c->marks);
    if (what == 4)
        for (unsigned w = 0; w < CACHE_MARKS; w++)
            c->marks[w] = w % 3 == 0 ? UINT64_MAX >> 2 : w % 3 == 1 ? UINT64_MAX : UINT64_MAX << 26;
    if (what == 5)
        c->marks[below(CACHE_MARKS)] ^= any_bit();
    any_bytes(c->value, VALUE_SHOWN);
    for (enum side s = 0; s < BEFORE; s++) {
        memcpy(cache[s].marks, c->marks, sizeof c->marks);
        memcpy(cache[s].value, c->value, VALUE_SHOWN);
    }
}

/* One call of the night on the library; what it left is what both sides meet. */
static void change_store(uint64_t number)
{
    struct call c = next_call(number);
    c.kind->make(&library, &c, memory[LIBRARY]);
    for (int p = 0; p < PIECES; p++)
        if (c.kind->use[p] == WRITTEN)
            memcpy(memory[BEFORE][p], memory[LIBRARY][p], c.len[p]);
    share_all();
}

/* ---- What was met ---- */

static struct met {
    bool answers[OPS][ANSWERS], served, fetched, sent_all, sent_none, later_told, later_own;
} met;

static unsigned changed_count(const struct cache *c)
{
    unsigned n = 0;
    for (unsigned w = 3; w < CACHE_MARKS; w++)
        n += (unsigned)__builtin_popcountll(c->marks[w]);
    return n;
}

/* After an operation, with BEFORE as it was. */
static void note(const struct op *o, const adk_answer *a)
{
    const struct cache *was = &cache[BEFORE];
    bool later = later_number(o->id) < LATER_COUNT;
    bool kept = memcmp(was->marks, cache[LIBRARY].marks, sizeof was->marks) == 0;
    met.answers[o->kind][a->r3] = true;
    met.served |= o->kind == READ_ONE && a->r3 == ADK_OK && kept;
    met.fetched |= o->kind == READ_ONE && a->r3 == ADK_OK && !kept;
    met.sent_all |= o->kind == RUN && a->r3 == ADK_OK && changed_count(was) == ALL_SENT;
    met.sent_none |= o->kind == RUN && a->r3 == ADK_OK && changed_count(was) == 0;
    met.later_told |= o->kind == WRITE && a->r3 == ADK_INVALID_ELEMENT_ID && later && o->pvr == ADK_PVR_ARCH_300;
    met.later_own |= o->kind == RUN && a->r3 == ADK_INVALID_ELEMENT_ID && list_of(o->guest) == POWER9;
}

static bool all_met(void)
{
    static const unsigned can[OPS] = {
        [WRITE] = A(0) | A(5) | A(6) | A(7) | A(15),
        [READ_ONE] = A(0) | A(1) | A(3) | A(4) | A(5) | A(6) | A(7) | A(15) | A(16),
        [RUN] = A(0) | A(1) | A(2) | A(3) | A(4) | A(6) | A(11) | A(12) | A(13) | A(14) | A(15) | A(16),
    };
    bool all = met.served && met.fetched && met.sent_all && met.sent_none && met.later_told && met.later_own;
    if (!all)
        printf("  served %d, fetched %d, all sent %d, none sent %d, refused by the PVR told %d, by the guest's %d\n",
               met.served, met.fetched, met.sent_all, met.sent_none, met.later_told, met.later_own);
    for (unsigned k = 0; k < OPS; k++)
        for (int a = 0; a < ANSWERS; a++)
            if (met.answers[k][a] != ((can[k] & A(a)) != 0)) {
                printf("  a %s %s answered %d\n", OP_NAME[k], met.answers[k][a] ? "is not to be" : "never", a);
                all = false;
            }
    return all;
}

/* ---- The comparison ---- */

/* Whether both hold the same cache and the same lent pieces, and what lies beside them is as it was. */
static bool same_side(const struct op *o, enum side a, enum side b)
{
    const struct cache *x = &cache[a], *y = &cache[b];
    bool same = memcmp(x->values, y->values, sizeof x->values) == 0 &&
                memcmp(x->marks, y->marks, sizeof x->marks) == 0 && memcmp(x->value, y->value, VALUE_SHOWN) == 0;
    for (int p = 0; p < PIECES; p++)
        same = same && same_bytes(p, a, b, o->len[p]) && guards_intact(p, a, o->len[p]);
    return same;
}

static void report(uint64_t number, const struct op *o, const adk_answer *lib, const adk_answer *mdl)
{
    printf("failed cached %s agreement\n  operation %" PRIu64 ": %s", layout->name, number, OP_NAME[o->kind]);
    printf(", told PVR 0x%08" PRIX32, o->pvr);
    if (o->kind != WRITE)
        printf(", guest %" PRIu64 " of PVR 0x%08" PRIX32 ", vCPU %" PRIu64, o->guest, pvr_of(o->guest), o->vcpu);
    if (o->kind != RUN)
        printf(", 0x%04X of %zu bytes", o->id, o->value_len);
    printf("\n  library: r3 %" PRIu64 ", r4 %" PRIu64 ", r5 %" PRIu64, lib->r3, lib->r4, lib->r5);
    printf("\n  model: r3 %" PRIu64 ", r4 %" PRIu64 ", r5 %" PRIu64 "\n", mdl->r3, mdl->r4, mdl->r5);
}

static bool compare_op(uint64_t number)
{
    struct op o = next_op();
    touch_cache();
    adk_answer lib = make_op(LIBRARY, &o), mdl = make_op(OTHER, &o);
    bool good = lib.r3 == mdl.r3 && lib.r4 == mdl.r4 && lib.r5 == mdl.r5 && lib.r3 < ANSWERS &&
                same_side(&o, LIBRARY, OTHER) && (lib.r3 == ADK_OK || same_side(&o, LIBRARY, BEFORE));
    if (!good) {
        report(number, &o, &lib, &mdl);
        return false;
    }
    note(&o, &lib);
    memcpy(cache[BEFORE].values, cache[LIBRARY].values, sizeof cache[BEFORE].values);
    memcpy(cache[BEFORE].marks, cache[LIBRARY].marks, sizeof cache[BEFORE].marks);
    for (int p = 0; p < PIECES; p++)
        memcpy(memory[BEFORE][p], memory[LIBRARY][p], o.len[p]);
    return true;
}

/* ---- A run ---- */

/* A night of stores of this size; 0 if nothing differs and all was met. */
static int make_night(enum size size, uint64_t ops)
{
    const char *name = LAYOUTS[size].name;
    uint64_t number = 1;
    met = (struct met){ 0 };
    begin_night((struct manner){ .large = size == LARGE, .no_conversion = true });
    for (uint64_t n = 1; n <= ops; n++) {
        if (percent(5))
            change_store(number++);
        if (!compare_op(n))
            return 1;
    }
    bool all = all_met();
    printf("passed cached %s agreement\n%s cached %s coverage\n", name, all ? "passed" : "failed", name);
    return all ? 0 : 1;
}

int main(int argc, char **argv)
{
    uint64_t ops = 200000;
    if (!begin_run(argc, argv, "cached", "operations on stores of each size", &ops))
        return 2;
    make_memory();
    int result = 0;
    for (enum size size = 0; size < SIZES; size++)
        result |= make_night(size, ops);
    free_memory();
    return result;
}
