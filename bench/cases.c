/*
 * cases.c: the work that speed.c times and count.c repeats: calls that walk a guest state buffer, those that create and
 * delete, those that hand a vCPU over, an output judged, calls by their number and through the tally, and the operations
 * of the L1 cache.
 */
#include "cases.h"

#include "adderknot_gsb.h"
#include "cache.h"
#include "model.h"

#include <stdio.h>
#include <string.h>

/* ---- The two sides ---- */

/* A buffer under construction, and what is lent of it. */
struct buffer {
    uint8_t bytes[ADK_BUFFER_MAX];
    size_t len;
    uint32_t pvr; /* only what a guest with this PVR is offered is added */
};

/* A cache, and a value that is read into or written from. */
struct cache {
    uint8_t values[CACHE_VALUES], value[8];
    uint64_t marks[CACHE_MARKS];
};

struct party {
    struct l0 on;
    struct l1 above;
    __typeof__(adk_join) *join;
    __typeof__(adk_judge_output) *judge_output;
    __typeof__(adk_call) *by_number;
    __typeof__(adk_tally) *tally;
    adk_summary records[SLOTS_MOST];
    uint8_t store[ADK_LARGE_STORE_SIZE];
    size_t store_len;
    uint64_t guest; /* the last one */
    struct buffer buffer, effect; /* buffer is a run's input */
    uint8_t output[ADK_BUFFER_MAX];
    struct cache cache;
    size_t at, len; /* what a lookup found */
};

struct party library = { .on = L0_LIBRARY, .above = L1_LIBRARY, .join = adk_join, .judge_output = adk_judge_output,
                         .by_number = adk_call, .tally = adk_tally },
             model = { .on = L0_MODEL, .above = L1_MODEL, .join = mdl_join, .judge_output = mdl_judge_output,
                       .by_number = mdl_call, .tally = mdl_tally };

static adk_answer call_get(struct party *s)
{
    return s->on.get_state(s->store, s->store_len, 0, s->guest, VCPU, s->buffer.bytes, s->buffer.len);
}

static adk_answer call_set(struct party *s)
{
    return s->on.set_state(s->store, s->store_len, 0, s->guest, VCPU, s->buffer.bytes, s->buffer.len);
}

/* Both run buffers are registered and lent with the greatest size; the input's count says where it ends. */
static adk_answer call_run(struct party *s)
{
    return s->on.run_vcpu(s->store, s->store_len, 0, s->guest, VCPU, s->buffer.bytes, sizeof s->buffer.bytes,
                          s->output, sizeof s->output, s->effect.bytes, s->effect.len, ADK_EXIT_HCALL);
}

/* The same by their number. */
static adk_answer set_by_number(struct party *s)
{
    return s->by_number(s->store, s->store_len, ADK_KIND_SET_STATE, 0, s->guest, VCPU, 0, s->buffer.bytes,
                        s->buffer.len, s->output, 0, s->effect.bytes, 0);
}

static adk_answer run_by_number(struct party *s)
{
    return s->by_number(s->store, s->store_len, ADK_KIND_RUN_VCPU, 0, s->guest, VCPU, ADK_EXIT_HCALL, s->buffer.bytes,
                        sizeof s->buffer.bytes, s->output, sizeof s->output, s->effect.bytes, s->effect.len);
}

/* And through the tally, as many records as slots beside the store. */
static adk_answer set_tallied(struct party *s)
{
    return s->tally(s->records, layout->slots, s->store, s->store_len, ADK_KIND_SET_STATE, 0, s->guest, VCPU, 0,
                    s->buffer.bytes, s->buffer.len, s->output, 0, s->effect.bytes, 0);
}

static adk_answer run_tallied(struct party *s)
{
    return s->tally(s->records, layout->slots, s->store, s->store_len, ADK_KIND_RUN_VCPU, 0, s->guest, VCPU,
                    ADK_EXIT_HCALL, s->buffer.bytes, sizeof s->buffer.bytes, s->output, sizeof s->output,
                    s->effect.bytes, s->effect.len);
}

/* Three calls. The guest comes back under its number, and its vCPU in the slot that was freed. */
static adk_answer call_anew(struct party *s)
{
    adk_answer gone = s->on.delete_guest(s->store, s->store_len, 0, s->guest);
    adk_answer guest = s->on.create_guest(s->store, s->store_len, 0, ADK_TOKEN);
    adk_answer vcpu = s->on.create_vcpu(s->store, s->store_len, 0, guest.r4, VCPU);
    return (adk_answer){ gone.r3 | guest.r3 | vcpu.r3, guest.r4, 0 };
}

/* Values that a vCPU is to have before it is taken, each byte another. */
static uint8_t values[SLOT_SIZE];

/* The values are put back first, and the mark is taken away, so that each call takes the same. */
static adk_answer call_take(struct party *s)
{
    memcpy(s->store + s->store_len - SLOT_SIZE, values, SLOT_SIZE);
    s->store[layout->marks + layout->marks_size - 1] &= 0xFE;
    return s->on.get_state(s->store, s->store_len, ADK_HAND_OVER, s->guest, VCPU, s->buffer.bytes, s->buffer.len);
}

/* The mark is set first, so that each call gives back. */
static adk_answer call_give(struct party *s)
{
    s->store[layout->marks + layout->marks_size - 1] |= 1;
    return s->on.set_state(s->store, s->store_len, ADK_HAND_OVER, s->guest, VCPU, s->buffer.bytes, s->buffer.len);
}

static adk_answer call_judge(struct party *s)
{
    return s->judge_output(s->store, s->store_len, s->guest, VCPU, ADK_EXIT_HCALL, s->buffer.bytes, s->buffer.len);
}

static adk_answer call_lookup(struct party *s)
{
    adk_found f = s->on.lookup(s->buffer.bytes, s->buffer.len, ADK_GSID_VSR(63));
    s->at = f.at;
    s->len = f.len;
    return (adk_answer){ f.r3, f.r4, f.r5 };
}

/* The two buffers stand one behind the other. */
enum { HALF = 82, HALF_BYTES = 4 + HALF * 12 };

static adk_answer call_join(struct party *s)
{
    const uint8_t *both = s->buffer.bytes;
    return s->join(both, HALF_BYTES, both + HALF_BYTES, s->buffer.len - HALF_BYTES, s->output, sizeof s->output);
}

/* ---- The cache ---- */

/* The marks of a cache in which nothing is valid, in which GPR 3 is, and in which all that a run input takes is
   changed: GPR 3 is element 6, and a run input takes elements 2 to 165. */
static const uint64_t NOTHING[CACHE_MARKS] = { 0 }, GPR3_VALID[CACHE_MARKS] = { ADK_BIT(6) };
static const uint64_t ALL_CHANGED[CACHE_MARKS] = { UINT64_MAX >> 2, UINT64_MAX, UINT64_MAX << 26,
                                                   UINT64_MAX >> 2, UINT64_MAX, UINT64_MAX << 26 };

static void put_marks(struct cache *c, const uint64_t *marks)
{
    memcpy(c->marks, marks, sizeof c->marks);
}

static adk_answer call_cache_write(struct party *s)
{
    struct cache *c = &s->cache;
    return s->above.write(c->values, sizeof c->values, c->marks, CACHE_MARKS, ADK_PVR_ARCH_31, ADK_GSID_GPR(3),
                          c->value, sizeof c->value);
}

/* GPR 3 is valid in a cache that is prepared, and stays so. */
static adk_answer call_cache_read(struct party *s)
{
    struct cache *c = &s->cache;
    return s->above.read(s->store, s->store_len, s->guest, VCPU, ADK_PVR_ARCH_31, c->values, sizeof c->values,
                         c->marks, CACHE_MARKS, ADK_GSID_GPR(3), c->value, sizeof c->value);
}

/* The marks are put back first, so that each call does the same; so in a run. */
static adk_answer call_read_through(struct party *s)
{
    put_marks(&s->cache, NOTHING);
    return call_cache_read(s);
}

static adk_answer call_cache_run(struct party *s, const uint64_t *marks)
{
    struct cache *c = &s->cache;
    put_marks(c, marks);
    return s->above.run(s->store, s->store_len, 0, s->guest, VCPU, ADK_PVR_ARCH_31, c->values, sizeof c->values,
                        c->marks, CACHE_MARKS, s->buffer.bytes, sizeof s->buffer.bytes, s->output,
                        sizeof s->output, s->effect.bytes, s->effect.len, ADK_EXIT_HCALL);
}

static adk_answer call_run_none(struct party *s)
{
    return call_cache_run(s, NOTHING);
}

static adk_answer call_run_all(struct party *s)
{
    return call_cache_run(s, ALL_CHANGED);
}

/* ---- Buffers ---- */

static void put(uint8_t *p, unsigned n, uint64_t v)
{
    for (; n-- > 0; v >>= 8)
        p[n] = (uint8_t)v;
}

static void begin(struct buffer *b, unsigned count, uint32_t pvr)
{
    put(b->bytes, 4, count);
    b->len = 4;
    b->pvr = pvr;
}

/* Adds an element, with a value in which each byte is another. */
static void add(struct buffer *b, unsigned id, unsigned size)
{
    uint8_t *p = b->bytes + b->len;
    put(p, 2, id);
    put(p + 2, 2, size);
    for (unsigned i = 0; i < size; i++)
        p[4 + i] = (uint8_t)(b->len + i);
    b->len += 4 + size;
}

static void add_run(struct buffer *b, unsigned first, unsigned last, unsigned size)
{
    for (unsigned id = first; id <= last; id++)
        if (adk_element_offered((uint16_t)id, b->pvr))
            add(b, id, size);
}

static void add_registration(struct buffer *b, unsigned id)
{
    add(b, id, 16);
    put(b->bytes + b->len - 8, 8, ADK_BUFFER_MAX);
}

static void build_none(struct buffer *b)
{
    (void)b;
}

static void build_one(struct buffer *b)
{
    add(b, ADK_GSID_GPR(3), 8);
}

/* 20 elements that a processor may have written, those of the output among them. */
static void build_effect(struct buffer *b)
{
    add_run(b, ADK_GSID_GPR(3), ADK_GSID_GPR(12), 8);
    add_run(b, ADK_GSID_NIA, ADK_GSID_CTR, 8);
    add_run(b, ADK_GSID_CR, ADK_GSID_CR, 4);
    add_run(b, ADK_GSID_HDAR, ADK_GSID_HDAR, 8);
    add_run(b, ADK_GSID_HDSISR, ADK_GSID_HEIR, 4);
    add_run(b, ADK_GSID_ASDR, ADK_GSID_ASDR, 8);
}

/* All that a run input takes, 164 elements or a POWER9 guest's 155; the last is VSR 63. */
static void build_input(struct buffer *b)
{
    add_run(b, 0x0C02, 0x0C02, 8);
    add_run(b, 0x1000, 0x1053, 8);
    add_run(b, 0x2000, 0x200E, 4);
    add_run(b, 0x3000, 0x303F, 16);
}

/* The same 164 elements in two buffers, of which the first has those of 8 bytes. */
static void build_halves(struct buffer *b)
{
    add_run(b, 0x0C02, 0x0C02, 8);
    add_run(b, 0x1000, 0x1050, 8);
    put(b->bytes + b->len, 4, HALF);
    b->len += 4;
    add_run(b, 0x1051, 0x1053, 8);
    add_run(b, 0x2000, 0x200E, 4);
    add_run(b, 0x3000, 0x303F, 16);
}

static void build_registrations(struct buffer *b)
{
    add_registration(b, ADK_GSID_RUN_INPUT);
    add_registration(b, ADK_GSID_RUN_OUTPUT);
}

static void build_166(struct buffer *b)
{
    build_registrations(b);
    build_input(b);
}

static void build_readable(struct buffer *b)
{
    add_run(b, 0x0C00, 0x0C01, 16);
    add_run(b, 0x0C02, 0x0C02, 8);
    add_run(b, 0x1000, 0x1039, 8);
    add_run(b, 0x103B, 0x1053, 8);
    add_run(b, 0x2000, 0x200E, 4);
    add_run(b, 0x3000, 0x303F, 16);
    add_run(b, 0xF000, 0xF000, 8);
    add_run(b, 0xF001, 0xF002, 4);
    add_run(b, 0xF003, 0xF003, 8);
}

/* The last ID is one past the list. */
static void build_bad(struct buffer *b)
{
    build_input(b);
    b->len -= 4 + 16;
    add(b, 0x3040, 16);
}

/* The input that a cache's run writes, with other bytes. */
static void build_input_room(struct buffer *b)
{
    b->len = sizeof b->bytes;
    memset(b->bytes, 0xEE, b->len);
}

/* Room for a form. */
static void build_room(struct buffer *b)
{
    b->len = ADK_FORM_MAX;
}

/* A form of the vCPU with all 170 values: version 1, the id, a zero, 170 ones, six zeros. */
static void build_form(struct buffer *b)
{
    put(b->bytes, 2, 0x1000 | VCPU << 1);
    memset(b->bytes + 2, 0xFF, ADK_FORM_MIN - 2);
    b->bytes[ADK_FORM_MIN - 1] = 0xC0;
    memcpy(b->bytes + ADK_FORM_MIN, values, SLOT_SIZE);
    b->len = ADK_FORM_MAX;
}

/* What a run with exit 0xC00 writes: GPR 3 to 12 of the vCPU, which are there from byte 64 on. */
static void build_output(struct buffer *b)
{
    for (unsigned n = 3; n <= 12; n++) {
        add(b, ADK_GSID_GPR(n), 8);
        memcpy(b->bytes + b->len - 8, values + 40 + 8 * n, 8);
    }
}

static void build_nops(struct buffer *b)
{
    memset(b->bytes + 4, 0, ADK_BUFFER_MAX - 4);
    b->len = ADK_BUFFER_MAX;
}

/* ---- Cases ---- */

static const struct work WORK[] = {
    { "set state, one GPR", call_set, build_one, 1, 0, ADK_OK, 0, ANY_PVR },
    { "set state, the 164 elements of a run input and both registrations",
      call_set, build_166, 166, 0, ADK_OK, 0, ANY_PVR },
    { "get state, all 169 readable thread elements", call_get, build_readable, 169, 0, ADK_OK, 0, ANY_PVR },
    { "set state, refused: the last of 164 is bad", call_set, build_bad, 164, 0, ADK_INVALID_ELEMENT_ID, 163, ANY_PVR },
    { "set state, 16,383 empty NOPs", call_set, build_nops, 16383, 0, ADK_OK, 0, ANY_PVR },
    { "run, exit 0xC00, empty input and effect", call_run, build_none, 0, 0, ADK_OK, ADK_EXIT_HCALL, ANY_PVR },
    { "run, exit 0xC00, 164 elements of input and 20 of effect",
      call_run, build_input, 164, 20, ADK_OK, ADK_EXIT_HCALL, ANY_PVR },
    { "delete a guest, create it and its vCPU, the other slots in use",
      call_anew, build_none, 0, 0, ADK_OK, (uint64_t)THE_GUEST, ANY_PVR },
    { "get state, a vCPU with all 170 values taken", call_take, build_room, 0, 0, ADK_OK, 0, ANY_PVR },
    { "set state, a vCPU with all 170 values given back", call_give, build_form, 0, 0, ADK_OK, 0, ANY_PVR },
    { "set state, POWER9: the 155 elements of its run input",
      call_set, build_input, 155, 0, ADK_OK, 0, ADK_PVR_ARCH_300 },
    { "get state, POWER9: all its 160 readable thread elements",
      call_get, build_readable, 160, 0, ADK_OK, 0, ADK_PVR_ARCH_300 },
    { "judge an output, our own of exit 0xC00", call_judge, build_output, 10, 0, ADK_OK, 0, ANY_PVR },
    { "set state by its number, one GPR", set_by_number, build_one, 1, 0, ADK_OK, 0, ANY_PVR },
    { "run by its number, exit 0xC00, empty input and effect",
      run_by_number, build_none, 0, 0, ADK_OK, ADK_EXIT_HCALL, ANY_PVR },
    { "set state through the tally, one GPR", set_tallied, build_one, 1, 0, ADK_OK, 0, ANY_PVR },
    { "run through the tally, exit 0xC00, empty input and effect",
      run_tallied, build_none, 0, 0, ADK_OK, ADK_EXIT_HCALL, ANY_PVR },
    { "cache, a read of GPR 3 through the store", call_read_through, build_none, 0, 0, ADK_OK, 0, ANY_PVR },
    { "cache, a run, exit 0xC00, none changed",
      call_run_none, build_input_room, 0, 0, ADK_OK, ADK_EXIT_HCALL, ANY_PVR },
    { "cache, a run, exit 0xC00, all 164 changed",
      call_run_all, build_input_room, 0, 0, ADK_OK, ADK_EXIT_HCALL, ANY_PVR },
    { "lookup, the last of 164", call_lookup, build_input, 164, 0, ADK_OK, 0, ANY_PVR },
    { "join, two buffers of 82 elements", call_join, build_halves, HALF, 0, ADK_OK, 2424, ANY_PVR },
    { "cache, a write of GPR 3", call_cache_write, build_none, 0, 0, ADK_OK, 0, ANY_PVR },
    { "cache, a read of GPR 3, valid", call_cache_read, build_none, 0, 0, ADK_OK, 0, ANY_PVR },
};

/* The last ones look at no store. */
enum { WORKS = sizeof WORK / sizeof WORK[0], WITHOUT_STORE = 4 };

size_t case_count(void)
{
    return 2 * WORKS - WITHOUT_STORE;
}

struct measured case_of(size_t number)
{
    enum size size = number < WORKS ? SMALL : LARGE;
    struct measured m = { &WORK[number % WORKS], size, "" };
    snprintf(m.name, sizeof m.name, "%s%s", size == SMALL ? "" : "large store: ", m.work->name);
    return m;
}

/* Its values differ, so that one from a wrong place shows. */
bool fill_store(uint8_t *store)
{
    static struct buffer both;
    size_t n = layout->size;
    unsigned guest = layout->guests;
    uint64_t refused = adk_fresh_store(store, n).r3;
    refused |= adk_set_capabilities(store, n, 0, ADK_CAP_POWER9 | ADK_CAP_POWER10).r3;
    for (unsigned i = 0; i < layout->guests; i++)
        refused |= adk_create_guest(store, n, 0, ADK_TOKEN).r3;
    for (unsigned i = 1; i < layout->slots; i++)
        refused |= adk_create_vcpu(store, n, 0, 1 + i % (guest - 1), i).r3;
    refused |= adk_create_vcpu(store, n, 0, guest, VCPU).r3;
    for (size_t i = layout->header; i < n; i++)
        store[i] = (uint8_t)(101 * i);
    memcpy(values, store + n - SLOT_SIZE, SLOT_SIZE);
    begin(&both, 2, ANY_PVR);
    build_registrations(&both);
    refused |= adk_set_state(store, n, 0, guest, VCPU, both.bytes, both.len).r3;
    return refused == 0;
}

/* Values that differ from each other and from those of the vCPU. */
static void prepare_cache(struct cache *c)
{
    for (size_t i = 0; i < sizeof c->values; i++)
        c->values[i] = (uint8_t)(71 * i + 3);
    memset(c->value, 0x3C, sizeof c->value);
    put_marks(c, GPR3_VALID);
}

static bool same_cache(const struct cache *a, const struct cache *b)
{
    return memcmp(a->values, b->values, sizeof a->values) == 0 && memcmp(a->value, b->value, sizeof a->value) == 0 &&
           memcmp(a->marks, b->marks, sizeof a->marks) == 0;
}

static void prepare_side(struct party *s, const uint8_t *store, const struct work *w)
{
    s->store_len = layout->size;
    s->guest = layout->guests;
    memcpy(s->store, store, s->store_len);
    if (w->pvr != ANY_PVR)
        put(s->store + guest_at(s->guest), 4, w->pvr);
    memset(s->output, 0xEE, sizeof s->output);
    begin(&s->buffer, w->count, w->pvr);
    w->build(&s->buffer);
    begin(&s->effect, w->effect, w->pvr);
    if (w->effect != 0)
        build_effect(&s->effect);
    prepare_cache(&s->cache);
}

bool prepare(const struct measured *m)
{
    static uint8_t store[ADK_LARGE_STORE_SIZE];
    layout = &LAYOUTS[m->size];
    if (!fill_store(store))
        return false;
    prepare_side(&library, store, m->work);
    prepare_side(&model, store, m->work);
    return true;
}

static bool same_buffer(const struct buffer *a, const struct buffer *b)
{
    return a->len == b->len && memcmp(a->bytes, b->bytes, a->len) == 0;
}

/* The records count calls, and one side may have made more of them: so both begin anew. */
static void renew_records(struct party *s)
{
    static const adk_summary new = ADK_NEW_SUMMARY;
    for (unsigned slot = 0; slot < SLOTS_MOST; slot++)
        s->records[slot] = new;
}

bool agree(const struct work *w)
{
    renew_records(&library);
    renew_records(&model);
    adk_answer l = w->call(&library), m = w->call(&model);
    uint64_t r4 = w->r4 == (uint64_t)THE_GUEST ? library.guest : w->r4;
    return l.r3 == w->r3 && l.r4 == r4 && l.r3 == m.r3 && l.r4 == m.r4 && l.r5 == m.r5 &&
           library.at == model.at && library.len == model.len &&
           memcmp(library.store, model.store, model.store_len) == 0 &&
           same_buffer(&library.buffer, &model.buffer) && same_buffer(&library.effect, &model.effect) &&
           memcmp(library.output, model.output, sizeof model.output) == 0 &&
           memcmp(library.records, model.records, sizeof model.records) == 0 &&
           same_cache(&library.cache, &model.cache);
}
