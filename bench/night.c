/* night.c: see night.h. */
#include "night.h"

#include "chance.h"
#include "damage.h"

#include <string.h>

/* ---- A call made, on any L0 ---- */

#define MAKE(form, name, ...)                                                                  \
    static adk_found make_##name(const struct l0 *on, const struct call *c, uint8_t *const *m) \
    {                                                                                          \
        return form(on->name(__VA_ARGS__));                                                    \
    }

static adk_found as_is(adk_found f)
{
    return f;
}

MAKE(plain, fresh_store, m[STORE], c->len[STORE])
MAKE(plain, get_capabilities, m[STORE], c->len[STORE], c->n[0])
MAKE(plain, set_capabilities, m[STORE], c->len[STORE], c->n[0], c->n[1])
MAKE(plain, create_guest, m[STORE], c->len[STORE], c->n[0], c->n[1])
MAKE(plain, create_vcpu, m[STORE], c->len[STORE], c->n[0], c->n[1], c->n[2])
MAKE(plain, get_state, m[STORE], c->len[STORE], c->n[0], c->n[1], c->n[2], m[BUFFER], c->len[BUFFER])
MAKE(plain, set_state, m[STORE], c->len[STORE], c->n[0], c->n[1], c->n[2], m[BUFFER], c->len[BUFFER])
MAKE(plain, run_vcpu, m[STORE], c->len[STORE], c->n[0], c->n[1], c->n[2], m[INPUT], c->len[INPUT], m[OUTPUT],
     c->len[OUTPUT], m[EFFECT], c->len[EFFECT], c->n[3])
MAKE(plain, delete_guest, m[STORE], c->len[STORE], c->n[0], c->n[1])
MAKE(plain, guest_clock, m[STORE], c->len[STORE], c->n[0], c->n[1])
MAKE(plain, convert, m[STORE], c->len[STORE], m[TARGET], c->len[TARGET])
MAKE(as_is, lookup, m[BUFFER], c->len[BUFFER], (uint16_t)c->n[0])

size_t extent(const struct call *c, enum piece p)
{
    size_t whole = p == STORE ? layout->size : p == TARGET ? ADK_LARGE_STORE_SIZE : 0;
    return c->len[p] < whole ? whole : c->len[p];
}

bool same_answer(const adk_found *a, const adk_found *b)
{
    return a->r3 == b->r3 && a->r4 == b->r4 && a->r5 == b->r5 && a->at == b->at && a->len == b->len;
}

/* ---- How the night is made ---- */

static struct manner manner;

/* ---- Numbers: mostly good ones, so that stores fill, and each edge ---- */

static unsigned slot_word(unsigned slot)
{
    return word_in(memory[BEFORE][STORE], slot);
}

bool is_used(unsigned slot)
{
    return (slot_word(slot) & used_bit()) != 0;
}

bool is_marked(unsigned slot)
{
    return has_mark(memory[BEFORE][STORE], slot);
}

/* The word of a slot that is so, from any slot on; 0 where there is none. */
static unsigned word_where(bool (*is_so)(unsigned slot))
{
    unsigned first = below(layout->slots);
    for (unsigned i = 0; i < layout->slots; i++)
        if (is_so((first + i) % layout->slots))
            return slot_word((first + i) % layout->slots);
    return 0;
}

unsigned used_word(void)
{
    return word_where(is_used);
}

uint64_t live_guest(void)
{
    unsigned first = below(layout->guests);
    for (unsigned i = 0; i < layout->guests; i++) {
        unsigned g = 1 + (first + i) % layout->guests;
        if (has_live(memory[BEFORE][STORE], g))
            return g;
    }
    return 1 + first;
}

static uint64_t any_guest(void)
{
    switch (below(16)) {
    case 0: return below((1u << layout->guest_bits) + 1);
    case 1: return 1 + below(layout->guests);
    case 2: return any_number();
    case 3: return alias(live_guest(), layout->guest_bits - 1);
    default: return live_guest();
    }
}

static uint64_t any_vcpu(void)
{
    switch (below(12)) {
    case 0: return any_number();
    case 1: return alias(below(2048), 11);
    case 2: return ADK_VCPU_MAX + below(3) - 1;
    case 3: return alias(vcpu_in(used_word()), 11);
    case 4: return vcpu_in(used_word()); /* so that two guests have a vCPU with one id */
    case 5:
    case 6: return below(3);
    default: return below(2048);
    }
}

static uint64_t bad_flags(void)
{
    switch (below(5)) {
    case 0: return any_bit() | any_bit();
    case 1: return any64() & any64() & any64();
    case 2: return any_width();
    case 3: return percent(10) ? UINT64_MAX : any_bit();
    default: return any_bit();
    }
}

static uint64_t any_flags(uint64_t good)
{
    return percent(85) ? good : good | bad_flags();
}

/* One that is offered, mostly whole so that both logical PVRs can be set; it may be equal to the agreed one, smaller or
   larger; the agreed one; or bits that are not offered, with and without those that are agreed. */
static uint64_t any_bitmap(void)
{
    uint64_t offered = ADK_CAP_POWER9 | ADK_CAP_POWER10;
    uint64_t good = percent(50) ? offered : any64() & offered;
    switch (below(8)) {
    case 0: return any_bit();
    case 1: return percent(50) ? good | any_bit() : agreed() ^ any_bit();
    case 2: return any_number();
    case 3: return percent(50) ? ~offered : any64();
    case 4: return agreed();
    default: return good;
    }
}

static uint64_t any_token(void)
{
    switch (below(12)) {
    case 0: return ADK_TOKEN - 1;
    case 1: return ADK_TOKEN ^ any_bit();
    case 2: return any_number();
    default: return ADK_TOKEN;
    }
}

#define S ADK_STORE_SIZE
#define L ADK_LARGE_STORE_SIZE

/* Beside both sizes, between them, where a field ends, and where only the last 16 bits are a size's. */
static const size_t WRONG_LENGTHS[] = {
    0, 1, 2, 7, 8, 9, 10, 16, 24, 41, 42, 43, 44, 168, 459, 460, 461, 3443, 3444, 3445, S / 2, S - 1820, S - 52, S - 2,
    S - 1, S + 1, S + 2, S + 1820, 32768, L - 65536, 65535, 65536, (S + L) / 2, S + 65536, L - 1820, L - 52, L - 2,
    L - 1, L + 1, L + 2, L + 1820, STORE_CAPACITY
};

#undef S
#undef L

static size_t wrong_length(void)
{
    size_t any = percent(80) ? WRONG_LENGTHS[below(COUNT(WRONG_LENGTHS))] : below(STORE_CAPACITY + 1);
    return any == ADK_STORE_SIZE || any == ADK_LARGE_STORE_SIZE ? any - 1 : any;
}

/* A vendor that keeps its own state looks at no store, so it is lent no wrong one. */
static void lend_store_mostly(struct call *c, unsigned good)
{
    c->len[STORE] = manner.opaque || percent(good) ? layout->size : wrong_length();
}

static void lend_store(struct call *c)
{
    lend_store_mostly(c, 95);
}

/* ---- What each call is given ---- */

/* What a store that is made fresh is to be from then on. */
static const struct layout *any_layout(void)
{
    bool large = manner.large && (manner.no_conversion || percent(50));
    return &LAYOUTS[large ? LARGE : SMALL];
}

/* The layout that the last call, if it is a fresh store, gives the store. */
static const struct layout *made_fresh;

/* A fresh store ends a history, so it is mostly refused. */
static void choose_fresh_store(struct call *c)
{
    lend_store_mostly(c, manner.large ? 20 : 10);
    if (c->len[STORE] != layout->size)
        return;
    made_fresh = any_layout();
    c->len[STORE] = made_fresh->size;
}

static void choose_get_capabilities(struct call *c)
{
    lend_store(c);
    c->n[0] = any_flags(0);
}

static void choose_set_capabilities(struct call *c)
{
    lend_store(c);
    c->n[0] = any_flags(0);
    c->n[1] = any_bitmap();
}

static void choose_create_guest(struct call *c)
{
    lend_store(c);
    c->n[0] = any_flags(0);
    c->n[1] = any_token();
}

static void choose_create_vcpu(struct call *c)
{
    unsigned w = percent(15) ? used_word() : 0;
    lend_store(c);
    c->n[0] = any_flags(0);
    c->n[1] = w != 0 ? guest_in(w) : any_guest();
    c->n[2] = w != 0 ? vcpu_in(w) : any_vcpu();
}

static void choose_delete_guest(struct call *c)
{
    lend_store(c);
    c->n[0] = any_flags(percent(4) ? ADK_DELETE_ALL : 0);
    c->n[1] = any_guest();
}

const uint64_t TIMEBASES[] = {
    0, 1, TB_STEP - 1, TB_STEP, TB_STEP + 1, -2 * TB_STEP - 1, -2 * TB_STEP, -TB_STEP - 1, -TB_STEP, 1 - TB_STEP,
    UINT64_MAX
};

static size_t tb_offset_at(uint64_t guest)
{
    return guest_at(guest) + TB_OFFSET;
}

uint64_t tb_offset(uint64_t guest)
{
    return adk_read_be(memory[BEFORE][STORE] + tb_offset_at(guest), 8);
}

/* Where guest is a number of a guest, its clock is brought close to the wrap at 2^64, by the multiple of TB_STEP that
   is not above its offset or by the next one. */
static uint64_t any_timebase(uint64_t guest)
{
    if (percent(60))
        return TIMEBASES[below(TIMEBASE_COUNT)];
    if (guest < 1 || guest > layout->guests || percent(40))
        return any_number();
    uint64_t offset = tb_offset(guest);
    if (percent(30))
        return offset;
    uint64_t multiple = offset - offset % TB_STEP + (percent(50) ? TB_STEP : 0);
    return 1 - multiple - below(3);
}

static void choose_guest_clock(struct call *c)
{
    lend_store(c);
    c->n[0] = any_guest();
    c->n[1] = any_timebase(c->n[0]);
}

/* ---- The list of a guest ---- */

uint32_t pvr_of(uint64_t guest)
{
    return guest < 1 || guest > layout->guests ? 0 : (uint32_t)adk_read_be(memory[BEFORE][STORE] + guest_at(guest), 4);
}

enum list list_of(uint64_t guest)
{
    return pvr_of(guest) == ADK_PVR_ARCH_300 ? POWER9 : WHOLE;
}

void put_pvr(uint64_t guest, uint32_t pvr)
{
    adk_write_be(memory[BEFORE][STORE] + guest_at(guest), 4, pvr);
}

/* ---- Guest state buffers that are lent ---- */

/* In a night of NOPs every buffer holds nothing else. */
static void build(struct build *g, void (*usual)(struct build *g))
{
    if (manner.only_nops)
        build_nops(g);
    else
        usual(g);
}

void lend(struct call *c, const struct build *g)
{
    share(g->piece, 0, g->high < g->len ? g->len : g->high);
    c->len[g->piece] = g->len;
}

static void choose_lookup(struct call *c)
{
    struct build g = begin_build(BUFFER, 0, false, WHOLE);
    for (size_t i = 0; i < COUNT(g.id); i++)
        g.id[i] = any_id();
    build(&g, build_buffer);
    lend(c, &g);
    c->n[0] = percent(75) ? g.id[below(COUNT(g.id))] : any_id();
}

/* The vCPU of a slot word, or numbers close to one; any where the word is 0. */
static void choose_vcpu_of(struct call *c, unsigned w)
{
    if (w == 0 || percent(12)) {
        c->n[1] = any_guest();
        c->n[2] = any_vcpu();
        return;
    }
    c->n[1] = guest_in(w);
    c->n[2] = vcpu_in(w);
    if (percent(3))
        c->n[1] = alias(c->n[1], layout->guest_bits);
    if (percent(3))
        c->n[2] = alias(c->n[2], 11);
}

/* A vCPU that is there. */
static void choose_vcpu(struct call *c)
{
    choose_vcpu_of(c, used_word());
}

/* Where 16 is told, of a taken vCPU or on giving back one that is not, the buffer is not looked at; that shows where it
   is too short. */
static void shorten_if_wrong_owner(struct call *c)
{
    unsigned slot = slot_of(c);
    bool wrong = slot < layout->slots && is_marked(slot) != (c->kind->hand == GIVING);
    if (!c->kind->wide && wrong && percent(15))
        c->len[BUFFER] = below(4);
}

static struct call last_state;

/* Where nobody writes a store, only a set state registers the run buffers of a vCPU. */
static bool registers_now(const struct call *c)
{
    return manner.opaque && c->kind->access == W && !c->kind->wide && percent(40);
}

/* A guest's list changes with its logical PVR: so that is set often, mostly where it is none and nobody writes it. */
static bool sets_pvr_now(const struct call *c)
{
    return c->kind->access == W && c->kind->wide && percent(manner.opaque && pvr_of(c->n[1]) == 0 ? 80 : 30);
}

/* A buffer for a target that is chosen: what it takes goes by the guest's list. */
static void lend_state(struct call *c)
{
    struct build g = begin_build(BUFFER, c->kind->access, c->kind->wide, list_of(c->n[1]));
    for (size_t i = 0; i < COUNT(g.id); i++)
        g.id[i] = taken_id(&g);
    build(&g, registers_now(c) ? build_registration : sets_pvr_now(c) ? build_pvrs : build_state);
    lend(c, &g);
}

/* Of one target, with a new buffer or as the last such call was given and left it: so a get reads what a set has just
   set, and a set puts back what a get has read. */
static void choose_state(struct call *c)
{
    const struct call *last = &last_state;
    lend_store(c);
    if (percent(12)) {
        *c = (struct call){ c->kind, { c->len[STORE], last->len[BUFFER] }, { 0, last->n[1], last->n[2] }, false };
    } else {
        choose_vcpu(c);
        lend_state(c);
        if (c->kind->wide && percent(50))
            c->n[2] = any_number();
    }
    shorten_if_wrong_owner(c);
    c->n[0] = any_flags(0) & ~c->kind->supported;
    if (c->kind->wide)
        c->n[0] |= ADK_GUEST_WIDE | (percent(2) ? ADK_HAND_OVER : 0);
    last_state = *c;
}

/* ---- A vCPU handed over ---- */

/* The forms that were taken last, by slot, to be given back. */
static struct kept {
    uint64_t guest, vcpu;
    size_t len; /* 0: none */
    uint8_t bytes[ADK_FORM_MAX];
} kept[SLOTS_MOST];

/* The last call, if it is a take of a vCPU that is not taken. */
static struct call take_made;

/* Keeps the form that the last call took, if it was accepted: then the mark is there. */
static void keep_form(void)
{
    unsigned slot = slot_of(&take_made);
    if (take_made.kind != NULL && slot < layout->slots && is_marked(slot)) {
        const uint8_t *form = memory[BEFORE][BUFFER];
        struct kept *k = &kept[slot];
        *k = (struct kept){ take_made.n[1], take_made.n[2], read_form(form).len, { 0 } };
        memcpy(k->bytes, form, k->len);
    }
    take_made.kind = NULL;
}

/* Bit 1, and at times other bits, which are bad beside it; bit 0 would make the call guest-wide. */
static uint64_t hand_over_flags(void)
{
    return ADK_HAND_OVER | (any_flags(0) & ~ADK_GUEST_WIDE);
}

/* Around the least length, and around the greatest. */
static size_t any_hand_over_length(void)
{
    static const size_t edges[] = { 0, 4, ADK_FORM_MIN - 1, ADK_FORM_MIN, ADK_FORM_MAX - 1, ADK_FORM_MAX };
    if (percent(5))
        return ADK_BUFFER_MAX - 1 + below(4);
    return percent(80) ? edges[below(COUNT(edges))] : below(ADK_FORM_MAX);
}

static void choose_take(struct call *c)
{
    lend_store(c);
    choose_vcpu(c);
    c->n[0] = hand_over_flags();
    c->len[BUFFER] = ADK_FORM_MAX + (percent(40) ? 0 : below(200));
    if (percent(25))
        c->len[BUFFER] = percent(40) ? ADK_FORM_MAX - 1 : any_hand_over_length();
    shorten_if_wrong_owner(c);
    unsigned slot = slot_of(c);
    if (slot < layout->slots && !is_marked(slot))
        take_made = *c;
}

/* The form that was taken of the vCPU, of another guest's vCPU with its id, or of any; NULL if there is none such. */
static const struct kept *any_kept(const struct call *c)
{
    unsigned first = below(layout->slots), way = below(10);
    for (unsigned i = 0; i < layout->slots; i++) {
        const struct kept *k = &kept[(first + i) % layout->slots];
        bool guest = k->guest == c->n[1], vcpu = k->vcpu == c->n[2];
        if (k->len != 0 && (way < 7 ? guest && vcpu : way < 9 ? !guest && vcpu : true))
            return k;
    }
    return NULL;
}

/* Lends a form as it is, with bytes behind it, or any bytes at an edge of the length. */
static void lend_form(struct call *c, struct build *g)
{
    size_t len = any_hand_over_length();
    if (percent(20))
        g->len += percent(50) ? 1 + below(8) : below(200);
    else if (percent(20) && (len >= g->len || percent(30)))
        g->len = len;
    lend(c, g);
}

/* Mostly of a taken vCPU: a form that was taken, or one that is built; as it is, or with a part damaged. */
static void choose_give(struct call *c)
{
    struct build g = begin_build(BUFFER, 0, false, WHOLE);
    unsigned w = percent(85) ? word_where(is_marked) : 0;
    lend_store(c);
    choose_vcpu_of(c, w != 0 ? w : used_word());
    c->n[0] = hand_over_flags();
    const struct kept *k = percent(70) ? any_kept(c) : NULL;
    if (k != NULL)
        build_copy(&g, k->bytes, k->len);
    else
        build_form(&g, (unsigned)c->n[2] & ADK_VCPU_MAX);
    if (percent(35))
        damage_part(&g, below(PARTS));
    else if (percent(5))
        flip_bit(g.b, ADK_FORM_MIN);
    lend_form(c, &g);
    shorten_if_wrong_owner(c);
}

/* ---- What a run is given ---- */

#define RUN_FLAGS (ADK_RUN_EXTERNAL_INTERRUPT | ADK_RUN_PRIVILEGED_DOORBELL | ADK_RUN_SYSTEM_RESET)

const uint64_t EXITS[] = { 0x000, 0x980, 0xC00, 0xE00, 0xE20, 0xE40, 0xF80 };

const uint64_t NO_EXITS[] = {
    0x001, 0x00C, 0x0C0, 0x100, 0x500, 0x900, 0x97F, 0x981, 0xBFF, 0xC01, 0xC20, 0xDFF, 0xE01, 0xE1F, 0xE21, 0xE3F,
    0xE41, 0xE60, 0xE80, 0xF60, 0xF7F, 0xF81, 0xFFF, 0x1000, 0x1C00, 0x10000, 0x10C00, 0x100000000, 0x100000C00,
    0x0C00000000000000, 0x8000000000000000, 0x8000000000000C00, 0xFFFFFFFFFFFFFC00, 0xFFFFFFFFFFFFFFFF
};

static uint64_t any_exit(void)
{
    uint64_t known = EXITS[below(COUNT(EXITS))];
    switch (below(16)) {
    case 0: return NO_EXITS[below(COUNT(NO_EXITS))];
    case 1: return percent(50) ? alias(known, 0) : any_number();
    default: return known;
    }
}

/* An element of some exit's output. */
static unsigned output_id(void)
{
    switch (below(3)) {
    case 0: return 0xF000 + below(4);
    case 1: return 0x102D;
    default: return 0x1003 + below(10);
    }
}

unsigned slot_of(const struct call *c)
{
    unsigned slot = 0;
    if (c->n[1] >> layout->guest_bits != 0 || c->n[2] > ADK_VCPU_MAX)
        return layout->slots;
    while (slot < layout->slots && slot_word(slot) != word_of(c->n[1], (unsigned)c->n[2]))
        slot++;
    return slot;
}

/* The place in the store of element 0x0C00 or 0x0C01; the size is in its second 8 bytes. */
static size_t registration_at(unsigned slot, unsigned id)
{
    return slot_at(slot) + 16 * (id - 0x0C00);
}

uint64_t registered_size(unsigned slot, unsigned id)
{
    return adk_read_be(memory[BEFORE][STORE] + registration_at(slot, id) + 8, 8);
}

void put_registered_size(unsigned slot, unsigned id, uint64_t size)
{
    adk_write_be(memory[BEFORE][STORE] + registration_at(slot, id) + 8, 8, size);
}

/* Registers a run buffer for so many bytes, or near that, at an edge, as anything, or leaves what set state set. Value
   bytes are free, so sizes that break the rule are put there too. */
static void register_buffer(unsigned slot, unsigned id, size_t size)
{
    size_t at = registration_at(slot, id);
    switch (below(24)) {
    case 0: put_registered_size(slot, id, any_number()); break;
    case 1: put_edge(memory[BEFORE][STORE] + at, id, false); break;
    case 2: put_edge(memory[BEFORE][STORE] + at, id, true); break;
    case 3:
    case 4: put_registered_size(slot, id, size - below(24)); break;
    case 5:
    case 6: put_registered_size(slot, id, size + below(64)); break;
    case 7: break;
    default: put_registered_size(slot, id, size); break;
    }
    share(STORE, at, 16);
}

/* How much of a run buffer is lent: as registered, one byte or many less or more, or so many bytes. */
static size_t lent_length(uint64_t registered, size_t otherwise)
{
    if (registered > ADK_BUFFER_MAX + 1)
        return otherwise;
    switch (below(20)) {
    case 0: return registered - (registered > 0);
    case 1: return below((unsigned)registered + 1);
    case 2: return registered + 1;
    case 3: return registered + below(300);
    case 4: return otherwise;
    default: return registered;
    }
}

/* Registers the run buffers of the vCPU and lends them. The input is built; the output's first bytes are anything, so
   that each byte which is written or left shows. */
static void lend_run_buffers(struct call *c)
{
    size_t input = c->len[INPUT], output = ADK_RUN_OUTPUT_MIN + (percent(70) ? 0 : below(200));
    unsigned slot = slot_of(c);
    any_bytes(memory[BEFORE][OUTPUT], 160);
    share(OUTPUT, 0, 160);
    c->len[OUTPUT] = output;
    if (slot == layout->slots)
        return;
    if (!manner.opaque) {
        register_buffer(slot, 0x0C00, input);
        register_buffer(slot, 0x0C01, output);
    }
    c->len[INPUT] = lent_length(registered_size(slot, 0x0C00), input);
    c->len[OUTPUT] = lent_length(registered_size(slot, 0x0C01), output);
}

/* Input and effect share IDs with each other and with the outputs: so it shows which came last. */
static void choose_run_vcpu(struct call *c)
{
    lend_store(c);
    choose_vcpu(c);
    enum list list = list_of(c->n[1]);
    struct build input = begin_build(INPUT, RUN_IN, false, list), effect = begin_build(EFFECT, RUN_EFFECT, false, list);
    c->n[0] = any_flags(any64() & RUN_FLAGS);
    c->n[3] = any_exit();
    for (size_t i = 0; i < COUNT(effect.id); i++) {
        effect.id[i] = percent(60) ? output_id() : taken_id(&effect);
        input.id[i] = takes(RUN_IN, false, list, row_of(effect.id[i])) ? effect.id[i] : taken_id(&input);
    }
    build(&input, manner.opaque && percent(5) ? build_full : build_run);
    lend(c, &input);
    build(&effect, build_run);
    lend(c, &effect);
    lend_run_buffers(c);
}

/* ---- A store converted ---- */

/* The last call, if it is a conversion whose target the night goes on with where it is accepted. */
static bool goes_on_with_target;

/* The target's bytes are anything, but that the last is not zero: a conversion makes it so. Where the store is the
   bench's, it may go on as it is. */
static void choose_convert(struct call *c)
{
    uint8_t *target = memory[BEFORE][TARGET];
    lend_store(c);
    c->len[TARGET] = ADK_LARGE_STORE_SIZE;
    if (percent(30))
        c->len[TARGET] = percent(10) ? ADK_STORE_SIZE : wrong_length();
    any_bytes(target, ADK_LARGE_STORE_SIZE);
    target[ADK_LARGE_STORE_SIZE - 1] |= 1;
    share(TARGET, 0, ADK_LARGE_STORE_SIZE);
    goes_on_with_target = manner.opaque || percent(20);
}

/* ---- The table of calls ---- */

#define ON(name) .choose = choose_##name, .make = make_##name
#define STATE(name) .choose = choose_state, .make = make_##name
#define STATE_FLAGS (ADK_GUEST_WIDE | ADK_HAND_OVER)

/* The first is the one that an episode begins with. */
const struct kind KINDS[] = {
    { "fresh_store", ON(fresh_store), .use = { [STORE] = WRITTEN }, .weight = { 2, 2, 2 }, .answers = A(0) | A(1) },
    { "get_capabilities", ON(get_capabilities), .number = { "flags" }, .use = { [STORE] = READ },
      .weight = { 16, 16, 16 }, .answers = A(0) | A(1) | A(2) },
    { "set_capabilities", ON(set_capabilities), .number = { "flags", "bitmap" }, .use = { [STORE] = WRITTEN },
      .weight = { 12, 12, 12 }, .answers = A(0) | A(1) | A(2) | A(3) | A(21) },
    { "create_guest", ON(create_guest), .number = { "flags", "token" }, .use = { [STORE] = WRITTEN },
      .weight = { 30, 20, 8 }, .answers = A(0) | A(1) | A(2) | A(3) | A(9) },
    { "create_vcpu", ON(create_vcpu), .number = { "flags", "guest", "vcpu" }, .use = { [STORE] = WRITTEN },
      .weight = { 60, 40, 15 }, .answers = A(0) | A(1) | A(2) | A(3) | A(4) | A(10) | A(9) },
    { "get_state thread", STATE(get_state), .number = { "flags", "guest", "vcpu" },
      .use = { [STORE] = READ, [BUFFER] = WRITTEN }, .weight = { 50, 60, 20 },
      .answers = A(0) | A(1) | A(2) | A(3) | A(4) | A(16) | A(5) | A(6) | A(7), .both = A(6) | A(7),
      .supported = STATE_FLAGS, .access = R, .wide = false },
    { "get_state wide", STATE(get_state), .number = { "flags", "guest", "vcpu" },
      .use = { [STORE] = READ, [BUFFER] = WRITTEN }, .weight = { 25, 30, 15 },
      .answers = A(0) | A(1) | A(2) | A(3) | A(5) | A(6) | A(7), .both = A(6) | A(7),
      .supported = ADK_GUEST_WIDE, .access = R, .wide = true },
    { "get_state taking", .choose = choose_take, .make = make_get_state, .number = { "flags", "guest", "vcpu" },
      .use = { [STORE] = WRITTEN, [BUFFER] = WRITTEN }, .weight = { 12, 15, 5 },
      .answers = A(0) | A(1) | A(2) | A(3) | A(4) | A(16) | A(5), .supported = STATE_FLAGS, .hand = TAKING },
    { "set_state thread", STATE(set_state), .number = { "flags", "guest", "vcpu" },
      .use = { [STORE] = WRITTEN, [BUFFER] = READ }, .weight = { 70, 90, 30 },
      .answers = A(0) | A(1) | A(2) | A(3) | A(4) | A(16) | A(5) | A(6) | A(7) | A(8), .both = A(6) | A(7) | A(8),
      .supported = STATE_FLAGS, .access = W, .wide = false },
    { "set_state wide", STATE(set_state), .number = { "flags", "guest", "vcpu" },
      .use = { [STORE] = WRITTEN, [BUFFER] = READ }, .weight = { 40, 50, 25 },
      .answers = A(0) | A(1) | A(2) | A(3) | A(5) | A(6) | A(7) | A(8), .both = A(6) | A(7) | A(8),
      .supported = ADK_GUEST_WIDE, .access = W, .wide = true },
    { "set_state giving", .choose = choose_give, .make = make_set_state, .number = { "flags", "guest", "vcpu" },
      .use = { [STORE] = WRITTEN, [BUFFER] = READ }, .weight = { 80, 104, 40 },
      .answers = A(0) | A(1) | A(2) | A(3) | A(4) | A(16) | A(5) | A(17), .supported = STATE_FLAGS, .hand = GIVING },
    { "run_vcpu", ON(run_vcpu), .number = { "flags", "guest", "vcpu", "exit_reason" },
      .use = { [STORE] = WRITTEN, [INPUT] = READ, [OUTPUT] = WRITTEN, [EFFECT] = READ }, .weight = { 130, 170, 50 },
      .answers = A(0) | A(1) | A(2) | A(3) | A(4) | A(16) | A(6) | A(7) | A(11) | A(12) | A(13) | A(14),
      .both = A(11) | A(12) | A(14), .supported = RUN_FLAGS },
    { "delete_guest", ON(delete_guest), .number = { "flags", "guest" }, .use = { [STORE] = WRITTEN },
      .weight = { 3, 15, 40 }, .answers = A(0) | A(1) | A(2) | A(3), .supported = ADK_DELETE_ALL },
    { "guest_clock", ON(guest_clock), .number = { "guest", "timebase" }, .use = { [STORE] = READ },
      .weight = { 30, 30, 30 }, .answers = A(0) | A(1) | A(3) },
    { "convert", ON(convert), .use = { [STORE] = READ, [TARGET] = WRITTEN }, .weight = { 40, 40, 40 },
      .answers = A(0) | A(1) | A(5) },
    { "lookup", ON(lookup), .number = { "id" }, .use = { [BUFFER] = READ }, .weight = { 50, 50, 50 },
      .answers = A(0) | A(5) | A(6) | A(7), .both = A(6) | A(7) },
};

uint64_t *number_named(struct call *c, const char *name)
{
    for (int i = 0; i < NUMBERS && c->kind->number[i] != NULL; i++)
        if (strcmp(c->kind->number[i], name) == 0)
            return &c->n[i];
    return NULL;
}

bool is_run(const struct kind *k)
{
    return k->use[EFFECT] != NOT_LENT;
}

bool goes_by_list(const struct kind *k)
{
    return is_run(k) || (k->access != 0 && !k->wide);
}

bool tells_place(const struct kind *k, uint64_t answer)
{
    bool state = k->access != 0 || is_run(k);
    if (answer == ADK_INVALID_ELEMENT_ID)
        return state;
    return answer == ADK_INVALID_ELEMENT_SIZE || answer == ADK_INVALID_ELEMENT_VALUE || answer == ADK_BAD_EFFECT;
}

bool is_clock(const struct kind *k)
{
    return k->make == make_guest_clock;
}

bool is_delete(const struct kind *k)
{
    return k->make == make_delete_guest;
}

bool sets_capabilities(const struct kind *k)
{
    return k->make == make_set_capabilities;
}

bool converts(const struct kind *k)
{
    return k->make == make_convert;
}

bool makes_fresh(const struct kind *k)
{
    return k->make == make_fresh_store;
}

unsigned record_kind(const struct kind *k)
{
    static const __typeof__(k->make) makers[] = {
        [ADK_KIND_GET_CAPABILITIES] = make_get_capabilities, [ADK_KIND_SET_CAPABILITIES] = make_set_capabilities,
        [ADK_KIND_CREATE_GUEST] = make_create_guest, [ADK_KIND_CREATE_VCPU] = make_create_vcpu,
        [ADK_KIND_GET_STATE] = make_get_state, [ADK_KIND_SET_STATE] = make_set_state,
        [ADK_KIND_RUN_VCPU] = make_run_vcpu, [ADK_KIND_DELETE_GUEST] = make_delete_guest
    };
    unsigned kind = COUNT(makers) - 1;
    while (kind > 0 && k->make != makers[kind])
        kind--;
    return kind;
}

bool is_made(const struct kind *k, struct manner m)
{
    return !converts(k) || (m.large && !m.no_conversion);
}

bool can_answer(const struct kind *k, int answer, struct manner m)
{
    return is_made(k, m) && (k->answers & A(answer)) != 0 && !(m.opaque && answer == ADK_BAD_STORE);
}

const struct layout *layout_of_night(struct manner m)
{
    return &LAYOUTS[m.large ? LARGE : SMALL];
}

/* What is called most often changes now and then, so that the store fills and empties. */
static unsigned mood;

/* A small store is to have guests and vCPUs when the night goes on with its conversion, best a taken one. A large one
   is refused, at times; where a vendor keeps its own state, it is not asked for that. */
static unsigned conversion_weight(unsigned weight)
{
    if (layout == &LAYOUTS[SMALL])
        return manner.opaque && !any_mark(memory[BEFORE][STORE]) ? weight / 10 : weight;
    return manner.opaque ? 0 : weight / 10;
}

/* What is agreed stays while a guest lives. So it is mostly changed while none does: then guests come to live with each
   set of capabilities, and both logical PVRs are set. A vCPU is mostly given back while one is taken. A large store
   takes longer to fill. A night of NOPs hands no values over. */
static unsigned weight_of(const struct kind *k)
{
    const uint8_t *s = memory[BEFORE][STORE];
    unsigned weight = k->weight[mood];
    if (!is_made(k, manner) || (k->hand != NO_HAND && manner.only_nops))
        return 0;
    if (converts(k))
        return conversion_weight(weight);
    if (k->hand == GIVING)
        return any_mark(s) ? weight : weight / 16;
    if (k->answers & A(ADK_NOT_ENOUGH_RESOURCES) && mood == 0 && layout == &LAYOUTS[LARGE])
        return 10 * weight;
    return sets_capabilities(k) && !any_live(s) ? 4 * weight : weight;
}

static const struct kind *any_kind(void)
{
    unsigned all = 0, k = 0;
    for (size_t i = 0; i < COUNT(KINDS); i++)
        all += weight_of(&KINDS[i]);
    for (unsigned at = below(all); at >= weight_of(&KINDS[k]); k++)
        at -= weight_of(&KINDS[k]);
    return &KINDS[k];
}

/* ---- The night ---- */

/* From now on the store has this layout. */
static void change_layout(const struct layout *to)
{
    if (layout != to)
        forget_damage();
    layout = to;
}

/* What became of the store by the last call, if it was accepted: a fresh one of the size that was lent, or a
   conversion, by which the target's last byte became zero; then the target is the store. */
static bool follow_store(void)
{
    const uint8_t *target = memory[BEFORE][TARGET];
    bool converted = goes_on_with_target && target[ADK_LARGE_STORE_SIZE - 1] == 0;
    if (made_fresh != NULL)
        change_layout(made_fresh);
    if (converted) {
        change_layout(&LAYOUTS[LARGE]);
        memcpy(memory[BEFORE][STORE], target, layout->size);
        share(STORE, 0, layout->size);
    }
    made_fresh = NULL;
    goes_on_with_target = false;
    return converted;
}

void begin_night(struct manner m)
{
    manner = m;
    mood = 0;
    forget_damage();
    made_fresh = NULL;
    goes_on_with_target = false;
    last_state = take_made = (struct call){ 0 };
    memset(kept, 0, sizeof kept);
    layout = any_layout();
    memset(memory[BEFORE][STORE], 0, layout->size);
    share(STORE, 0, layout->size);
}

struct call next_call(uint64_t number)
{
    if (number % 256 == 0)
        mood = below(MOODS);
    keep_form();
    bool converted = follow_store();
    if (!manner.opaque)
        touch_store();
    struct call c = { manner.opaque && number == 1 ? KINDS : any_kind(), { 0 }, { 0 }, false };
    c.kind->choose(&c);
    c.was_target = converted;
    return c;
}
