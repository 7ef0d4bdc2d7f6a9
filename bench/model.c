/*
 * model.c: the rules of document 01 in plain C, as the requests of 02 amend them. It shares no text with the library,
 * so that a mistake in either shows as a difference. Quoted names are sections of 01; L1, L2, L4 to L10 and
 * L12 are requests of 02.
 */
#include "model.h"

#include <stdbool.h>
#include <string.h>

/* "The store", what both sizes have: capabilities and live guests at the same place, the values of a guest and of a
   slot laid out alike, vCPU ids of 11 bits. */
enum {
    CAPABILITIES = 0,
    LIVE = 8,
    GUEST_SIZE = 52,
    PVR = 0,
    TB_OFFSET = 4,
    SLOT_SIZE = 1820,
    SLOTS_MOST = 64,
    VCPU_BITS = 11,
    VCPU_MAX = 2047
};

/* "The store", and L6's large one: where the fields are, and how many guests and slots there are. */
struct layout {
    size_t size;
    unsigned guests, slots, guest_bits;
    unsigned live_bytes; /* a bit for each guest; those behind the last guest's are zero */
    size_t marks, words, guest_values, slot_values;
};

/* L1 puts two bytes of marks behind the slot words, and values move by two. */
static const struct layout SMALL = {
    .size = 29580, .guests = 8, .slots = 16, .guest_bits = 4, .live_bytes = 2,
    .words = 10, .marks = 42, .guest_values = 44, .slot_values = 460
};

/* L6: "capabilities 8 bytes, live guests 8 (guest 1 first, last bit zero), taken marks 8, slot words 144, then 52 bytes
   per guest and 1,820 per slot: 119,924 bytes". */
static const struct layout LARGE = {
    .size = 119924, .guests = 63, .slots = 64, .guest_bits = 6, .live_bytes = 8,
    .marks = 16, .words = 24, .guest_values = 168, .slot_values = 3444
};

/* "The store": offered are bits 1 and 2, 0x6000000000000000. */
static const uint64_t OFFERED = UINT64_C(0x6000000000000000);

/* "Answers", flag bits: bit 0, the most significant, is guest-wide in get and set state and all guests in delete; L1:
   bit 1 takes or gives back a vCPU in get and set state; run supports bits 0 to 2; the other calls none. */
static const uint64_t BIT_0 = UINT64_C(0x8000000000000000);
static const uint64_t BIT_1 = UINT64_C(0x4000000000000000);
static const uint64_t BITS_0_TO_2 = UINT64_C(0xE000000000000000);

/* "The store" and "The guest state buffer": numbers have their most significant byte first. */
static uint64_t big64(uint64_t v)
{
#if __BYTE_ORDER__ == __ORDER_LITTLE_ENDIAN__
    return __builtin_bswap64(v);
#else
    return v;
#endif
}

static unsigned load16(const uint8_t *p)
{
    return (unsigned)p[0] << 8 | p[1];
}

static uint32_t load32(const uint8_t *p)
{
    return (uint32_t)p[0] << 24 | (uint32_t)p[1] << 16 | (uint32_t)p[2] << 8 | p[3];
}

static uint64_t load64(const uint8_t *p)
{
    uint64_t v;
    memcpy(&v, p, sizeof v);
    return big64(v);
}

static void store16(uint8_t *p, unsigned v)
{
    p[0] = (uint8_t)(v >> 8);
    p[1] = (uint8_t)v;
}

static void store32(uint8_t *p, uint32_t v)
{
    store16(p, v >> 16);
    store16(p + 2, v);
}

static void store64(uint8_t *p, uint64_t v)
{
    v = big64(v);
    memcpy(p, &v, sizeof v);
}

/* "Answers": R4 and R5 are 0 where nothing is said. */
static adk_answer answer(uint64_t r3, uint64_t r4)
{
    return (adk_answer){ r3, r4, 0 };
}

/* Fields are packed most significant first: bit 0 is the most significant of the first byte. */
static bool bit(const uint8_t *p, unsigned n)
{
    return (p[n / 8] >> (7 - n % 8) & 1) != 0;
}

static void put_bit(uint8_t *p, unsigned n, bool one)
{
    uint8_t mask = (uint8_t)(0x80 >> n % 8);
    p[n / 8] = one ? p[n / 8] | mask : p[n / 8] & (uint8_t)~mask;
}

/* "The store": the live guests, guest 1 first, and the bits behind them, as the first of 64. */
static uint64_t live_bits(const struct layout *l, const uint8_t *s)
{
    return load64(s + LIVE) & UINT64_MAX << (64 - 8 * l->live_bytes);
}

static bool live(const struct layout *l, const uint8_t *s, uint64_t guest)
{
    return guest >= 1 && guest <= l->guests && live_bits(l, s) << (guest - 1) >> 63 != 0;
}

/* A slot word, from the most significant bit down: used (1 bit), guest id, vCPU id (11). */
static uint32_t word_of(const struct layout *l, uint64_t guest, uint64_t vcpu)
{
    return (uint32_t)(UINT64_C(1) << l->guest_bits | guest) << VCPU_BITS | (uint32_t)vcpu;
}

static bool used(const struct layout *l, uint32_t w)
{
    return w >> (l->guest_bits + VCPU_BITS) != 0;
}

static unsigned guest_of(const struct layout *l, uint32_t w)
{
    return w >> VCPU_BITS & ((1u << l->guest_bits) - 1);
}

/* Words follow each other without gaps, so one of 18 bits begins within a byte. */
static unsigned width(const struct layout *l)
{
    return 1 + l->guest_bits + VCPU_BITS;
}

static inline uint32_t word(const struct layout *l, const uint8_t *s, unsigned slot)
{
    unsigned at = width(l) * slot;
    if (width(l) == 16)
        return load16(s + l->words + 2 * slot);
    return load32(s + l->words + at / 8) << at % 8 >> (32 - width(l));
}

static void put_word(const struct layout *l, uint8_t *s, unsigned slot, uint32_t w)
{
    unsigned at = width(l) * slot, behind = 32 - width(l) - at % 8;
    uint8_t *p = s + l->words + at / 8;
    uint32_t others = load32(p) & ~(((UINT32_C(1) << width(l)) - 1) << behind);
    store32(p, others | w << behind);
}

/* "The guest state buffer", value rules: the logical PVRs. */
enum { PVR_POWER9 = 0x0F000005, PVR_POWER10 = 0x0F000006 };

/* Where the values of a guest begin, and those of a slot. */
static size_t guest_at(const struct layout *l, uint64_t guest)
{
    return l->guest_values + GUEST_SIZE * (guest - 1);
}

static size_t slot_at(const struct layout *l, unsigned slot)
{
    return l->slot_values + SLOT_SIZE * slot;
}

/* 02, L7: "the guest's PVR at the start of the call decides". The guest is live. */
static bool is_power9(const struct layout *l, const uint8_t *s, uint64_t guest)
{
    return load32(s + guest_at(l, guest) + PVR) == PVR_POWER9;
}

/* L1: the taken mark of a slot, slot 0 the first bit. */
static bool marked(const struct layout *l, const uint8_t *s, unsigned slot)
{
    return load64(s + l->marks) << slot >> 63 != 0;
}

static void put_mark(const struct layout *l, uint8_t *s, unsigned slot, bool mark)
{
    put_bit(s + l->marks, slot, mark);
}

/*
 * What goes over all slot words is in line at every use, with a layout that is known there: speed.c measures the
 * library by this code, and the compiler makes the better loop where it knows how many words there are.
 */
#define KNOWN __attribute__((always_inline)) static inline

/* How many of the numbers, the last 16 bits of each word, are those of w. */
KNOWN unsigned alike(const struct layout *l, const uint16_t *last, uint32_t w)
{
    uint16_t n = 0;
    for (unsigned i = 0; i < l->slots; i++)
        n += last[i] == (uint16_t)w;
    return n;
}

/* Whether another slot has the word of this one. */
static bool is_repeated(const struct layout *l, const uint8_t *s, unsigned slot)
{
    for (unsigned i = 0; i < l->slots; i++)
        if (i != slot && word(l, s, i) == word(l, s, slot))
            return true;
    return false;
}

/* "The store", well formed: each used word names a live guest, no two the same pair, unused words zero; L1: no mark on
   an unused slot. The last 16 bits are all of a small store's word, and tell most words of a large one apart. */
KNOWN bool words_well_formed(const struct layout *l, const uint8_t *s)
{
    uint16_t last[SLOTS_MOST];
    for (unsigned slot = 0; slot < l->slots; slot++)
        last[slot] = (uint16_t)word(l, s, slot);
    for (unsigned slot = 0; slot < l->slots; slot++) {
        uint32_t w = word(l, s, slot);
        if (w == 0 && marked(l, s, slot))
            return false;
        if (w != 0 && (!used(l, w) || !live(l, s, guest_of(l, w))))
            return false;
        if (w != 0 && alike(l, last, w) > 1 && is_repeated(l, s, slot))
            return false;
    }
    return true;
}

/* "The store", well formed: byte 9 zero, L6: the last live bit zero; no capability but bits 1 and 2, and the words. */
KNOWN bool well_formed(const struct layout *l, const uint8_t *s)
{
    return live_bits(l, s) << l->guests == 0 && (load64(s + CAPABILITIES) & ~OFFERED) == 0 && words_well_formed(l, s);
}

/* L6: "Both sizes stay in use and are told apart by length." The layout of a well-formed store, or NULL. */
static const struct layout *layout_of(const uint8_t *s, size_t len)
{
    if (len == SMALL.size)
        return well_formed(&SMALL, s) ? &SMALL : NULL;
    if (len == LARGE.size)
        return well_formed(&LARGE, s) ? &LARGE : NULL;
    return NULL;
}

/* "Answers", 2: R4 is the lowest-numbered bad bit, so of two bad bits the more significant. bad is not 0. */
static adk_answer bad_flag(uint64_t bad)
{
    return answer(2, (uint64_t)__builtin_clzll(bad));
}

/* "The store": a fresh store is all zeros; a buffer of another length is 1. */
adk_answer mdl_fresh_store(uint8_t *store, size_t store_len)
{
    if (store_len != SMALL.size && store_len != LARGE.size)
        return answer(1, 0);
    memset(store, 0, store_len);
    return answer(0, 0);
}

/* "Answers", others 1, 2, 3, and 0: get capabilities gives the bitmap that is offered. */
adk_answer mdl_get_capabilities(const uint8_t *store, size_t store_len, uint64_t flags)
{
    if (layout_of(store, store_len) == NULL)
        return answer(1, 0);
    if (flags != 0)
        return bad_flag(flags);
    return answer(0, OFFERED);
}

/* "Answers", others 1, 2, 3, and 3: capabilities have R4 1, R5 0. 02, L12: 21 after 3 while any guest lives, unless the
   bitmap equals the agreed one. "The store": set stores the bitmap. */
adk_answer mdl_set_capabilities(uint8_t *store, size_t store_len, uint64_t flags, uint64_t bitmap)
{
    const struct layout *l = layout_of(store, store_len);
    if (l == NULL)
        return answer(1, 0);
    if (flags != 0)
        return bad_flag(flags);
    if ((bitmap & ~OFFERED) != 0)
        return answer(3, 1);
    if (live_bits(l, store) != 0 && bitmap != load64(store + CAPABILITIES))
        return answer(21, 0);
    store64(store + CAPABILITIES, bitmap);
    return answer(0, 0);
}

/* "Answers", create guest 1, 2, 3, 9. "The store": create takes the lowest free id and zeroes its values. */
adk_answer mdl_create_guest(uint8_t *store, size_t store_len, uint64_t flags, uint64_t token)
{
    const struct layout *l = layout_of(store, store_len);
    if (l == NULL)
        return answer(1, 0);
    if (flags != 0)
        return bad_flag(flags);
    if (token != UINT64_MAX)
        return answer(3, 0);
    for (unsigned guest = 1; guest <= l->guests; guest++)
        if (!live(l, store, guest)) {
            put_bit(store + LIVE, guest - 1, true);
            memset(store + guest_at(l, guest), 0, GUEST_SIZE);
            return answer(0, guest);
        }
    return answer(9, 0);
}

/* The first slot that holds the word, or the number of slots. */
KNOWN unsigned slot_in(const struct layout *l, const uint8_t *s, uint32_t w)
{
    unsigned slot = 0;
    while (slot < l->slots && word(l, s, slot) != w)
        slot++;
    return slot;
}

static unsigned slot_with(const struct layout *l, const uint8_t *s, uint32_t w)
{
    return l == &SMALL ? slot_in(&SMALL, s, w) : slot_in(&LARGE, s, w);
}

/* "Answers", create vCPU 1, 2, 3, 4, 10, 9. "The store": create takes the lowest free slot and zeroes its values; L1:
   it clears its mark. */
adk_answer mdl_create_vcpu(uint8_t *store, size_t store_len, uint64_t flags, uint64_t guest, uint64_t vcpu)
{
    const struct layout *l = layout_of(store, store_len);
    if (l == NULL)
        return answer(1, 0);
    if (flags != 0)
        return bad_flag(flags);
    if (!live(l, store, guest))
        return answer(3, 0);
    if (vcpu > VCPU_MAX)
        return answer(4, 0);
    uint32_t w = word_of(l, guest, vcpu);
    if (slot_with(l, store, w) < l->slots)
        return answer(10, 0);
    unsigned slot = slot_with(l, store, 0);
    if (slot == l->slots)
        return answer(9, 0);
    put_word(l, store, slot, w);
    put_mark(l, store, slot, false);
    memset(store + slot_at(l, slot), 0, SLOT_SIZE);
    return answer(0, 0);
}

/* L1, the form of a vCPU's state: 24 to 1,844 bytes. Its 170 presence bits are bits 16 to 185, and six zeros follow. */
enum { FORM_MIN = 24, FORM_MAX = 1844, VERSION = 1, PRESENCE = 16, ELEMENTS = 170, SIX_BITS = 0x3F };

/*
 * "The guest state buffer", the list: R and W in each scope, as bits of one number. A call asks for one of them, since
 * get needs R or RW, set needs W or RW, and the scope must be the call's. An ID with none is unlisted. A run asks for
 * two more: its input takes what a thread set takes, except 0x0C00 and 0x0C01; an effect takes any listed thread
 * element except 0x0C00 to 0x0C02.
 */
enum {
    GUEST_R = 1,
    GUEST_W = 2,
    THREAD_R = 4,
    THREAD_W = 8,
    INPUT = 16,
    EFFECT = 32,
    GUEST_RW = GUEST_R | GUEST_W,
    THREAD_RW = THREAD_R | THREAD_W,
    REGISTER = THREAD_RW | INPUT | EFFECT
};

/* The elements that are more than a row of the list. */
enum {
    NOP = 0x0000,
    VCPU_STATE_SIZE = 0x0001,
    RUN_OUTPUT_SIZE = 0x0002,
    LOGICAL_PVR = 0x0003,
    RUN_INPUT = 0x0C00,
    RUN_OUTPUT = 0x0C01,
    PPR = 0x103A
};

struct element {
    unsigned access;
    unsigned size;
    unsigned at; /* "The store": its place in the 52 bytes of a guest or the 1,820 of a slot */
};

/* In line at every use, which the compiler would not do by itself: speed.c measures the library by this code. */
__attribute__((always_inline)) static inline struct element element(unsigned id)
{
    if (id >= 0x1000 && id <= 0x1053)
        return (struct element){ id == PPR ? REGISTER & ~THREAD_R : REGISTER, 8, 40 + 8 * (id - 0x1000) };
    if (id >= 0x3000 && id <= 0x303F)
        return (struct element){ REGISTER, 16, 772 + 16 * (id - 0x3000) };
    if (id >= 0x2000 && id <= 0x200E)
        return (struct element){ REGISTER, 4, 712 + 4 * (id - 0x2000) };
    switch (id) {
    case NOP: return (struct element){ GUEST_RW | REGISTER, 0, 0 };
    case VCPU_STATE_SIZE:
    case RUN_OUTPUT_SIZE: return (struct element){ GUEST_R, 8, 0 };
    case LOGICAL_PVR: return (struct element){ GUEST_RW, 4, 0 };
    case 0x0004: return (struct element){ GUEST_RW, 8, TB_OFFSET };
    case 0x0005: return (struct element){ GUEST_RW, 24, 12 };
    case 0x0006: return (struct element){ GUEST_RW, 16, 36 };
    case RUN_INPUT: return (struct element){ THREAD_RW, 16, 0 };
    case RUN_OUTPUT: return (struct element){ THREAD_RW, 16, 16 };
    case 0x0C02: return (struct element){ THREAD_RW | INPUT, 8, 32 };
    case 0xF000: return (struct element){ THREAD_R | EFFECT, 8, 1796 };
    case 0xF001: return (struct element){ THREAD_R | EFFECT, 4, 1804 };
    case 0xF002: return (struct element){ THREAD_R | EFFECT, 4, 1808 };
    case 0xF003: return (struct element){ THREAD_R | EFFECT, 8, 1812 };
    default: return (struct element){ 0, 0, 0 };
    }
}

/* 02, L7: a guest whose logical PVR is POWER9's is not offered "what came later". */
static bool came_later(unsigned id)
{
    switch (id) {
    case 0x1031:
    case 0x103E:
    case 0x1041:
    case 0x1042:
    case 0x104E:
    case 0x104F:
    case 0x1050:
    case 0x1051:
    case 0x2006: return true;
    default: return false;
    }
}

/* "The guest state buffer", value rules; capabilities are those agreed. Any other value of any element is good. */
static bool good_value(unsigned id, const uint8_t *value, uint64_t capabilities)
{
    uint32_t pvr;
    uint64_t size;
    switch (id) {
    case LOGICAL_PVR:
        pvr = load32(value);
        return (pvr == PVR_POWER9 && (capabilities & BIT_0 >> 1) != 0) ||
               (pvr == PVR_POWER10 && (capabilities & BIT_0 >> 2) != 0);
    case RUN_INPUT:
        size = load64(value + 8);
        return size >= 4 && size <= 65536;
    case RUN_OUTPUT:
        size = load64(value + 8);
        return size >= 124 && size <= 65536;
    default:
        return true;
    }
}

/* "The guest state buffer": R3 and both forms of place, of which L4 says what R4 and R5 tell. */
struct verdict {
    unsigned r3;
    uint32_t index;
    size_t offset;
};

/* L4: get and set state keep R4 as the index and put the byte offset in R5. */
static adk_answer index_and_offset(struct verdict v)
{
    return (adk_answer){ v.r3, v.index, v.offset };
}

/* L4: run keeps the offset in R4 and puts the index in R5, in 14 too. */
static adk_answer offset_and_index(unsigned r3, struct verdict v)
{
    return (adk_answer){ r3, v.offset, v.index };
}

/*
 * "The guest state buffer", for each element in turn: a header that does not fit is 7; then the ID, 6; then the size,
 * 7, of which the NOP has any; then 7 if the value runs past the end; then, when setting, the value rule, 8. wanted is
 * the one access that the call asks for. No element that a run takes has a value rule. L7: 6 also for what came later,
 * where the guest is a POWER9 one; guest-wide none of that is taken anyway.
 */
static inline struct verdict first_bad(const uint8_t *buffer, size_t len, unsigned wanted, bool power9,
                                       uint64_t capabilities)
{
    uint32_t count = load32(buffer);
    size_t at = 4;
    for (uint32_t index = 0; index < count; index++) {
        if (len - at < 4)
            return (struct verdict){ 7, index, at };
        uint32_t header = load32(buffer + at);
        unsigned id = header >> 16, size = header & 0xFFFF;
        struct element e = element(id);
        at += 4;
        if ((e.access & wanted) == 0 || (power9 && came_later(id)))
            return (struct verdict){ 6, index, at - 4 };
        if (size != e.size && id != NOP)
            return (struct verdict){ 7, index, at - 4 };
        if (len - at < size)
            return (struct verdict){ 7, index, at - 4 };
        if ((wanted & (GUEST_W | THREAD_W)) != 0 && !good_value(id, buffer + at, capabilities))
            return (struct verdict){ 8, index, at - 4 };
        at += size;
    }
    return (struct verdict){ 0, 0, 0 };
}

/* Whose values a call is about: a guest's, those of a vCPU that is not taken, or of one that is (L1). */
enum whose { GUESTS_OWN, KEPT, TAKEN };

/* The layout of the store, and where in it the guest's or the vCPU's values begin; of a vCPU also its slot. */
struct target {
    const struct layout *l;
    size_t values;
    unsigned slot;
};

/* "Answers", the test 4; L1: 16 after it. The guest is live. */
static adk_answer target_vcpu(const uint8_t *s, bool taken, uint64_t guest, uint64_t vcpu, struct target *t)
{
    if (vcpu > VCPU_MAX)
        return answer(4, 0);
    t->slot = slot_with(t->l, s, word_of(t->l, guest, vcpu));
    if (t->slot == t->l->slots)
        return answer(4, 0);
    if (marked(t->l, s, t->slot) != taken)
        return answer(16, 0);
    t->values = slot_at(t->l, t->slot);
    return answer(0, 0);
}

/* "Answers", the tests 1, 2, 3 and 4 of get and set state and run; guest-wide the vCPU id is ignored. L1: 16 after 4,
   never guest-wide. After 0 the target is filled in. */
static adk_answer target(const uint8_t *s, size_t len, uint64_t bad_flags, enum whose whose, uint64_t guest,
                         uint64_t vcpu, struct target *t)
{
    t->l = layout_of(s, len);
    if (t->l == NULL)
        return answer(1, 0);
    if (bad_flags != 0)
        return bad_flag(bad_flags);
    if (!live(t->l, s, guest))
        return answer(3, 0);
    t->values = guest_at(t->l, guest);
    return whose == GUESTS_OWN ? answer(0, 0) : target_vcpu(s, whose == TAKEN, guest, vcpu, t);
}

/* "Answers", 5, and 14 with R4 and R5 0: a buffer under 4 or over 65,536 bytes. */
static bool bad_length(size_t len)
{
    return len < 4 || len > 65536;
}

/* L1: get and set state support bit 0 alone or bit 1 alone; of both together bit 1 is the bad one. */
static uint64_t bad_state_flags(uint64_t flags)
{
    return flags & ~((flags & BIT_0) != 0 ? BIT_0 : BIT_1);
}

/* "Answers", get and set state 1, 2, 3, 4, 5, then the elements; a good buffer's verdict is all zeros. */
static inline adk_answer judge_state(const uint8_t *s, size_t len, uint64_t flags, uint64_t guest, uint64_t vcpu,
                                     const uint8_t *buffer, size_t buffer_len, unsigned wanted, struct target *t)
{
    adk_answer a = target(s, len, bad_state_flags(flags), flags != 0 ? GUESTS_OWN : KEPT, guest, vcpu, t);
    if (a.r3 != 0)
        return a;
    if (bad_length(buffer_len))
        return answer(5, 0);
    struct verdict v = first_bad(buffer, buffer_len, wanted, is_power9(t->l, s, guest), load64(s + CAPABILITIES));
    return index_and_offset(v);
}

/*
 * The two walks below meet only good elements. A copy goes by the listed size, where each case is a few moves (the NOP
 * has none, and is not copied), and so does the step to the next element: the processor guesses it before the size in
 * the buffer has arrived.
 */
static inline void copy(uint8_t *to, const uint8_t *from, unsigned size)
{
    switch (size) {
    case 4: memcpy(to, from, 4); break;
    case 8: memcpy(to, from, 8); break;
    case 16: memcpy(to, from, 16); break;
    case 24: memcpy(to, from, 24); break;
    default: break;
    }
}

/* "The guest state buffer": get writes the value bytes and nothing else. 0x0001 reads 1,844 (L1), 0x0002 reads 124. */
static void fill(uint8_t *buffer, const uint8_t *values)
{
    uint8_t *p = buffer + 4;
    for (uint32_t left = load32(buffer); left > 0; left--) {
        uint32_t header = load32(p);
        unsigned id = header >> 16;
        struct element e = element(id);
        p += 4;
        if (id == VCPU_STATE_SIZE)
            store64(p, FORM_MAX);
        else if (id == RUN_OUTPUT_SIZE)
            store64(p, 124);
        else
            copy(p, values + e.at, e.size);
        p += id == NOP ? header & 0xFFFF : e.size;
    }
}

/* "The guest state buffer": set applies elements in order, so of two with one ID the later counts. */
static void apply(uint8_t *values, const uint8_t *buffer)
{
    const uint8_t *p = buffer + 4;
    for (uint32_t left = load32(buffer); left > 0; left--) {
        uint32_t header = load32(p);
        unsigned id = header >> 16;
        struct element e = element(id);
        p += 4;
        copy(values + e.at, p, e.size);
        p += id == NOP ? header & 0xFFFF : e.size;
    }
}

/* L1: whether thread element e is present in a form; and that it is. */
static bool present(const uint8_t *form, unsigned e)
{
    return bit(form, PRESENCE + e);
}

static void put_present(uint8_t *form, unsigned e)
{
    put_bit(form, PRESENCE + e, true);
}

/* "The store": the size of thread element e, from 0 to 169 in order of ID. They are in a slot without gaps. */
static inline unsigned thread_size(unsigned e)
{
    if (e < 2)
        return 16; /* 0x0C00, 0x0C01 */
    if (e < 87)
        return 8; /* 0x0C02, 0x1000 to 0x1053 */
    if (e < 102)
        return 4; /* 0x2000 to 0x200E */
    if (e < 166)
        return 16; /* 0x3000 to 0x303F */
    return e == 167 || e == 168 ? 4 : 8; /* 0xF000 to 0xF003 */
}

static inline bool all_zero(const uint8_t *value, unsigned size)
{
    switch (size) {
    case 4: return load32(value) == 0;
    case 8: return load64(value) == 0;
    default: return (load64(value) | load64(value + 8)) == 0;
    }
}

/* L1, the form: version 1 (4 bits), vCPU id (11), a zero, 170 presence bits in order of ID, six zeros; then the values
   that are not all zero, in that order. */
static void write_form(uint8_t *form, unsigned vcpu, const uint8_t *values)
{
    uint8_t *p = form + FORM_MIN;
    memset(form, 0, FORM_MIN);
    store16(form, VERSION << 12 | vcpu << 1);
    for (unsigned e = 0; e < ELEMENTS; e++) {
        unsigned size = thread_size(e);
        if (!all_zero(values, size)) {
            put_present(form, e);
            copy(p, values, size);
            p += size;
        }
        values += size;
    }
}

/* L1, 17: whether the bytes begin with a form of this vCPU. len is at least FORM_MIN. */
static bool begins_with_form(const uint8_t *form, size_t len, uint64_t vcpu)
{
    size_t at = FORM_MIN;
    if (form[0] >> 4 != VERSION)
        return false;
    if ((load16(form) >> 1 & VCPU_MAX) != vcpu)
        return false;
    if ((form[1] & 1) != 0)
        return false;
    if ((form[FORM_MIN - 1] & SIX_BITS) != 0)
        return false;
    for (unsigned e = 0; e < ELEMENTS; e++) {
        unsigned size = thread_size(e);
        if (!present(form, e))
            continue;
        if (len - at < size || all_zero(form + at, size))
            return false;
        at += size;
    }
    return true;
}

/* L1: the values of a form that was judged; those that are not present are zero. */
static void read_form(uint8_t *values, const uint8_t *form)
{
    const uint8_t *p = form + FORM_MIN;
    memset(values, 0, SLOT_SIZE);
    for (unsigned e = 0; e < ELEMENTS; e++) {
        unsigned size = thread_size(e);
        if (present(form, e)) {
            copy(values, p, size);
            p += size;
        }
        values += size;
    }
}

/* L1, taking: 1, 2, 3, 4, 16, 5. The form stands in the buffer's first bytes, the rest of it stays; the values are
   zeroed. */
static adk_answer take(uint8_t *s, size_t len, uint64_t flags, uint64_t guest, uint64_t vcpu, uint8_t *buffer,
                       size_t buffer_len)
{
    struct target t;
    adk_answer a = target(s, len, bad_state_flags(flags), KEPT, guest, vcpu, &t);
    if (a.r3 != 0)
        return a;
    if (buffer_len < FORM_MAX || buffer_len > 65536)
        return answer(5, 0);
    write_form(buffer, (unsigned)vcpu, s + t.values);
    memset(s + t.values, 0, SLOT_SIZE);
    put_mark(t.l, s, t.slot, true);
    return answer(0, 0);
}

/* L1, giving back: 1, 2, 3, 4, 16, 5, 17. Bytes behind the form are ignored. */
static adk_answer give_back(uint8_t *s, size_t len, uint64_t flags, uint64_t guest, uint64_t vcpu,
                            const uint8_t *buffer, size_t buffer_len)
{
    struct target t;
    adk_answer a = target(s, len, bad_state_flags(flags), TAKEN, guest, vcpu, &t);
    if (a.r3 != 0)
        return a;
    if (buffer_len < FORM_MIN || buffer_len > 65536)
        return answer(5, 0);
    if (!begins_with_form(buffer, buffer_len, vcpu))
        return answer(17, 0);
    read_form(s + t.values, buffer);
    put_mark(t.l, s, t.slot, false);
    return answer(0, 0);
}

/* L1: bit 1 without bit 0 hands over; what else is set is then the bad bit. */
static bool hands_over(uint64_t flags)
{
    return (flags & (BIT_0 | BIT_1)) == BIT_1;
}

/* "Answers": a refusal changes no byte of any buffer, so all elements are judged before one is filled. */
adk_answer mdl_get_state(uint8_t *store, size_t store_len, uint64_t flags, uint64_t guest, uint64_t vcpu,
                         uint8_t *buffer, size_t buffer_len)
{
    struct target t;
    if (hands_over(flags))
        return take(store, store_len, flags, guest, vcpu, buffer, buffer_len);
    adk_answer a = judge_state(store, store_len, flags, guest, vcpu, buffer, buffer_len,
                               flags != 0 ? GUEST_R : THREAD_R, &t);
    if (a.r3 == 0)
        fill(buffer, store + t.values);
    return a;
}

/* "Readings to rule out": applying while checking. All elements are judged before one is applied. */
adk_answer mdl_set_state(uint8_t *store, size_t store_len, uint64_t flags, uint64_t guest, uint64_t vcpu,
                         const uint8_t *buffer, size_t buffer_len)
{
    struct target t;
    if (hands_over(flags))
        return give_back(store, store_len, flags, guest, vcpu, buffer, buffer_len);
    adk_answer a = judge_state(store, store_len, flags, guest, vcpu, buffer, buffer_len,
                               flags != 0 ? GUEST_W : THREAD_W, &t);
    if (a.r3 == 0)
        apply(store + t.values, buffer);
    return a;
}

/* "Run", the table: the exits and their elements, in the order given. */
static const struct exit_row {
    uint64_t reason;
    uint32_t count;
    uint16_t ids[10];
} EXITS[] = {
    { 0xC00, 10, { 0x1003, 0x1004, 0x1005, 0x1006, 0x1007, 0x1008, 0x1009, 0x100A, 0x100B, 0x100C } },
    { 0xE00, 3, { 0xF000, 0xF001, 0xF003 } },
    { 0xE20, 1, { 0xF003 } },
    { 0xE40, 1, { 0xF002 } },
    { 0xF80, 1, { 0x102D } },
    { 0x000, 0, { 0 } },
    { 0x980, 0, { 0 } },
};

/* The row of an exit reason, or NULL if it is unknown. */
static const struct exit_row *exit_row(uint64_t reason)
{
    for (size_t i = 0; i < sizeof EXITS / sizeof EXITS[0]; i++)
        if (EXITS[i].reason == reason)
            return &EXITS[i];
    return NULL;
}

/* "Run": the size that is stored in 0x0C00 or 0x0C01. */
static uint64_t registered_size(const uint8_t *values, unsigned id)
{
    return load64(values + element(id).at + 8);
}

/* "Answers", 11 and 12, of both input before output. "Run": a run buffer counts as registered when its stored size
   meets the value rule. */
static adk_answer judge_lent(const uint8_t *values, size_t input_len, size_t output_len)
{
    if (!good_value(RUN_INPUT, values + element(RUN_INPUT).at, 0))
        return answer(11, 0);
    if (!good_value(RUN_OUTPUT, values + element(RUN_OUTPUT).at, 0))
        return answer(11, 1);
    if (input_len < registered_size(values, RUN_INPUT))
        return answer(12, 0);
    if (output_len < registered_size(values, RUN_OUTPUT))
        return answer(12, 1);
    return answer(0, 0);
}

/* "Answers", 14, and L4: the place of the first bad element; R4 and R5 are both 0 if the length is bad. */
static adk_answer judge_effect(const uint8_t *effect, size_t len, bool power9)
{
    if (bad_length(len))
        return answer(14, 0);
    struct verdict v = first_bad(effect, len, EFFECT, power9, 0);
    return v.r3 != 0 ? offset_and_index(14, v) : answer(0, 0);
}

/* "Run": a count and elements in the order given, the rest untouched. */
static void write_output(uint8_t *output, const uint8_t *values, const struct exit_row *row)
{
    uint8_t *p = output + 4;
    store32(output, row->count);
    for (uint32_t i = 0; i < row->count; i++) {
        struct element e = element(row->ids[i]);
        store16(p, row->ids[i]);
        store16(p + 2, e.size);
        copy(p + 4, values + e.at, e.size);
        p += 4 + e.size;
    }
}

/*
 * "Answers", run 1, 2, 3, 4, 11, 12, the input's elements, 13, 14; L1: 16 after 4. "Run": the input is the first bytes
 * of the lent one, as many as registered; it is applied, then the effect, then the output's first bytes are written.
 */
adk_answer mdl_run_vcpu(uint8_t *store, size_t store_len, uint64_t flags, uint64_t guest, uint64_t vcpu,
                        const uint8_t *input, size_t input_len, uint8_t *output, size_t output_len,
                        const uint8_t *effect, size_t effect_len, uint64_t exit_reason)
{
    struct target t;
    adk_answer a = target(store, store_len, flags & ~BITS_0_TO_2, KEPT, guest, vcpu, &t);
    if (a.r3 != 0)
        return a;
    uint8_t *values = store + t.values;
    a = judge_lent(values, input_len, output_len);
    if (a.r3 != 0)
        return a;
    bool power9 = is_power9(t.l, store, guest);
    struct verdict v = first_bad(input, registered_size(values, RUN_INPUT), INPUT, power9, 0);
    if (v.r3 != 0)
        return offset_and_index(v.r3, v);
    const struct exit_row *row = exit_row(exit_reason);
    if (row == NULL)
        return answer(13, 0);
    a = judge_effect(effect, effect_len, power9);
    if (a.r3 != 0)
        return a;
    apply(values, input);
    apply(values, effect);
    write_output(output, values, row);
    return answer(0, exit_reason);
}

/* "The store": delete clears the live bit and the slot words only; L1: and the marks of the slots that it drops. */
static void drop_guest(const struct layout *l, uint8_t *s, unsigned guest)
{
    put_bit(s + LIVE, guest - 1, false);
    for (unsigned slot = 0; slot < l->slots; slot++)
        if (guest_of(l, word(l, s, slot)) == guest) {
            put_word(l, s, slot, 0);
            put_mark(l, s, slot, false);
        }
}

/* The same of all guests: the live bits, the words and the marks fill whole bytes. */
static void drop_all(const struct layout *l, uint8_t *s)
{
    memset(s + LIVE, 0, l->live_bytes);
    memset(s + l->words, 0, width(l) * l->slots / 8);
    memset(s + l->marks, 0, l->slots / 8);
}

/* "Answers", others 1, 2, 3, and flag bits: delete bit 0 is all guests, and the id is then ignored. */
adk_answer mdl_delete_guest(uint8_t *store, size_t store_len, uint64_t flags, uint64_t guest)
{
    const struct layout *l = layout_of(store, store_len);
    if (l == NULL)
        return answer(1, 0);
    if ((flags & ~BIT_0) != 0)
        return bad_flag(flags & ~BIT_0);
    if (flags != 0) {
        drop_all(l, store);
        return answer(0, 0);
    }
    if (!live(l, store, guest))
        return answer(3, 0);
    drop_guest(l, store, (unsigned)guest);
    return answer(0, 0);
}

/* 02, L2: the smallest multiple of 2^24 that is not below the offset. Where that is 2^64 it is 0. */
static uint64_t rounded_up(uint64_t offset)
{
    const uint64_t step = UINT64_C(1) << 24;
    uint64_t past = offset % step;
    return past == 0 ? offset : offset - past + step;
}

/* "The store", the guest clock: the sum of the timebase and 0x0004, rounded up by 02, L2, wraps at 2^64. It answers 1,
   then 3. The offset that is kept stays as it was set. */
adk_answer mdl_guest_clock(const uint8_t *store, size_t store_len, uint64_t guest, uint64_t timebase)
{
    const struct layout *l = layout_of(store, store_len);
    if (l == NULL)
        return answer(1, 0);
    if (!live(l, store, guest))
        return answer(3, 0);
    uint64_t offset = load64(store + guest_at(l, guest) + TB_OFFSET);
    return answer(0, timebase + rounded_up(offset));
}

/* The word of a small store's slot as a large one has it. */
static uint32_t converted_word(uint32_t w)
{
    return w == 0 ? 0 : word_of(&LARGE, guest_of(&SMALL, w), w & VCPU_MAX);
}

/*
 * 02, L6: "A conversion writes a small store as a large one (values at the same guest and slot, in use or not, else
 * zero)"; it "gives 1 for a source that is not a well-formed small store, then 5 for a target of another length".
 */
adk_answer mdl_convert(const uint8_t *small, size_t small_len, uint8_t *large, size_t large_len)
{
    if (layout_of(small, small_len) != &SMALL)
        return answer(1, 0);
    if (large_len != LARGE.size)
        return answer(5, 0);
    memset(large, 0, LARGE.size);
    store64(large + CAPABILITIES, load64(small + CAPABILITIES));
    for (unsigned guest = 1; guest <= SMALL.guests; guest++)
        put_bit(large + LIVE, guest - 1, live(&SMALL, small, guest));
    for (unsigned slot = 0; slot < SMALL.slots; slot++) {
        put_word(&LARGE, large, slot, converted_word(word(&SMALL, small, slot)));
        put_mark(&LARGE, large, slot, marked(&SMALL, small, slot));
    }
    memcpy(large + LARGE.guest_values, small + SMALL.guest_values, SMALL.guests * GUEST_SIZE);
    memcpy(large + LARGE.slot_values, small + SMALL.slot_values, SMALL.slots * SLOT_SIZE);
    return answer(0, 0);
}

/*
 * "The guest state buffer", the lookup: the value part of the last counted element with the ID. It answers 5, 7 only
 * for cut elements (L4: R4 the index, R5 the offset), and 6 with R4 = the count. A refusal gives back an empty part.
 */
adk_found mdl_lookup(const uint8_t *buffer, size_t buffer_len, uint16_t id)
{
    if (bad_length(buffer_len))
        return (adk_found){ 5, 0, 0, 0, 0 };
    uint32_t count = load32(buffer);
    size_t at = 4, found_at = 0, found_len = 0;
    for (uint32_t index = 0; index < count; index++) {
        if (buffer_len - at < 4)
            return (adk_found){ 7, index, at, 0, 0 };
        unsigned element = load16(buffer + at);
        size_t size = load16(buffer + at + 2);
        at += 4;
        if (buffer_len - at < size)
            return (adk_found){ 7, index, at - 4, 0, 0 };
        if (element == id) {
            found_at = at;
            found_len = size;
        }
        at += size;
    }
    if (found_at == 0)
        return (adk_found){ 6, count, 0, 0, 0 };
    return (adk_found){ 0, 0, 0, found_at, found_len };
}

/* L8, "7 for a cut element": its place, as the lookup tells it; r3 is 0 where there is none, and then the place is the
   end of the counted elements. */
static struct verdict first_cut(const uint8_t *buffer, size_t len)
{
    uint32_t count = load32(buffer), index = 0;
    size_t at = 4, size;
    while (index < count && len - at >= 4 && (size = load16(buffer + at + 2)) <= len - at - 4) {
        at += 4 + size;
        index++;
    }
    return (struct verdict){ index < count ? 7 : 0, index, at };
}

/*
 * L8, "Two buffers or one": 5 for either buffer, 7 for a cut element of the first, then the second, with its index and
 * offset; 5 for a joined length over 65,536; 12 with R4 1 if the lent result is too short. It is written to the
 * result's first bytes, and R4 is its length.
 */
adk_answer mdl_join(const uint8_t *first, size_t first_len, const uint8_t *second, size_t second_len, uint8_t *result,
                    size_t result_len)
{
    if (bad_length(first_len) || bad_length(second_len))
        return answer(5, 0);
    struct verdict a = first_cut(first, first_len);
    if (a.r3 != 0)
        return index_and_offset(a);
    struct verdict b = first_cut(second, second_len);
    if (b.r3 != 0)
        return index_and_offset(b);
    size_t len = a.offset + b.offset - 4;
    if (len > 65536)
        return answer(5, 0);
    if (result_len < len)
        return answer(12, 1);
    store32(result, a.index + b.index);
    memcpy(result + 4, first + 4, a.offset - 4);
    memcpy(result + a.offset, second + 4, b.offset - 4);
    return answer(0, len);
}

/* L10, "6 (.. not of this exit ..)": the place of an ID in the exit's row; the row's count if it is none of them, as no
   unlisted ID is, and none of those that came after POWER9. */
static uint32_t place_in(const struct exit_row *row, unsigned id)
{
    uint32_t place = 0;
    while (place < row->count && row->ids[place] != id)
        place++;
    return place;
}

/*
 * L10, "6 (unlisted, not of this exit, repeated), 7 (wrong size or cut), 8 (wrong value), in 01's order for one
 * element", of one whose header fits into what is left of the buffer. A NOP is bad only where it is cut. seen: the
 * places in the row that elements before it had, as bits, the first the least significant.
 */
static unsigned fault_of(const uint8_t *header, size_t left, const struct exit_row *row, const uint8_t *values,
                         uint32_t *seen)
{
    unsigned id = load16(header), size = load16(header + 2);
    uint32_t place = place_in(row, id);
    struct element e = element(id);
    if (id == NOP)
        return left - 4 < size ? 7 : 0;
    if (place == row->count || (*seen >> place & 1) != 0)
        return 6;
    if (size != e.size)
        return 7;
    if (left - 4 < size)
        return 7;
    if (memcmp(header + 4, values + e.at, size) != 0)
        return 8;
    *seen |= UINT32_C(1) << place;
    return 0;
}

/* L10, "with index and offset, at the first bad element"; a header that does not fit is 7. */
static struct verdict first_wrong(const uint8_t *buffer, size_t len, const struct exit_row *row, const uint8_t *values,
                                  uint32_t *seen)
{
    uint32_t count = load32(buffer);
    size_t at = 4;
    for (uint32_t index = 0; index < count; index++) {
        unsigned r3 = len - at < 4 ? 7 : fault_of(buffer + at, len - at, row, values, seen);
        if (r3 != 0)
            return (struct verdict){ r3, index, at };
        at += 4 + load16(buffer + at + 2);
    }
    return (struct verdict){ 0, 0, 0 };
}

/*
 * L10, "Judge a vendor's output buffer": "1, 3, 4, 16, 5, 13; then, with index and offset, at the first bad element 6
 * .., 7 .., 8 ..; 20 with R4 the smallest missing ID". Each row of exits is in order of ID. L7: "L10 uses the guest's
 * list", and both lists have all elements of the exits.
 */
adk_answer mdl_judge_output(const uint8_t *store, size_t store_len, uint64_t guest, uint64_t vcpu,
                            uint64_t exit_reason, const uint8_t *buffer, size_t buffer_len)
{
    struct target t;
    uint32_t seen = 0;
    adk_answer a = target(store, store_len, 0, KEPT, guest, vcpu, &t);
    if (a.r3 != 0)
        return a;
    if (bad_length(buffer_len))
        return answer(5, 0);
    const struct exit_row *row = exit_row(exit_reason);
    if (row == NULL)
        return answer(13, 0);
    struct verdict v = first_wrong(buffer, buffer_len, row, store + t.values, &seen);
    if (v.r3 != 0)
        return index_and_offset(v);
    for (uint32_t place = 0; place < row->count; place++)
        if ((seen >> place & 1) == 0)
            return answer(20, row->ids[place]);
    return answer(0, 0);
}

/*
 * L9: "kind (4 bits, 1 to 8 in the order of 01's list of calls)": a call by its number. "Create takes its token, and
 * capabilities its bitmap, from the third number." "In a run the data is the input." Another kind is 19 before any look
 * at the store.
 */
adk_answer mdl_call(uint8_t *store, size_t store_len, uint64_t kind, uint64_t flags, uint64_t guest, uint64_t number,
                    uint64_t exit_reason, uint8_t *data, size_t data_len, uint8_t *output, size_t output_len,
                    const uint8_t *effect, size_t effect_len)
{
    switch (kind) {
    case 1: return mdl_get_capabilities(store, store_len, flags);
    case 2: return mdl_set_capabilities(store, store_len, flags, number);
    case 3: return mdl_create_guest(store, store_len, flags, number);
    case 4: return mdl_create_vcpu(store, store_len, flags, guest, number);
    case 5: return mdl_get_state(store, store_len, flags, guest, number, data, data_len);
    case 6: return mdl_set_state(store, store_len, flags, guest, number, data, data_len);
    case 7:
        return mdl_run_vcpu(store, store_len, flags, guest, number, data, data_len, output, output_len, effect,
                            effect_len, exit_reason);
    case 8: return mdl_delete_guest(store, store_len, flags, guest);
    default: return answer(19, 0);
    }
}

/* L5, a new vCPU's record: nothing is counted, and for the exit reason "4,095 before any". */
static const adk_summary NEW_SUMMARY = { .runs = 0, .elements = 0, .refusals = 0, .exit_reason = 4095 };

/* L5: "A counter at 2^32-1 stays there". */
static void add(uint32_t *counter, uint32_t n)
{
    *counter = n < UINT32_MAX - *counter ? *counter + n : UINT32_MAX;
}

/* L5: "elements set by set state or run input (each time; no NOPs ..)". The buffer was accepted. */
static uint32_t elements_set(const uint8_t *buffer)
{
    const uint8_t *p = buffer + 4;
    uint32_t set = 0;
    for (uint32_t left = load32(buffer); left > 0; left--) {
        uint32_t header = load32(p);
        set += header >> 16 != NOP;
        p += 4 + (header & 0xFFFF);
    }
    return set;
}

/* L5: "creating or dropping a vCPU makes its record a new one's": those are the slots whose word is another now. */
static void renew(adk_summary *records, const struct layout *l, const uint32_t *before, const uint8_t *s)
{
    for (unsigned slot = 0; slot < l->slots; slot++)
        if (before[slot] != word(l, s, slot))
            records[slot] = NEW_SUMMARY;
}

/* L5, what get state, set state and run count: "accepted runs, elements set by set state or run input (.. no handing
   back), refusals 6 to 8 of get, set and run (guest-wide calls never count), and the last accepted run's exit reason".
   Bit 0 is guest-wide in get and set state only. */
static void tally_vcpu(adk_summary *record, uint64_t kind, uint64_t flags, uint64_t exit_reason, uint64_t r3,
                       const uint8_t *data)
{
    if (r3 != 0) {
        add(&record->refusals, 1);
    } else if (kind == 7) {
        add(&record->runs, 1);
        add(&record->elements, elements_set(data));
        record->exit_reason = (uint32_t)exit_reason;
    } else if (kind == 6 && !hands_over(flags)) {
        add(&record->elements, elements_set(data));
    }
}

/*
 * L5, "A running tally for each vCPU": the call by its number, and what it makes of the records. "18 when other than
 * sixteen records are lent, before all others"; L6: "L5's tally takes 64 records for it, else 16."
 */
adk_answer mdl_tally(adk_summary *records, size_t record_count, uint8_t *store, size_t store_len, uint64_t kind,
                     uint64_t flags, uint64_t guest, uint64_t number, uint64_t exit_reason, uint8_t *data,
                     size_t data_len, uint8_t *output, size_t output_len, const uint8_t *effect, size_t effect_len)
{
    const struct layout *l = store_len == LARGE.size ? &LARGE : &SMALL;
    bool on_words = kind == 4 || kind == 8, on_vcpu = kind == 7 || ((kind == 5 || kind == 6) && (flags & BIT_0) == 0);
    uint32_t before[SLOTS_MOST];
    if (record_count != l->slots)
        return answer(18, 0);
    for (unsigned slot = 0; on_words && store_len == l->size && slot < l->slots; slot++)
        before[slot] = word(l, store, slot);
    adk_answer a = mdl_call(store, store_len, kind, flags, guest, number, exit_reason, data, data_len, output,
                            output_len, effect, effect_len);
    if (on_words && a.r3 == 0)
        renew(records, l, before, store);
    if (on_vcpu && (a.r3 == 0 || (a.r3 >= 6 && a.r3 <= 8)))
        tally_vcpu(&records[slot_with(l, store, word_of(l, guest, number))], kind, flags, exit_reason, a.r3, data);
    return a;
}

/* L9, a record's head: 242 bits, and "padding zero to the next byte". */
enum { HEAD_SIZE = 31, EXIT_MOST = 4095, LENGTH_MOST = 131071 };

/* Writes the last bits of a number, the most significant of them first, and gives back where they end. */
static unsigned put_field(uint8_t *p, unsigned at, unsigned bits, uint64_t number)
{
    for (unsigned left = bits; left > 0; left--)
        put_bit(p, at++, (number >> (left - 1) & 1) != 0);
    return at;
}

/*
 * L9: "A call record is packed most significant first: kind (4 bits, 1 to 8 ..), flags (64), guest (64), vCPU, token or
 * bitmap (64), exit reason (12), lengths of data and of effect (17 each), padding zero to the next byte; then the two
 * pieces of data." What no record holds is 19, then 12 with R4 1 if the lent bytes are too short; R4 is the length.
 */
adk_answer mdl_write_record(uint8_t *bytes, size_t bytes_len, uint64_t kind, uint64_t flags, uint64_t guest,
                            uint64_t number, uint64_t exit_reason, const uint8_t *data, size_t data_len,
                            const uint8_t *effect, size_t effect_len)
{
    if (kind < 1 || kind > 8 || exit_reason > EXIT_MOST)
        return answer(19, 0);
    if (data_len > LENGTH_MOST || effect_len > LENGTH_MOST)
        return answer(19, 0);
    if (bytes_len < HEAD_SIZE + data_len + effect_len)
        return answer(12, 1);
    unsigned at = put_field(bytes, 0, 4, kind);
    at = put_field(bytes, at, 64, flags);
    at = put_field(bytes, at, 64, guest);
    at = put_field(bytes, at, 64, number);
    at = put_field(bytes, at, 12, exit_reason);
    at = put_field(bytes, at, 17, data_len);
    at = put_field(bytes, at, 17, effect_len);
    put_field(bytes, at, 8 * HEAD_SIZE - at, 0);
    memcpy(bytes + HEAD_SIZE, data, data_len);
    memcpy(bytes + HEAD_SIZE + data_len, effect, effect_len);
    return answer(0, HEAD_SIZE + data_len + effect_len);
}
