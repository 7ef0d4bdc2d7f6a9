/*
 * model_cache.c: 01, "The L1 cache", in plain C, as the requests L4 and L7 of 02 amend it. It shares no text with the
 * library. An L1 sees of L0 what the calls tell, so it stands on the model's calls, and on nothing else of the model.
 */
#include "cache.h"
#include "model.h"

#include <stdbool.h>
#include <string.h>

/* "The guest state buffer" and "The store": a thread element, numbered in order of ID, and its place among the values
   of a slot, where they follow each other without gaps. */
struct element {
    unsigned number, size, at;
};

enum { NO_ELEMENT = 170, VALUE_MAX = 65528, PPR = 0x103A, RUN_INPUT = 0x0C00, RUN_OUTPUT = 0x0C01 };

static inline struct element element_of(unsigned id)
{
    if (id >= 0x1000 && id <= 0x1053)
        return (struct element){ 3 + (id - 0x1000), 8, 40 + 8 * (id - 0x1000) };
    if (id >= 0x3000 && id <= 0x303F)
        return (struct element){ 102 + (id - 0x3000), 16, 772 + 16 * (id - 0x3000) };
    if (id >= 0x2000 && id <= 0x200E)
        return (struct element){ 87 + (id - 0x2000), 4, 712 + 4 * (id - 0x2000) };
    switch (id) {
    case RUN_INPUT: return (struct element){ 0, 16, 0 };
    case RUN_OUTPUT: return (struct element){ 1, 16, 16 };
    case 0x0C02: return (struct element){ 2, 8, 32 };
    case 0xF000: return (struct element){ 166, 8, 1796 };
    case 0xF001: return (struct element){ 167, 4, 1804 };
    case 0xF002: return (struct element){ 168, 4, 1808 };
    case 0xF003: return (struct element){ 169, 8, 1812 };
    default: return (struct element){ NO_ELEMENT, 0, 0 };
    }
}

/* The ID of a thread element that a run input takes, 2 to 165. */
static inline unsigned input_id(unsigned number)
{
    if (number < 3)
        return 0x0C02;
    if (number < 87)
        return 0x1000 + (number - 3);
    return number < 102 ? 0x2000 + (number - 87) : 0x3000 + (number - 102);
}

/* ---- Marks ---- */

enum { VALID = 0, CHANGED = 3, WORDS = 3 };

#define MARK(e) (UINT64_C(1) << (63 - (e) % 64))

/* 02, L7, "what came later": 0x1031; 0x103E, 0x1041, 0x1042, 0x104E to 0x1051 and 0x2006. */
#define LATER_0 MARK(52)
#define LATER_1 (MARK(65) | MARK(68) | MARK(69) | MARK(81) | MARK(82) | MARK(83) | MARK(84) | MARK(93))

/* The marks of the elements that there are, 0 to 169; of those that came later; and, in each list, of those that a run
   input takes, 2 to 165: "what a thread set takes, except 0x0C00 and 0x0C01". */
static const uint64_t EXISTS[WORDS] = { UINT64_MAX, UINT64_MAX, UINT64_MAX << 22 };
static const uint64_t LATER[WORDS] = { LATER_0, LATER_1, 0 };
static const uint64_t INPUT[2][WORDS] = {
    { UINT64_MAX >> 2, UINT64_MAX, UINT64_MAX << 26 },
    { UINT64_MAX >> 2 & ~LATER_0, UINT64_MAX & ~LATER_1, UINT64_MAX << 26 },
};

static bool is_marked(const uint64_t *words, unsigned number)
{
    return (words[number / 64] & MARK(number)) != 0;
}

static void set_mark(uint64_t *words, unsigned number)
{
    words[number / 64] |= MARK(number);
}

/* 02, L7: "Each cache call is told the PVR and goes by that list". */
static const uint64_t *input_marks(uint32_t pvr)
{
    return INPUT[pvr == ADK_PVR_ARCH_300];
}

static bool in_input(uint32_t pvr, unsigned number)
{
    return number != NO_ELEMENT && is_marked(input_marks(pvr), number);
}

/* "readable in a thread get and not 0x0C00, 0x0C01 or the NOP". */
static bool readable(uint32_t pvr, unsigned id, unsigned number)
{
    if (number == NO_ELEMENT || number < 2 || id == PPR)
        return false;
    return pvr != ADK_PVR_ARCH_300 || !is_marked(LATER, number);
}

/* "Well formed: right lengths, no mark past 169, every changed element valid and permitted in a run input." */
static bool well_formed(size_t values_len, const uint64_t *marks, size_t marks_len, uint32_t pvr)
{
    const uint64_t *input = input_marks(pvr);
    uint64_t bad = 0;
    if (values_len != CACHE_VALUES || marks_len != CACHE_MARKS)
        return false;
    for (unsigned w = 0; w < WORDS; w++) {
        uint64_t valid = marks[VALID + w];
        bad |= (valid & ~EXISTS[w]) | (marks[CHANGED + w] & ~(valid & input[w]));
    }
    return bad == 0;
}

/* ---- Write and read ---- */

static adk_answer answer(uint64_t r3, uint64_t r4)
{
    return (adk_answer){ r3, r4, 0 };
}

/* A value of a listed size. */
static inline void copy(uint8_t *to, const uint8_t *from, size_t size)
{
    switch (size) {
    case 4: memcpy(to, from, 4); break;
    case 8: memcpy(to, from, 8); break;
    default: memcpy(to, from, 16); break;
    }
}

/* "Write: 15; 5 for a value over 65,528 bytes; 6 unless permitted in a run input (NOP too is 6); 7. It stores the
   value, valid and changed." L4: a cache write or read has 0 in R4 and R5. */
adk_answer mdl_cache_write(uint8_t *values, size_t values_len, uint64_t *marks, size_t marks_len, uint32_t pvr,
                           uint16_t id, const uint8_t *value, size_t value_len)
{
    struct element e = element_of(id);
    if (!well_formed(values_len, marks, marks_len, pvr))
        return answer(15, 0);
    if (value_len > VALUE_MAX)
        return answer(5, 0);
    if (!in_input(pvr, e.number))
        return answer(6, 0);
    if (value_len != e.size)
        return answer(7, 0);
    copy(values + e.at, value, e.size);
    set_mark(marks + VALID, e.number);
    set_mark(marks + CHANGED, e.number);
    return answer(0, 0);
}

static void put_header(uint8_t *p, unsigned id, unsigned size)
{
    p[0] = (uint8_t)(id >> 8);
    p[1] = (uint8_t)id;
    p[2] = (uint8_t)(size >> 8);
    p[3] = (uint8_t)size;
}

static void put_count(uint8_t *p, unsigned count)
{
    p[0] = p[1] = 0;
    p[2] = (uint8_t)(count >> 8);
    p[3] = (uint8_t)count;
}

/* One element by get state, which without flag bits writes no store; a refusal leaves the value as it was. */
static adk_answer get_one(const uint8_t *store, size_t store_len, uint64_t guest, uint64_t vcpu, unsigned id,
                          uint8_t *value, unsigned size)
{
    uint8_t buffer[4 + 4 + 16];
    put_count(buffer, 1);
    put_header(buffer + 4, id, size);
    adk_answer a = mdl_get_state((uint8_t *)store, store_len, 0, guest, vcpu, buffer, 8 + size);
    if (a.r3 == 0)
        copy(value, buffer + 8, size);
    return a;
}

/* "Read into a lent value buffer: 15, 5, 6 .., 7; then a valid element comes from the cache, else from get state with
   that answer, and after 0 is stored as valid. Place is 0." */
adk_answer mdl_cache_read(const uint8_t *store, size_t store_len, uint64_t guest, uint64_t vcpu, uint32_t pvr,
                          uint8_t *values, size_t values_len, uint64_t *marks, size_t marks_len, uint16_t id,
                          uint8_t *value, size_t value_len)
{
    struct element e = element_of(id);
    if (!well_formed(values_len, marks, marks_len, pvr))
        return answer(15, 0);
    if (value_len > VALUE_MAX)
        return answer(5, 0);
    if (!readable(pvr, id, e.number))
        return answer(6, 0);
    if (value_len != e.size)
        return answer(7, 0);
    if (is_marked(marks + VALID, e.number)) {
        copy(value, values + e.at, e.size);
        return answer(0, 0);
    }
    adk_answer a = get_one(store, store_len, guest, vcpu, id, value, e.size);
    if (a.r3 != 0)
        return a.r3 >= 6 && a.r3 <= 8 ? answer(a.r3, 0) : a;
    copy(values + e.at, value, e.size);
    set_mark(marks + VALID, e.number);
    return answer(0, 0);
}

/* ---- Run ---- */

/* "All 164 changed need 2,424 bytes." */
enum { INPUT_MOST = 2424 };

/* How many bytes the changed elements need, with the count. Those of word 0 have 8 bytes; of word 1 the first 23 have
   8, the next 15 have 4 and the rest 16; of word 2 all have 16. */
static size_t bytes_needed(const uint64_t *changed)
{
    const uint64_t first_23 = UINT64_MAX << 41, first_38 = UINT64_MAX << 26;
    int eight = __builtin_popcountll(changed[0]) + __builtin_popcountll(changed[1] & first_23);
    int four = __builtin_popcountll(changed[1] & first_38 & ~first_23);
    int sixteen = __builtin_popcountll(changed[1] & ~first_38) + __builtin_popcountll(changed[2]);
    return (size_t)(4 + (4 + 8) * eight + (4 + 4) * four + (4 + 16) * sixteen);
}

/* "It writes a count and them, in order of ID, to the input's first bytes, the rest untouched." */
static void write_input(uint8_t *input, const uint8_t *values, const uint64_t *changed)
{
    uint8_t *p = input + 4;
    unsigned count = 0;
    for (unsigned w = 0; w < WORDS; w++)
        for (uint64_t left = changed[w]; left != 0; count++) {
            unsigned lead = (unsigned)__builtin_clzll(left), id = input_id(64 * w + lead);
            struct element e = element_of(id);
            put_header(p, id, e.size);
            copy(p + 4, values + e.at, e.size);
            p += 4 + e.size;
            left &= ~MARK(lead);
        }
    put_count(input, count);
}

/* "After success all marks clear, then the elements of the output become valid with its values." */
static void keep_output(uint8_t *values, uint64_t *marks, const uint8_t *output)
{
    const uint8_t *p = output + 4;
    memset(marks, 0, CACHE_MARKS * sizeof *marks);
    for (unsigned left = output[3]; left > 0; left--) {
        struct element e = element_of((unsigned)p[0] << 8 | p[1]);
        copy(values + e.at, p + 4, e.size);
        set_mark(marks + VALID, e.number);
        p += 4 + e.size;
    }
}

/* The size of the run input buffer that is registered; the vCPU is there. */
static uint64_t registered(const uint8_t *store, size_t store_len, uint64_t guest, uint64_t vcpu)
{
    uint8_t value[16] = { 0 };
    uint64_t size = 0;
    get_one(store, store_len, guest, vcpu, RUN_INPUT, value, 16);
    for (unsigned i = 8; i < 16; i++)
        size = size << 8 | value[i];
    return size;
}

/* Whether a refusal of a run stands behind 12 of its input in "a run's order", and not behind the input's elements. */
static bool behind_input_length(adk_answer a)
{
    return a.r3 == 6 || a.r3 == 7 || (a.r3 == 12 && a.r4 == 1);
}

/*
 * "Run: 15, then a run's order; 12 with R4 0 also if the changed elements need more than the registered input. A
 * refused run keeps all marks." L7: told another PVR than the guest's, it answers run's 6; refused, it leaves the input
 * as well. A run of an input of no bytes is refused with what stands before 12, or with that.
 */
adk_answer mdl_cache_run(uint8_t *store, size_t store_len, uint64_t flags, uint64_t guest, uint64_t vcpu, uint32_t pvr,
                         uint8_t *values, size_t values_len, uint64_t *marks, size_t marks_len, uint8_t *input,
                         size_t input_len, uint8_t *output, size_t output_len, const uint8_t *effect,
                         size_t effect_len, uint64_t exit_reason)
{
    uint8_t before[INPUT_MOST];
    if (!well_formed(values_len, marks, marks_len, pvr))
        return answer(15, 0);
    size_t need = bytes_needed(marks + CHANGED);
    if (need > input_len)
        return mdl_run_vcpu(store, store_len, flags, guest, vcpu, input, 0, output, output_len, effect, effect_len,
                            exit_reason);
    memcpy(before, input, need);
    write_input(input, values, marks + CHANGED);
    adk_answer a = mdl_run_vcpu(store, store_len, flags, guest, vcpu, input, input_len, output, output_len, effect,
                                effect_len, exit_reason);
    if (a.r3 == 0) {
        keep_output(values, marks, output);
        return a;
    }
    memcpy(input, before, need);
    if (behind_input_length(a) && need > registered(store, store_len, guest, vcpu))
        return answer(12, 0);
    return a;
}
