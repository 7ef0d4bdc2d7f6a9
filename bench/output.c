/* output.c: see output.h. */
#include "output.h"

#include "chance.h"

#include <string.h>

const char *const SCENE_NAME[SCENES] = {
    [OWN] = "what a run wrote, as registered",
    [ORDERED] = "the elements in another order",
    [WITH_NOP] = "a NOP of any size, anywhere",
    [SOME] = "some of the elements",
    [REPEATED] = "an element that comes again, of the right size or another",
    [OTHER_ID] = "another ID",
    [OTHER_SIZE] = "another size",
    [OTHER_VALUE] = "a value with another bit",
    [SHORTER] = "an output that is cut at each byte",
    [CUT_ID] = "a bad ID in an element that is cut",
    [LYING_COUNT] = "a count of more or fewer elements",
    [BEHIND] = "bytes behind the elements",
    [TWO_FAULTS] = "two faults, in one element or in two",
    [FULL] = "an output of 65,536 bytes, and of one more",
    [REFUSED_BEFORE] = "a call that is refused before the elements",
    [CHANCE] = "chance",
};

/* ---- The elements of each exit, as adderknot.h tells them ---- */

enum { ELEMENTS_MOST = 10, ALL_ELEMENTS = (1 << ELEMENTS_MOST) - 1 };

struct exit_row {
    uint64_t reason;
    unsigned count;
    unsigned ids[ELEMENTS_MOST];
};

static const struct exit_row ROWS_OF_EXITS[EXIT_COUNT] = {
    { ADK_EXIT_UNSPECIFIED, 0, { 0 } },
    { ADK_EXIT_HDEC, 0, { 0 } },
    { ADK_EXIT_HCALL, 10, { 0x1003, 0x1004, 0x1005, 0x1006, 0x1007, 0x1008, 0x1009, 0x100A, 0x100B, 0x100C } },
    { ADK_EXIT_HDSI, 3, { 0xF000, 0xF001, 0xF003 } },
    { ADK_EXIT_HISI, 1, { 0xF003 } },
    { ADK_EXIT_HEA, 1, { 0xF002 } },
    { ADK_EXIT_HV_FAC_UNAVAIL, 1, { 0x102D } },
};

unsigned exit_elements(uint64_t exit_reason)
{
    for (size_t i = 0; i < EXIT_COUNT; i++)
        if (ROWS_OF_EXITS[i].reason == exit_reason)
            return ROWS_OF_EXITS[i].count;
    return 0;
}

unsigned elements_needed(enum scene s)
{
    switch (s) {
    case ORDERED: return 2;
    case SOME:
    case REPEATED:
    case OTHER_SIZE:
    case OTHER_VALUE:
    case TWO_FAULTS: return 1;
    default: return 0;
    }
}

/* The place of an ID in the row, or the row's count. */
static unsigned place_of(const struct exit_row *row, unsigned id)
{
    unsigned place = 0;
    while (place < row->count && row->ids[place] != id)
        place++;
    return place;
}

/* Where the value of a thread element stands in a slot: they follow each other in order of ID. */
static size_t value_at(unsigned id)
{
    size_t at = 0;
    for (const struct row *row = ROWS; row < ROWS + ROW_COUNT && row->first <= id; row++)
        if (!row->wide)
            at += row->size * ((id <= row->last ? id : row->last + 1) - row->first);
    return at;
}

/* ---- The store ---- */

/* The vCPUs whose outputs are judged; the last one is taken. */
enum { FIRST_OF_ALL, OF_POWER9, LAST_OF_ALL, TAKEN_ONE, VCPUS };

static struct vcpu {
    uint64_t guest, vcpu;
    unsigned slot;
    uint32_t pvr;
} vcpus[VCPUS];

static bool begin_vcpu(unsigned which, uint64_t guest, uint64_t vcpu, unsigned slot, uint32_t pvr)
{
    uint8_t *s = memory[BEFORE][STORE];
    vcpus[which] = (struct vcpu){ guest, vcpu, slot, pvr };
    return adk_create_vcpu(s, layout->size, 0, guest, vcpu).r3 == ADK_OK &&
           word_in(s, slot) == word_of(guest, (unsigned)vcpu);
}

static void stir_values(void)
{
    uint8_t *s = memory[BEFORE][STORE];
    any_bytes(s + layout->header, layout->size - layout->header);
    for (unsigned i = 0; i < VCPUS; i++)
        put_pvr(vcpus[i].guest, vcpus[i].pvr);
    share(STORE, 0, layout->size);
}

bool begin_outputs(enum size size)
{
    uint8_t *s = memory[BEFORE][STORE];
    layout = &LAYOUTS[size];
    bool made = adk_fresh_store(s, layout->size).r3 == ADK_OK;
    for (unsigned guest = 1; guest <= layout->guests; guest++)
        made = made && adk_create_guest(s, layout->size, 0, ADK_TOKEN).r4 == guest;
    made = made && begin_vcpu(FIRST_OF_ALL, 1, 0, 0, 0) && begin_vcpu(OF_POWER9, 2, 5, 1, ADK_PVR_ARCH_300) &&
           begin_vcpu(TAKEN_ONE, 2, 6, 2, ADK_PVR_ARCH_300);
    for (unsigned slot = 3; slot + 1 < layout->slots; slot++)
        made = made && adk_create_vcpu(s, layout->size, 0, 3, slot).r3 == ADK_OK;
    made = made && begin_vcpu(LAST_OF_ALL, layout->guests, ADK_VCPU_MAX, layout->slots - 1, ADK_PVR_ARCH_31);
    put_mark(s, vcpus[TAKEN_ONE].slot, true);
    put_live(s, layout->guests - 1, false);
    stir_values();
    return made;
}

/* ---- An output under construction ---- */

/* bad: the answer for its first bad element, if it has one. had: the elements of the exit that it holds, as bits. */
struct making {
    struct output o;
    const struct exit_row *row;
    const uint8_t *values; /* of the vCPU */
    uint8_t *bytes;
    size_t end;
    uint32_t count;
    unsigned had;
    adk_answer bad;
};

static struct making begin(enum scene scene, const struct vcpu *v, const struct exit_row *row)
{
    struct making m = { .row = row, .bytes = memory[BEFORE][BUFFER], .end = 4 };
    m.values = memory[BEFORE][STORE] + slot_at(v->slot);
    m.o = (struct output){ .scene = scene, .guest = v->guest, .vcpu = v->vcpu, .exit_reason = row->reason };
    m.o.len[STORE] = layout->size;
    return m;
}

/* Adds an element of which the request says r3; the value keeps the bytes that are there. */
static uint8_t *add(struct making *m, unsigned id, size_t size, unsigned r3)
{
    uint8_t *at = m->bytes + m->end;
    adk_write_be(at, 2, id);
    adk_write_be(at + 2, 2, size);
    if (r3 != ADK_OK && m->bad.r3 == ADK_OK)
        m->bad = (adk_answer){ r3, m->count, m->end };
    m->count++;
    m->end += 4 + size;
    return at + 4;
}

/* Adds the element of this place in the exit's row, with the vCPU's value. */
static uint8_t *add_right(struct making *m, unsigned place, unsigned r3)
{
    unsigned id = m->row->ids[place], size = row_of(id)->size;
    uint8_t *value = add(m, id, size, r3);
    memcpy(value, m->values + value_at(id), size);
    m->had |= 1u << place;
    return value;
}

/* Those of the places that are ones, in the order of the row. */
static void add_places(struct making *m, unsigned places)
{
    for (unsigned place = 0; place < m->row->count; place++)
        if (places >> place & 1)
            add_right(m, place, ADK_OK);
}

/* What the request says of an output whose elements all lie within it. */
static adk_answer told(const struct making *m)
{
    if (m->bad.r3 != ADK_OK)
        return m->bad;
    for (unsigned place = 0; place < m->row->count; place++)
        if ((m->had >> place & 1) == 0)
            return (adk_answer){ ADK_MISSING_ELEMENT, m->row->ids[place], 0 };
    return (adk_answer){ ADK_OK, 0, 0 };
}

/* Lends the first len bytes with this count. */
static void lend_output(struct making *m, uint32_t count, size_t len)
{
    adk_write_be(m->bytes, 4, count);
    m->o.len[BUFFER] = len;
    share(BUFFER, 0, len > m->end ? len : m->end);
}

static void try_as(struct making *m, uint32_t count, size_t len, adk_answer answer, try_output *try)
{
    lend_output(m, count, len);
    m->o.answer = answer;
    try(&m->o);
}

static void try_made(struct making *m, try_output *try)
{
    try_as(m, m->count, m->end, told(m), try);
}

/* ---- Outputs that are accepted ---- */

/* The elements turned by so many places, and two of them exchanged. */
static void try_order(const struct vcpu *v, const struct exit_row *row, unsigned turn, unsigned a, unsigned b,
                      try_output *try)
{
    struct making m = begin(ORDERED, v, row);
    for (unsigned i = 0; i < row->count; i++)
        add_right(&m, ((i == a ? b : i == b ? a : i) + turn) % row->count, ADK_OK);
    try_made(&m, try);
}

/* Of three elements and fewer these are all orders. */
static void each_order(const struct vcpu *v, const struct exit_row *row, try_output *try)
{
    for (unsigned turn = 0; turn < row->count; turn++)
        for (unsigned a = 0; a < row->count; a++)
            for (unsigned b = a; b < row->count; b++)
                try_order(v, row, turn, a, b, try);
}

static void each_nop(const struct vcpu *v, const struct exit_row *row, try_output *try)
{
    static const size_t sizes[] = { 0, 1, 2, 3, 4, 5, 7, 8, 9, 16, 17, 24, 255, 256, 4095 };
    for (unsigned place = 0; place <= row->count; place++)
        for (size_t i = 0; i < COUNT(sizes); i++) {
            struct making m = begin(WITH_NOP, v, row);
            add_places(&m, (1u << place) - 1);
            add(&m, ADK_GSID_NOP, sizes[i], ADK_OK);
            add(&m, ADK_GSID_NOP, sizes[(i + place) % COUNT(sizes)], ADK_OK);
            add_places(&m, ALL_ELEMENTS << place);
            try_made(&m, try);
        }
}

static void each_behind(const struct vcpu *v, const struct exit_row *row, try_output *try)
{
    for (unsigned behind = 0; behind < 20; behind++) {
        struct making m = begin(BEHIND, v, row);
        add_places(&m, ALL_ELEMENTS);
        try_as(&m, m.count, m.end + behind, told(&m), try);
    }
}

/* The library's run, with an empty input and effect. Its output has the registered size. */
static void each_own(const struct vcpu *v, const struct exit_row *row, try_output *try)
{
    static const uint8_t nothing[4] = { 0 };
    static const size_t registered[] = { ADK_RUN_OUTPUT_MIN, ADK_RUN_OUTPUT_MIN + 1, 4096, ADK_BUFFER_MAX };
    uint8_t *s = memory[BEFORE][STORE], kept[32];
    memcpy(kept, s + slot_at(v->slot), sizeof kept);
    for (size_t i = 0; i < COUNT(registered); i++) {
        struct making m = begin(OWN, v, row);
        put_registered_size(v->slot, ADK_GSID_RUN_INPUT, sizeof nothing);
        put_registered_size(v->slot, ADK_GSID_RUN_OUTPUT, registered[i]);
        uint64_t refused = adk_run_vcpu(s, layout->size, 0, v->guest, v->vcpu, nothing, sizeof nothing, m.bytes,
                                        registered[i], nothing, sizeof nothing, row->reason).r3;
        share(STORE, 0, layout->size);
        m.o.len[BUFFER] = registered[i];
        m.o.answer.r3 = refused;
        share(BUFFER, 0, registered[i]);
        try(&m.o);
    }
    memcpy(s + slot_at(v->slot), kept, sizeof kept);
    share(STORE, 0, layout->size);
}

/* ---- Outputs with one fault ---- */

static void each_subset(const struct vcpu *v, const struct exit_row *row, try_output *try)
{
    for (unsigned places = 0; row->count > 0 && places >> row->count == 0; places++) {
        struct making m = begin(SOME, v, row);
        add_places(&m, places);
        try_made(&m, try);
    }
}

static void try_repeated(const struct vcpu *v, const struct exit_row *row, unsigned place, unsigned before,
                         try_output *try)
{
    for (int size = 0; size <= 16; size += 4) {
        struct making m = begin(REPEATED, v, row);
        add_places(&m, (1u << before) - 1);
        add_right(&m, place, ADK_INVALID_ELEMENT_ID);
        adk_write_be(m.bytes + m.end - row_of(row->ids[place])->size - 2, 2, (uint64_t)size);
        add_places(&m, ALL_ELEMENTS << before);
        try_made(&m, try);
    }
}

static void each_repeated(const struct vcpu *v, const struct exit_row *row, try_output *try)
{
    for (unsigned place = 0; place < row->count; place++)
        for (unsigned before = place + 1; before <= row->count; before++)
            try_repeated(v, row, place, before, try);
}

/* One element with the ID and its listed size, before or behind the exit's; all: each ID that there is. */
static void each_id(const struct vcpu *v, const struct exit_row *row, bool all, try_output *try)
{
    for (unsigned id = 1; id <= 0xFFFF; id += all || row_of(id) != NULL || row_of(id + 1) != NULL ? 1 : 97) {
        struct making m = begin(OTHER_ID, v, row);
        if (place_of(row, id) < row->count)
            continue;
        if (id % 2 == 0)
            add_places(&m, ALL_ELEMENTS);
        add(&m, id, row_of(id) == NULL ? 8 : row_of(id)->size, ADK_INVALID_ELEMENT_ID);
        try_made(&m, try);
    }
}

/* Each has its bytes, so that no element is cut. */
static void each_size(const struct vcpu *v, const struct exit_row *row, try_output *try)
{
    for (unsigned place = 0; place < row->count; place++)
        for (unsigned size = 0; size <= 0x1010; size += size < 33 ? 1 : 0x7F) {
            struct making m = begin(OTHER_SIZE, v, row);
            unsigned id = row->ids[place];
            if (size == row_of(id)->size)
                continue;
            add_places(&m, (1u << place) - 1);
            add(&m, id, size, ADK_INVALID_ELEMENT_SIZE);
            add_places(&m, ALL_ELEMENTS << (place + 1));
            try_made(&m, try);
        }
}

static void each_value(const struct vcpu *v, const struct exit_row *row, try_output *try)
{
    for (unsigned place = 0; place < row->count; place++)
        for (unsigned bit = 0; bit < 8 * row_of(row->ids[place])->size; bit++) {
            struct making m = begin(OTHER_VALUE, v, row);
            add_places(&m, (1u << place) - 1);
            add_right(&m, place, ADK_INVALID_ELEMENT_VALUE)[bit / 8] ^= (uint8_t)(1 << bit % 8);
            add_places(&m, ALL_ELEMENTS << (place + 1));
            try_made(&m, try);
        }
}

/* An output that ends with a NOP, cut at each byte: the element in which the cut is is told. */
static void each_cut(const struct vcpu *v, const struct exit_row *row, try_output *try)
{
    struct making m = begin(SHORTER, v, row);
    adk_answer bad = { ADK_BAD_LENGTH, 0, 0 };
    size_t len = 0, next = 4;
    add_places(&m, ALL_ELEMENTS);
    add(&m, ADK_GSID_NOP, 5, ADK_OK);
    for (uint32_t index = 0; index <= m.count; index++) {
        for (; len < next; len++)
            try_as(&m, m.count, len, bad, try);
        bad = (adk_answer){ ADK_INVALID_ELEMENT_SIZE, index, next };
        next += 4 + adk_read_be(m.bytes + next + 2, 2);
    }
}

/* A header that does not fit is 7, whatever its ID; after that an ID is 6, wherever the value ends. */
static void each_cut_id(const struct vcpu *v, const struct exit_row *row, try_output *try)
{
    for (size_t left = 0; left < 12; left++) {
        struct making m = begin(CUT_ID, v, row);
        add_places(&m, ALL_ELEMENTS);
        size_t at = m.end;
        add(&m, 0x1054, 8, left < 4 ? ADK_INVALID_ELEMENT_SIZE : ADK_INVALID_ELEMENT_ID);
        try_as(&m, m.count, at + left, told(&m), try);
    }
}

static void each_count(const struct vcpu *v, const struct exit_row *row, try_output *try)
{
    static const uint32_t more[] = { 1, 2, 255, 65536, UINT32_C(0x7FFFFFFF), UINT32_C(0xFFFFFF00) };
    struct making m = begin(LYING_COUNT, v, row);
    add_places(&m, ALL_ELEMENTS);
    for (size_t i = 0; i < COUNT(more); i++)
        try_as(&m, m.count + more[i], m.end, (adk_answer){ ADK_INVALID_ELEMENT_SIZE, m.count, m.end }, try);
    for (uint32_t count = 0; count < m.count; count++)
        try_as(&m, count, m.end, (adk_answer){ ADK_MISSING_ELEMENT, row->ids[count], 0 }, try);
}

/* Zeros behind the elements are empty NOPs where they are counted. */
static void each_zero(const struct vcpu *v, const struct exit_row *row, try_output *try)
{
    struct making m = begin(LYING_COUNT, v, row);
    add_places(&m, ALL_ELEMENTS);
    memset(m.bytes + m.end, 0, 8);
    share(BUFFER, 0, m.end + 8);
    try_as(&m, m.count + 1, m.end + 4, told(&m), try);
    try_as(&m, m.count + 2, m.end + 8, told(&m), try);
    try_as(&m, m.count + 2, m.end + 7, (adk_answer){ ADK_INVALID_ELEMENT_SIZE, m.count + 1, m.end + 4 }, try);
}

/* ---- Outputs with two ---- */

/* In one element: size and value, size and end, value and end; an ID that comes again, of another size, and cut. In two
   elements: the first is told; and a bad one before what is missing. */
static void each_two(const struct vcpu *v, const struct exit_row *row, try_output *try)
{
    struct making m = begin(TWO_FAULTS, v, row);
    unsigned last = row->count - 1, id = row->ids[last], size = row_of(id)->size;
    memset(add(&m, id, size + 1, ADK_INVALID_ELEMENT_SIZE), 0xEE, size + 1);
    try_made(&m, try);
    try_as(&m, m.count, m.end - 2, told(&m), try);
    m = begin(TWO_FAULTS, v, row);
    memset(add(&m, id, size, ADK_INVALID_ELEMENT_SIZE), 0xEE, size);
    try_as(&m, m.count, m.end - 1, told(&m), try);
    m = begin(TWO_FAULTS, v, row);
    add_right(&m, last, ADK_OK);
    add(&m, id, 0xFFFF, ADK_INVALID_ELEMENT_ID);
    m.end -= 0xFFFF;
    try_made(&m, try);
    m = begin(TWO_FAULTS, v, row);
    add(&m, ADK_GSID_NOP, 3, ADK_OK);
    add_right(&m, last, ADK_INVALID_ELEMENT_VALUE)[0] ^= 1;
    add(&m, 0x1054, 8, ADK_INVALID_ELEMENT_ID);
    try_made(&m, try);
}

/* ---- The longest ---- */

static void each_full(const struct vcpu *v, const struct exit_row *row, try_output *try)
{
    struct making m = begin(FULL, v, row);
    add_places(&m, ALL_ELEMENTS);
    add(&m, ADK_GSID_NOP, ADK_BUFFER_MAX - m.end - 4, ADK_OK);
    try_made(&m, try);
    try_as(&m, m.count, ADK_BUFFER_MAX + 1, (adk_answer){ ADK_BAD_LENGTH, 0, 0 }, try);
    m = begin(FULL, v, row);
    while (m.end + 124 <= ADK_BUFFER_MAX)
        add(&m, ADK_GSID_NOP, 0, ADK_OK);
    add_places(&m, ALL_ELEMENTS);
    try_made(&m, try);
    try_as(&m, m.count, ADK_BUFFER_MAX, told(&m), try);
}

/* ---- Calls that are refused before the elements: each of them would also be refused for all that follows ---- */

static void try_before(struct output o, uint64_t r3, try_output *try)
{
    o.answer = (adk_answer){ r3, 0, 0 };
    try(&o);
}

/* An output of 3 bytes for an unknown exit, and behind its bytes a bad element. */
static struct making begin_refused(const struct vcpu *v, const struct exit_row *row)
{
    struct making m = begin(REFUSED_BEFORE, v, row);
    add(&m, 0x1054, 8, ADK_INVALID_ELEMENT_ID);
    lend_output(&m, m.count, ADK_BUFFER_MIN - 1);
    m.o.exit_reason = NO_EXITS[0];
    return m;
}

static void each_bad_exit(const struct vcpu *v, const struct exit_row *row, try_output *try)
{
    struct making m = begin_refused(v, row);
    for (size_t i = 0; i < NO_EXIT_COUNT; i++) {
        m.o.exit_reason = NO_EXITS[i];
        m.o.len[BUFFER] = i % ADK_BUFFER_MIN;
        try_before(m.o, ADK_BAD_LENGTH, try);
        m.o.len[BUFFER] = m.end;
        try_before(m.o, ADK_UNKNOWN_EXIT, try);
    }
}

static void each_bad_vcpu(const struct vcpu *v, const struct exit_row *row, try_output *try)
{
    static const uint64_t ids[] = { 1, 2046, 2048, 2053, UINT64_C(0x100000000), UINT64_MAX };
    struct output o = begin_refused(v, row).o;
    o.guest = vcpus[TAKEN_ONE].guest;
    o.vcpu = vcpus[TAKEN_ONE].vcpu;
    try_before(o, ADK_WRONG_OWNER, try);
    for (size_t i = 0; i < COUNT(ids); i++) {
        o.vcpu = ids[i];
        try_before(o, ADK_BAD_VCPU, try);
    }
}

/* Of a guest that is not live, and of one that cannot be; then also with a store of another length. */
static void each_bad_guest(const struct vcpu *v, const struct exit_row *row, try_output *try)
{
    const uint64_t guests[] = { layout->guests - 1, 0, UINT64_C(0x100000001), UINT64_MAX };
    struct output o = begin_refused(v, row).o;
    o.vcpu = ADK_VCPU_MAX + 1;
    for (size_t i = 0; i < COUNT(guests); i++) {
        o.guest = guests[i];
        o.len[STORE] = layout->size;
        try_before(o, ADK_BAD_PARAMETER, try);
        o.len[STORE] = layout->size + (i % 2 == 0 ? 65536 : (size_t)-1);
        try_before(o, ADK_BAD_STORE, try);
    }
}

/* A capability that is not offered, and a used slot of a guest that is not live; good before and afterwards. */
static void each_bad_store(const struct vcpu *v, const struct exit_row *row, try_output *try)
{
    static const size_t bytes[] = { 0, LIVE };
    struct output o = begin_refused(v, row).o;
    for (size_t i = 0; i < 2 * COUNT(bytes); i++) {
        memory[BEFORE][STORE][bytes[i / 2]] ^= 0x80;
        share(STORE, 0, layout->header);
        if (i % 2 == 0)
            try_before(o, ADK_BAD_STORE, try);
    }
}

void each_output(bool all, try_output *try)
{
    for (const struct vcpu *v = vcpus; v < vcpus + TAKEN_ONE; v++)
        for (const struct exit_row *row = ROWS_OF_EXITS; row < ROWS_OF_EXITS + EXIT_COUNT; row++) {
            each_own(v, row, try);
            each_order(v, row, try);
            each_nop(v, row, try);
            each_behind(v, row, try);
            each_subset(v, row, try);
            each_repeated(v, row, try);
            each_id(v, row, all && v == vcpus, try);
            each_size(v, row, try);
            each_value(v, row, try);
            each_cut(v, row, try);
            each_cut_id(v, row, try);
            each_count(v, row, try);
            each_zero(v, row, try);
            if (row->count > 0)
                each_two(v, row, try);
            if (all)
                each_full(v, row, try);
            each_bad_exit(v, row, try);
            each_bad_vcpu(v, row, try);
            each_bad_guest(v, row, try);
            each_bad_store(v, row, try);
        }
}

/* ---- Outputs by chance ---- */

/* The elements in any order, NOPs among them. */
static void add_shuffled(struct making *m)
{
    unsigned order[ELEMENTS_MOST];
    for (unsigned i = 0; i < m->row->count; i++) {
        unsigned j = below(i + 1);
        order[i] = order[j];
        order[j] = i;
    }
    for (unsigned i = 0; i <= m->row->count; i++) {
        while (percent(25))
            add(m, ADK_GSID_NOP, percent(95) ? below(40) : below(4000), ADK_OK);
        if (i < m->row->count && !percent(1))
            add_right(m, order[i], ADK_OK);
        if (percent(1))
            add(m, percent(50) ? any_id() : m->row->ids[below(ELEMENTS_MOST)], percent(50) ? 8 : below(20), ADK_OK);
    }
}

struct output any_output(void)
{
    const struct vcpu *v = &vcpus[percent(98) ? below(TAKEN_ONE) : TAKEN_ONE];
    struct making m = begin(CHANCE, v, &ROWS_OF_EXITS[below(EXIT_COUNT)]);
    if (percent(1))
        stir_values();
    add_shuffled(&m);
    size_t len = m.end + (percent(20) ? below(30) : 0);
    if (percent(15))
        flip_bit(m.bytes, (unsigned)m.end);
    if (percent(10))
        len -= below(12) % len;
    if (percent(1))
        len = percent(50) ? below(2 * ADK_BUFFER_MIN) : ADK_BUFFER_MAX - 1 + below(4);
    lend_output(&m, percent(95) ? m.count : percent(50) ? m.count + below(4) : (uint32_t)any_number(), len);
    if (percent(3))
        m.o.exit_reason = percent(50) ? NO_EXITS[below(NO_EXIT_COUNT)] : EXITS[below(EXIT_COUNT)];
    if (percent(1))
        m.o.guest = any_number();
    if (percent(1))
        m.o.vcpu = any_number();
    if (percent(1))
        m.o.len[STORE] = below(STORE_CAPACITY);
    return m.o;
}

/* ---- An output judged ---- */

adk_answer judge_as_lent(judge_entry *judge, enum side s, const struct output *o)
{
    uint8_t *const *m = memory[s];
    return judge(m[STORE], o->len[STORE], o->guest, o->vcpu, o->exit_reason, m[BUFFER], o->len[BUFFER]);
}

const char *changed_piece(const struct output *o, bool store_too)
{
    if (broken(BUFFER, o->len[BUFFER], false) != NULL)
        return PIECE_NAME[BUFFER];
    return store_too && broken(STORE, o->len[STORE], false) != NULL ? PIECE_NAME[STORE] : NULL;
}
