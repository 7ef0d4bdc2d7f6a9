/* gsb.c: see gsb.h. */
#include "gsb.h"

#include "chance.h"

#include <string.h>

/* ---- Elements ---- */

const struct row ROWS[] = {
    { 0x0001, 0x0002, 8, R, true, false },
    { 0x0003, 0x0003, 4, RW, true, false },
    { 0x0004, 0x0004, 8, RW, true, false },
    { 0x0005, 0x0005, 24, RW, true, false },
    { 0x0006, 0x0006, 16, RW, true, false },
    { 0x0C00, 0x0C01, 16, RW, false, false },
    { 0x0C02, 0x0C02, 8, RW | RUN_IN, false, false },
    { 0x1000, 0x1030, 8, ALL, false, false },
    { 0x1031, 0x1031, 8, ALL, false, true },
    { 0x1032, 0x1039, 8, ALL, false, false },
    { 0x103A, 0x103A, 8, W | RUN_IN | RUN_EFFECT, false, false },
    { 0x103B, 0x103D, 8, ALL, false, false },
    { 0x103E, 0x103E, 8, ALL, false, true },
    { 0x103F, 0x1040, 8, ALL, false, false },
    { 0x1041, 0x1042, 8, ALL, false, true },
    { 0x1043, 0x104D, 8, ALL, false, false },
    { 0x104E, 0x1051, 8, ALL, false, true },
    { 0x1052, 0x1053, 8, ALL, false, false },
    { 0x2000, 0x2005, 4, ALL, false, false },
    { 0x2006, 0x2006, 4, ALL, false, true },
    { 0x2007, 0x200E, 4, ALL, false, false },
    { 0x3000, 0x303F, 16, ALL, false, false },
    { 0xF000, 0xF000, 8, R | RUN_EFFECT, false, false },
    { 0xF001, 0xF002, 4, R | RUN_EFFECT, false, false },
    { 0xF003, 0xF003, 8, R | RUN_EFFECT, false, false },
};

const char *const LIST_NAME[LISTS] = { [WHOLE] = "guests with the whole list", [POWER9] = "POWER9 guests" };

static unsigned any_of(const struct row *row)
{
    return row->first + below(row->last - row->first + 1);
}

const struct row *row_of(unsigned id)
{
    for (size_t i = 0; i < COUNT(ROWS); i++)
        if (id >= ROWS[i].first && id <= ROWS[i].last)
            return &ROWS[i];
    return NULL;
}

bool takes(unsigned access, bool wide, enum list list, const struct row *row)
{
    return row->wide == wide && (row->access & access) != 0 && !(list == POWER9 && row->later);
}

unsigned access_to(enum list list, unsigned id)
{
    const struct row *row = row_of(id);
    if (id == ADK_GSID_NOP)
        return ALL;
    return row == NULL || (list == POWER9 && row->later) ? 0 : row->access;
}

unsigned later_id(unsigned number)
{
    const struct row *row = ROWS;
    for (;; row++) {
        unsigned n = row->later ? row->last - row->first + 1 : 0;
        if (number < n)
            return row->first + number;
        number -= n;
    }
}

unsigned later_number(unsigned id)
{
    unsigned number = 0;
    while (number < LATER_COUNT && later_id(number) != id)
        number++;
    return number;
}

unsigned any_id(void)
{
    const struct row *row = &ROWS[below(COUNT(ROWS))];
    switch (below(8)) {
    case 0: return ADK_GSID_NOP;
    case 1: return row->first - 1;
    case 2: return row->last + 1;
    case 3: return below(0x10000);
    default: return any_of(row);
    }
}

const uint8_t *next_element(const uint8_t *element)
{
    return element + 4 + adk_read_be(element + 2, 2);
}

/* ---- Values around each value rule ---- */

const struct edge VALUE_EDGES[] = {
    { 0x0003, 0, 0x0F000005, false },
    { 0x0003, 0, 0x0F000006, false },
    { 0x0003, ADK_CAP_POWER9, 0x0F000005, true },
    { 0x0003, ADK_CAP_POWER9, 0x0F000006, false },
    { 0x0003, ADK_CAP_POWER10, 0x0F000005, false },
    { 0x0003, ADK_CAP_POWER10, 0x0F000006, true },
    { 0x0003, ADK_CAP_POWER9 | ADK_CAP_POWER10, 0x0F000005, true },
    { 0x0003, ADK_CAP_POWER9 | ADK_CAP_POWER10, 0x0F000006, true },
    { 0x0003, ANY, 0, false },
    { 0x0003, ANY, 0x0F000004, false },
    { 0x0003, ANY, 0x0F000007, false },
    { 0x0003, ANY, 0x0500000F, false },
    { 0x0003, ANY, 0xFFFFFFFF, false },
    { 0x0C00, ANY, 0, false },
    { 0x0C00, ANY, 3, false },
    { 0x0C00, ANY, 4, true },
    { 0x0C00, ANY, 65536, true },
    { 0x0C00, ANY, 65537, false },
    { 0x0C00, ANY, 0x0000000100000004, false },
    { 0x0C00, ANY, 0x8000000000000000, false },
    { 0x0C00, ANY, 0x8000000000000004, false },
    { 0x0C00, ANY, 0xFFFFFFFFFFFFFFFF, false },
    { 0x0C01, ANY, 4, false },
    { 0x0C01, ANY, 123, false },
    { 0x0C01, ANY, 124, true },
    { 0x0C01, ANY, 65536, true },
    { 0x0C01, ANY, 65537, false },
    { 0x0C01, ANY, 0x000000010000007C, false },
    { 0x0C01, ANY, 0x8000000000000000, false },
    { 0x0C01, ANY, 0x800000000000007C, false },
    { 0x0C01, ANY, 0xFFFFFFFFFFFFFFFF, false },
};

uint64_t agreed(void)
{
    return adk_read_be(memory[BEFORE][STORE], 8);
}

uint64_t ruled_number(const uint8_t *value, unsigned id)
{
    return id == 0x0003 ? adk_read_be(value, 4) : adk_read_be(value + 8, 8);
}

bool at_edge(const struct edge *e, unsigned id)
{
    return e->id == id && (e->agreed == ANY || e->agreed == agreed());
}

void put_edge(uint8_t *value, unsigned id, bool good)
{
    const struct edge *chosen = NULL;
    unsigned n = 0;
    for (size_t i = 0; i < COUNT(VALUE_EDGES); i++)
        if (at_edge(&VALUE_EDGES[i], id) && (VALUE_EDGES[i].good || !good) && below(++n) == 0)
            chosen = &VALUE_EDGES[i];
    if (chosen == NULL)
        return;
    if (id == 0x0003)
        adk_write_be(value, 4, chosen->value);
    else
        adk_write_be(value + 8, 8, chosen->value);
}

/* ---- TB offsets ---- */

const uint64_t TB_OFFSETS[] = {
    0, 1, TB_STEP - 1, TB_STEP, TB_STEP + 1, -TB_STEP - 1, -TB_STEP, 1 - TB_STEP, UINT64_MAX
};

uint64_t any_tb_offset(void)
{
    return percent(75) ? TB_OFFSETS[below(OFFSET_COUNT)] : any_number();
}

/* ---- Guest state buffers ---- */

static unsigned any_size(void)
{
    static const unsigned usual[] = { 4, 8, 16, 24 };
    switch (below(8)) {
    case 0:
    case 1: return 0;
    case 2: return below(32);
    case 3: return percent(90) ? below(256) : below(0x10000);
    default: return usual[below(4)];
    }
}

struct build begin_build(enum piece piece, unsigned access, bool wide, enum list list)
{
    return (struct build){ .piece = piece, .access = access, .wide = wide, .list = list, .b = memory[BEFORE][piece] };
}

void put_count(struct build *g)
{
    adk_write_be(g->b, 4, g->count);
}

void add_element(struct build *g, unsigned id, unsigned size)
{
    if (g->len + 4 + size > ADK_BUFFER_MAX)
        return;
    adk_write_be(g->b + g->len, 2, id);
    adk_write_be(g->b + g->len + 2, 2, size);
    any_bytes(g->b + g->len + 4, size < 32 ? size : 32);
    g->len += 4 + size;
    g->count++;
}

static void build_elements(struct build *g, unsigned n)
{
    g->len = 4;
    for (unsigned i = 0; i < n; i++) {
        unsigned id = g->id[below(COUNT(g->id))];
        add_element(g, id, any_size());
    }
    put_count(g);
}

/* Makes the buffer as long as it may be, by a last element that fills it. */
static void fill_up(struct build *g, unsigned id)
{
    size_t room = ADK_BUFFER_MAX - g->len;
    if (room >= 4)
        add_element(g, id, (unsigned)room - 4);
    g->len = ADK_BUFFER_MAX;
    put_count(g);
}

static void build_longest(struct build *g)
{
    build_elements(g, below(20));
    fill_up(g, g->id[0]);
}

/* The most elements that fit, or one or two more: the NOP without a value, 16,383 times. */
static void build_most(struct build *g)
{
    memset(g->b, 0, ADK_BUFFER_MAX);
    g->len = ADK_BUFFER_MAX;
    g->count = 16382 + below(4);
    put_count(g);
}

static void build_bytes(struct build *g, size_t len)
{
    g->len = len;
    if (percent(50)) {
        any_bytes(g->b, len);
        return;
    }
    memset(g->b, 0, len);
    if (len > 3)
        g->b[3] = (uint8_t)below(4);
}

static void cut(struct build *g)
{
    size_t most = g->len < 12 || percent(50) ? g->len : 12;
    g->len -= below((unsigned)most + 1);
}

static void lie(struct build *g)
{
    switch (below(4)) {
    case 0: g->count = (uint32_t)any_number(); break;
    case 1: g->count--; break;
    case 2: g->count = UINT32_MAX - below(3); break;
    default: g->count += 1 + below(2); break;
    }
    put_count(g);
}

static void spoil(struct build *g)
{
    switch (below(5)) {
    case 0: lie(g); break;
    case 1: flip_bit(g->b, (unsigned)g->len); break;
    case 2: g->len += below(40); break;
    default: cut(g); break;
    }
}

/* Short ones, and those around the greatest length. */
static void build_any_bytes(struct build *g)
{
    unsigned style = below(21);
    if (style < 11)
        build_bytes(g, below(9));
    else if (style < 19)
        build_bytes(g, below(100));
    else
        build_bytes(g, percent(70) ? ADK_BUFFER_MAX - 1 + below(4) : ADK_BUFFER_MAX + below(4097));
}

void build_buffer(struct build *g)
{
    unsigned style = below(100);
    if (style < 60)
        build_elements(g, below(10));
    else if (style < 75)
        build_elements(g, below(120));
    else if (style < 78)
        build_longest(g);
    else if (style < 79)
        build_most(g);
    else
        build_any_bytes(g);
    g->high = g->len;
    if (style < 79 && percent(40))
        spoil(g);
}

void build_nops(struct build *g)
{
    for (size_t i = 0; i < COUNT(g->id); i++)
        g->id[i] = ADK_GSID_NOP;
    build_elements(g, below(10));
    g->high = g->len;
}

/* ---- Guest state buffers for get and set state and run ---- */

/* Whether the call can take these elements now: while no capability is agreed, no logical PVR can be set. */
static bool takes_now(const struct build *g, const struct row *row)
{
    return takes(g->access, g->wide, g->list, row) && (row->first != 0x0003 || g->access == R || agreed() != 0);
}

/* The rows that the call can take now, as bits; and one of them. */
static unsigned taken_rows(const struct build *g)
{
    unsigned rows = 0;
    for (unsigned i = 0; i < COUNT(ROWS); i++)
        rows |= (unsigned)takes_now(g, &ROWS[i]) << i;
    return rows;
}

static const struct row *any_row(unsigned rows)
{
    unsigned i;
    do
        i = below(COUNT(ROWS));
    while (!(rows >> i & 1));
    return &ROWS[i];
}

unsigned taken_id(const struct build *g)
{
    return any_of(any_row(taken_rows(g)));
}

/* Adds an element of this size; where a rule judges its value, an edge of the rule; where the clock rounds it, mostly
   an edge of the rounding. */
static void add_value(struct build *g, unsigned id, unsigned size, bool good)
{
    uint8_t *value = g->b + g->len + 4;
    uint32_t before = g->count;
    add_element(g, id, size);
    if (g->count == before)
        return;
    if (id == 0x0003 ? size >= 4 : (id == 0x0C00 || id == 0x0C01) && size >= 16)
        put_edge(value, id, good);
    if (id == 0x0004 && size == 8)
        adk_write_be(value, 8, any_tb_offset());
}

/* An element that the call takes, of the listed size and with a good value. */
static void add_good(struct build *g, unsigned id)
{
    add_value(g, id, row_of(id)->size, true);
}

/* One that the call takes if its value is good, or a run never: so often enough a bad one is met. */
static unsigned ruled_id(const struct build *g)
{
    return g->wide ? 0x0003 : 0x0C00 + below(2);
}

/* Any ID; for a POWER9 guest often one of those that it lacks. */
static unsigned odd_id(const struct build *g)
{
    return g->list == POWER9 && percent(50) ? later_id(below(LATER_COUNT)) : any_id();
}

/* An element of which the ID, the size, the value, or several of them are left to chance. */
static void add_odd(struct build *g)
{
    unsigned odd = 1 + below(7);
    unsigned id = odd & 1 ? odd_id(g) : odd & 4 ? ruled_id(g) : taken_id(g);
    const struct row *row = row_of(id);
    unsigned size = odd & 2 || row == NULL ? any_size() : row->size;
    add_value(g, id, size, !(odd & 4));
}

/* n elements, of each hundred so many odd ones; the others are good, NOPs and repeated IDs among them. */
static void build_mixed(struct build *g, unsigned n, unsigned odd)
{
    g->len = 4;
    for (unsigned i = 0; i < n; i++)
        if (percent(odd))
            add_odd(g);
        else if (percent(12))
            add_element(g, ADK_GSID_NOP, any_size());
        else
            add_good(g, percent(30) ? g->id[below(COUNT(g->id))] : taken_id(g));
    put_count(g);
}

/* All elements that the call takes, or of each row the first and the last; the first row is any. */
static void build_rows(struct build *g, bool all)
{
    unsigned first = below(COUNT(ROWS));
    g->len = 4;
    for (size_t i = 0; i < COUNT(ROWS); i++) {
        const struct row *row = &ROWS[(first + i) % COUNT(ROWS)];
        unsigned step = all || row->first == row->last ? 1 : row->last - row->first;
        for (unsigned id = row->first; takes_now(g, row) && id <= row->last; id += step)
            add_good(g, id);
    }
    put_count(g);
}

static void build_all(struct build *g)
{
    build_rows(g, true);
}

/* In so many of a hundred buffers of a POWER9 guest a last element that it lacks, of its size or of any. */
static void add_later(struct build *g, unsigned chance)
{
    if (g->list != POWER9 || !percent(chance))
        return;
    unsigned id = later_id(below(LATER_COUNT));
    add_element(g, id, percent(50) ? row_of(id)->size : any_size());
    put_count(g);
}

void build_ends(struct build *g)
{
    build_rows(g, false);
    g->high = g->len;
}

/* The greatest length, with as many elements as there is room for. */
void build_full(struct build *g)
{
    unsigned rows = taken_rows(g);
    build_all(g);
    while (g->len + 4 + 24 <= ADK_BUFFER_MAX) {
        const struct row *row = any_row(rows);
        add_value(g, any_of(row), row->size, true);
    }
    fill_up(g, ADK_GSID_NOP);
    g->high = g->len;
}

/* Adds a run buffer: large enough for most inputs, as large as may be, or at an edge of its rule. */
static void add_run_buffer(struct build *g, unsigned id)
{
    uint8_t *value = g->b + g->len + 4;
    add_element(g, id, 16);
    adk_write_be(value + 8, 8, ADK_BUFFER_MAX);
    if (percent(70))
        adk_write_be(value + 8, 8, ADK_RUN_OUTPUT_MIN + below(3000));
    else if (percent(60))
        put_edge(value, id, percent(50));
}

void build_registration(struct build *g)
{
    g->len = 4;
    if (percent(95))
        add_run_buffer(g, 0x0C00);
    if (percent(95))
        add_run_buffer(g, 0x0C01);
    put_count(g);
    g->high = g->len;
}

/* Up to three, of which the last counts; between them at times another element. */
void build_pvrs(struct build *g)
{
    unsigned n = 1 + below(3);
    g->len = 4;
    for (unsigned i = 0; i < n; i++) {
        add_value(g, 0x0003, 4, percent(90));
        if (percent(20))
            add_good(g, taken_id(g));
    }
    put_count(g);
    g->high = g->len;
}

void build_state(struct build *g)
{
    unsigned style = below(200);
    if (style < 50)
        build_mixed(g, 1, percent(40) ? 100 : 0);
    else if (style < 100)
        build_mixed(g, 2 + below(8), 0);
    else if (style < 130)
        build_mixed(g, 1 + below(8), 30);
    else if (style < 150)
        build_mixed(g, below(120), style % 3);
    else if (style < 164)
        build_all(g);
    else if (style < 165)
        build_full(g);
    else if (style < 166)
        build_most(g);
    else
        build_any_bytes(g);
    add_later(g, style < 150 ? 5 : style < 164 ? 40 : 0);
    g->high = g->len;
    if (style < 166 && percent(20))
        spoil(g);
}

void build_run(struct build *g)
{
    if (percent(40)) {
        build_state(g);
        return;
    }
    build_mixed(g, below(16), 0);
    add_later(g, 8);
    g->high = g->len;
}
