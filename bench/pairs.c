/* pairs.c: see pairs.h. */
#include "pairs.h"

#include "chance.h"

#include <string.h>

/* ---- One buffer ---- */

/* A buffer of len bytes in BEFORE, whose counted elements end at end; or what is wrong with it, and where. */
struct part {
    enum piece piece;
    uint8_t *bytes;
    size_t len, end;
    uint32_t count;
    adk_answer fault;
};

static struct part begin(enum piece piece)
{
    return (struct part){ .piece = piece, .bytes = memory[BEFORE][piece], .len = 4, .end = 4 };
}

/* Gives both sides what was built. */
static void lend(const struct part *p)
{
    adk_write_be(p->bytes, 4, p->count);
    share(p->piece, 0, p->end > p->len ? p->end : p->len);
}

/* Adds an element behind those that are there, whose value keeps the bytes that are there. */
static void add(struct part *p, unsigned id, size_t size)
{
    adk_write_be(p->bytes + p->end, 2, id);
    adk_write_be(p->bytes + p->end + 2, 2, size);
    p->count++;
    p->end += 4 + size;
    p->len = p->end;
}

/* The last element begins there, and is cut off: by the buffer's end, or by what its size says. */
static void cut_at(struct part *p, uint32_t index, size_t at)
{
    p->fault = (adk_answer){ ADK_INVALID_ELEMENT_SIZE, index, at };
}

static void no_element(struct part *p)
{
    (void)p;
}

static void one_element(struct part *p)
{
    add(p, ADK_GSID_GPR(3), 8);
}

/* Sizes of elements, and others; an ID that is not listed, and one that comes again. */
static void some_elements(struct part *p)
{
    static const size_t sizes[] = { 0, 4, 8, 16, 24, 1, 3, 7, 9, 300, 8, 0, 16 };
    for (size_t i = 0; i < COUNT(sizes); i++)
        add(p, i % 2 == 0 ? ADK_GSID_VSR(i) : 0xABCD, sizes[i]);
}

static void some_nops(struct part *p)
{
    for (int i = 0; i < 20; i++)
        add(p, ADK_GSID_NOP, 0);
}

static void bytes_behind(struct part *p)
{
    some_elements(p);
    p->len += 7;
}

static void only_bytes_behind(struct part *p)
{
    p->len = 40;
}

/* ---- Buffers that are long ---- */

static void most_nops(struct part *p)
{
    while (p->end < ADK_BUFFER_MAX)
        add(p, ADK_GSID_NOP, 0);
}

static void one_long_nop(struct part *p)
{
    add(p, ADK_GSID_NOP, ADK_BUFFER_MAX - 8);
}

/* Two of these are as long as may be joined; this one and the next are a byte longer. */
static void half(struct part *p)
{
    add(p, ADK_GSID_NOP, (ADK_BUFFER_MAX - 4) / 2 - 4);
}

static void half_and_a_byte(struct part *p)
{
    add(p, ADK_GSID_NOP, (ADK_BUFFER_MAX - 4) / 2 - 3);
}

static void most_bytes_behind(struct part *p)
{
    one_element(p);
    p->len = ADK_BUFFER_MAX;
}

/* ---- Buffers that are bad ---- */

static void of_length(struct part *p, size_t len)
{
    one_element(p);
    p->len = len;
    p->fault = (adk_answer){ ADK_BAD_LENGTH, 0, 0 };
}

static void no_byte(struct part *p)
{
    of_length(p, 0);
}

static void three_bytes(struct part *p)
{
    of_length(p, ADK_BUFFER_MIN - 1);
}

static void a_byte_too_long(struct part *p)
{
    of_length(p, ADK_BUFFER_MAX + 1);
}

static void no_header(struct part *p)
{
    p->count = 1;
    cut_at(p, 0, 4);
}

static void header_lacks_a_byte(struct part *p)
{
    one_element(p);
    p->len = 7;
    cut_at(p, 0, 4);
}

static void value_lacks_a_byte(struct part *p)
{
    some_elements(p);
    cut_at(p, p->count, p->end);
    add(p, ADK_GSID_GPR(4), 8);
    p->len--;
}

static void no_value(struct part *p)
{
    one_element(p);
    cut_at(p, 1, p->end);
    add(p, ADK_GSID_GPR(4), 0);
    adk_write_be(p->bytes + p->end - 2, 2, 0xFFFF);
}

static void count_of_one_more(struct part *p)
{
    some_elements(p);
    cut_at(p, p->count, p->end);
    p->count++;
}

static void greatest_count(struct part *p)
{
    some_elements(p);
    cut_at(p, p->count, p->end);
    p->count = UINT32_MAX;
}

static void one_nop_too_many(struct part *p)
{
    most_nops(p);
    cut_at(p, p->count, p->end);
    p->count++;
}

static const struct shape {
    const char *name;
    void (*build)(struct part *p);
    bool is_long;
} SHAPES[] = {
    { "no element in 4 bytes", no_element, false },
    { "one element", one_element, false },
    { "elements of many sizes", some_elements, false },
    { "empty NOPs", some_nops, false },
    { "bytes behind the elements", bytes_behind, false },
    { "no element, and bytes behind", only_bytes_behind, false },
    { "16,383 empty NOPs in 65,536 bytes", most_nops, true },
    { "one NOP in 65,536 bytes", one_long_nop, true },
    { "half of what may be joined", half, true },
    { "a byte more than half", half_and_a_byte, true },
    { "one element in 65,536 bytes", most_bytes_behind, true },
    { "0 bytes", no_byte, false },
    { "3 bytes", three_bytes, false },
    { "65,537 bytes", a_byte_too_long, true },
    { "a count of 1 in 4 bytes", no_header, false },
    { "a header that lacks a byte", header_lacks_a_byte, false },
    { "a value that lacks a byte", value_lacks_a_byte, false },
    { "a size of 65,535 and no value", no_value, false },
    { "a count of one more", count_of_one_more, false },
    { "a count of 4,294,967,295", greatest_count, false },
    { "65,536 bytes, and a count of one more", one_nop_too_many, true },
};

static struct part build(enum piece piece, const struct shape *s)
{
    struct part p = begin(piece);
    s->build(&p);
    lend(&p);
    return p;
}

/* ---- Each pair ---- */

/* 5 of the first, 5 of the second, 7 of the first, 7 of the second, 5 of the joined length, 12, success. */
static adk_answer told(const struct part *a, const struct part *b, size_t joined, size_t lent)
{
    for (uint64_t r3 = ADK_BAD_LENGTH; r3 <= ADK_INVALID_ELEMENT_SIZE; r3++) {
        if (a->fault.r3 == r3)
            return a->fault;
        if (b->fault.r3 == r3)
            return b->fault;
    }
    if (joined > ADK_BUFFER_MAX)
        return (adk_answer){ ADK_BAD_LENGTH, 0, 0 };
    return lent < joined ? (adk_answer){ ADK_LENT_TOO_SHORT, 1, 0 } : (adk_answer){ ADK_OK, joined, 0 };
}

/* With no result, with one that lacks a byte, with one of the joined length, and with longer ones. */
static void try_results(const struct shape *first, const struct shape *second, try_pair *try)
{
    struct part a = build(FIRST, first), b = build(SECOND, second);
    struct pair p = { .first = first->name, .second = second->name, .joined = a.end + b.end - 4 };
    const size_t lent[] = { 0, p.joined - 1, p.joined, p.joined + 1, p.joined + 40, BUFFER_CAPACITY };
    p.len[FIRST] = a.len;
    p.len[SECOND] = b.len;
    for (size_t i = 0; i < COUNT(lent); i++) {
        p.len[RESULT] = lent[i] < BUFFER_CAPACITY ? lent[i] : BUFFER_CAPACITY;
        p.answer = told(&a, &b, p.joined, p.len[RESULT]);
        try(&p);
    }
}

void each_pair(bool longest, try_pair *try)
{
    for (const struct shape *a = SHAPES; a < SHAPES + COUNT(SHAPES); a++)
        for (const struct shape *b = SHAPES; b < SHAPES + COUNT(SHAPES); b++)
            if (longest || (!a->is_long && !b->is_long))
                try_results(a, b, try);
}

/* ---- Pairs by chance ---- */

/* Mostly of an element; now and then a long one. */
static size_t any_size(void)
{
    static const size_t sizes[] = { 8, 8, 16, 4, 0, 24 };
    return percent(90) ? sizes[below(COUNT(sizes))] : percent(80) ? below(64) : below(20000);
}

/* Some bytes more or less than its elements take, and now and then another count. */
static size_t any_part(enum piece piece)
{
    struct part p = begin(piece);
    for (unsigned left = below(percent(90) ? 12 : 200); left > 0 && p.end < ADK_BUFFER_MAX / 2; left--)
        add(&p, (unsigned)any64() & 0xFFFF, any_size());
    if (percent(20))
        p.len += below(30);
    if (percent(5))
        p.len -= below(8) % p.len;
    if (percent(5))
        p.count = percent(50) ? p.count + below(4) : (uint32_t)any_number();
    if (percent(5))
        p.count /= 2;
    lend(&p);
    return p.len;
}

struct pair any_pair(void)
{
    struct pair p = { .first = "chance", .second = "chance" };
    p.len[FIRST] = any_part(FIRST);
    p.len[SECOND] = any_part(SECOND);
    p.len[RESULT] = percent(70) ? BUFFER_CAPACITY : below(percent(50) ? 200 : BUFFER_CAPACITY);
    return p;
}

/* ---- A pair joined ---- */

adk_answer join_pair(join_entry *join, enum side s, const struct pair *p)
{
    uint8_t *const *m = memory[s];
    return join(m[FIRST], p->len[FIRST], m[SECOND], p->len[SECOND], m[RESULT], p->len[RESULT]);
}

static const enum piece LENT[] = { FIRST, SECOND, RESULT };

bool same_pieces(const struct pair *p)
{
    bool same = true;
    for (size_t i = 0; i < COUNT(LENT); i++)
        same = same && same_bytes(LENT[i], LIBRARY, OTHER, p->len[LENT[i]]);
    return same;
}

bool only_lent_changed(const struct pair *p)
{
    bool only = true;
    for (size_t i = 0; i < COUNT(LENT); i++)
        for (int s = 0; s < BEFORE; s++)
            only = only && guards_intact(LENT[i], s, p->len[LENT[i]]);
    return only;
}
