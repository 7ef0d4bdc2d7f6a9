/* form.c: see form.h. */
#include "form.h"

#include "chance.h"

#include <string.h>

/* ---- Elements by number ---- */

/* The row of ROWS that the element is of; first becomes the number of that row's first element. */
static const struct row *thread_row(unsigned element, unsigned *first)
{
    const struct row *row = ROWS;
    *first = 0;
    for (;; row++) {
        unsigned n = row->wide ? 0 : row->last - row->first + 1;
        if (element < *first + n)
            return row;
        *first += n;
    }
}

unsigned thread_id(unsigned element)
{
    unsigned first;
    const struct row *row = thread_row(element, &first);
    return row->first + element - first;
}

unsigned thread_size(unsigned element)
{
    unsigned first;
    return thread_row(element, &first)->size;
}

/* ---- Reading ---- */

const char *const PART_NAME[PARTS] = {
    [WRONG_VERSION] = "version", [WRONG_ID] = "vCPU id", [WRONG_ZERO] = "zero bit", [WRONG_PADDING] = "padding",
    [WRONG_VALUE] = "value of zeros", [CUT] = "length"
};

/* The place of an element's presence bit: behind version, vCPU id and zero bit. */
static unsigned presence_bit(unsigned element)
{
    return 16 + element;
}

bool is_present(const uint8_t *bytes, unsigned element)
{
    unsigned bit = presence_bit(element);
    return (bytes[bit / 8] & 0x80 >> bit % 8) != 0;
}

struct form read_form(const uint8_t *bytes)
{
    unsigned head = (unsigned)adk_read_be(bytes, 2);
    struct form f = { .version = head >> 12, .vcpu = head >> 1 & ADK_VCPU_MAX, .zero = head & 1,
                      .padding = bytes[ADK_FORM_MIN - 1] & 0x3F, .len = ADK_FORM_MIN };
    for (unsigned e = 0; e < THREAD_ELEMENTS; e++)
        if (is_present(bytes, e)) {
            f.present++;
            f.len += thread_size(e);
        }
    return f;
}

const uint8_t *value_in(const uint8_t *bytes, size_t len, unsigned element)
{
    size_t at = ADK_FORM_MIN;
    if (!is_present(bytes, element))
        return NULL;
    for (unsigned e = 0; e < element; e++)
        at += is_present(bytes, e) ? thread_size(e) : 0;
    return at + thread_size(element) <= len ? bytes + at : NULL;
}

static bool all_zero(const uint8_t *p, size_t n)
{
    while (n > 0 && p[n - 1] == 0)
        n--;
    return n == 0;
}

unsigned zero_value(const uint8_t *bytes, size_t len)
{
    size_t at = ADK_FORM_MIN;
    for (unsigned e = 0; e < THREAD_ELEMENTS; e++) {
        unsigned size = thread_size(e);
        if (!is_present(bytes, e))
            continue;
        if (at + size > len)
            break;
        if (all_zero(bytes + at, size))
            return e;
        at += size;
    }
    return THREAD_ELEMENTS;
}

unsigned wrong_parts(const uint8_t *bytes, size_t len, unsigned vcpu)
{
    struct form f = read_form(bytes);
    bool wrong[PARTS] = {
        [WRONG_VERSION] = f.version != 1, [WRONG_ID] = f.vcpu != vcpu, [WRONG_ZERO] = f.zero != 0,
        [WRONG_PADDING] = f.padding != 0, [WRONG_VALUE] = zero_value(bytes, len) < THREAD_ELEMENTS, [CUT] = f.len > len
    };
    unsigned parts = 0;
    for (unsigned p = 0; p < PARTS; p++)
        parts |= wrong[p] ? 1u << p : 0;
    return parts;
}

/* ---- Building ---- */

/* A value that is not all zero: anything, or one bit of it. Run buffers are mostly large enough for most inputs, so that
   runs go on. */
static void put_value(uint8_t *value, unsigned element, unsigned size)
{
    unsigned id = thread_id(element);
    memset(value, 0, size);
    if (percent(30))
        flip_bit(value, size);
    else
        any_bytes(value, size);
    if ((id == 0x0C00 || id == 0x0C01) && percent(75))
        adk_write_be(value + 8, 8, ADK_RUN_OUTPUT_MIN + below(3000));
    else if (id == 0x0C00 || id == 0x0C01)
        put_edge(value, id, percent(50));
    if (all_zero(value, size))
        flip_bit(value, size);
}

/* So many of a hundred forms have a value of the element; run buffers, the first two, are mostly registered. */
static unsigned chance_of(unsigned element, unsigned chance)
{
    return element < 2 && chance > 0 && chance < 90 ? 90 : chance;
}

void build_form(struct build *g, unsigned vcpu)
{
    static const unsigned chances[] = { 0, 2, 2, 10, 50, 90, 98, 100 };
    unsigned chance = chances[below(COUNT(chances))];
    memset(g->b, 0, ADK_FORM_MIN);
    adk_write_be(g->b, 2, 0x1000 | vcpu << 1);
    g->len = ADK_FORM_MIN;
    for (unsigned e = 0; e < THREAD_ELEMENTS; e++)
        if (percent(chance_of(e, chance))) {
            unsigned bit = presence_bit(e);
            g->b[bit / 8] |= (uint8_t)(0x80 >> bit % 8);
            put_value(g->b + g->len, e, thread_size(e));
            g->len += thread_size(e);
        }
    g->high = g->len;
}

void build_copy(struct build *g, const uint8_t *bytes, size_t len)
{
    memcpy(g->b, bytes, len);
    g->len = g->high = len;
}

/* Zeroes the value of an element that is present, the first one from any place on. */
static void zero_one(struct build *g)
{
    unsigned first = below(THREAD_ELEMENTS);
    for (unsigned i = 0; i < THREAD_ELEMENTS; i++) {
        unsigned e = (first + i) % THREAD_ELEMENTS;
        const uint8_t *value = value_in(g->b, g->len, e);
        if (value != NULL) {
            memset(g->b + (value - g->b), 0, thread_size(e));
            return;
        }
    }
}

void damage_part(struct build *g, enum part part)
{
    uint8_t *b = g->b;
    switch (part) {
    case WRONG_VERSION: b[0] ^= (uint8_t)((1 + below(15)) << 4); break;
    case WRONG_ID: adk_write_be(b, 2, adk_read_be(b, 2) ^ 2u << below(11)); break;
    case WRONG_ZERO: b[1] ^= 1; break;
    case WRONG_PADDING: b[ADK_FORM_MIN - 1] ^= (uint8_t)(1u << below(6)); break;
    case WRONG_VALUE: zero_one(g); break;
    default:
        if (g->len > ADK_FORM_MIN)
            g->len -= percent(70) ? 1 : 1 + below((unsigned)g->len - ADK_FORM_MIN);
        break;
    }
}
