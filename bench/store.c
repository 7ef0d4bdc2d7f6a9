/* store.c: see store.h. */
#include "store.h"

const struct layout LAYOUTS[SIZES] = {
    [SMALL] = { .name = "small", .size = ADK_STORE_SIZE, .guests = ADK_GUESTS, .slots = ADK_SLOTS, .guest_bits = 4,
                .live_bytes = 2, .words = 10, .words_size = 32, .marks = 42, .marks_size = 2, .header = 44,
                .slot_values = 460 },
    [LARGE] = { .name = "large", .size = ADK_LARGE_STORE_SIZE, .guests = ADK_LARGE_GUESTS, .slots = ADK_LARGE_SLOTS,
                .guest_bits = 6, .live_bytes = 8, .words = 24, .words_size = 144, .marks = 16, .marks_size = 8,
                .header = 168, .slot_values = 3444 },
};

const struct layout *layout = &LAYOUTS[SMALL];

/* ---- Bits, the first the most significant of the first byte ---- */

static bool bit_in(const uint8_t *bytes, size_t n)
{
    return (bytes[n / 8] & 0x80 >> n % 8) != 0;
}

static void put_bit(uint8_t *bytes, size_t n, bool one)
{
    bytes[n / 8] = (uint8_t)((bytes[n / 8] & ~(0x80 >> n % 8)) | (one ? 0x80 >> n % 8 : 0));
}

/* ---- Slot words ---- */

enum { VCPU_BITS = 11 };

static unsigned word_bits(void)
{
    return 1 + layout->guest_bits + VCPU_BITS;
}

unsigned used_bit(void)
{
    return 1u << (word_bits() - 1);
}

unsigned word_of(uint64_t guest, unsigned vcpu)
{
    return used_bit() | (unsigned)guest << VCPU_BITS | vcpu;
}

unsigned guest_in(unsigned word)
{
    return word >> VCPU_BITS & ((1u << layout->guest_bits) - 1);
}

unsigned vcpu_in(unsigned word)
{
    return word & ADK_VCPU_MAX;
}

unsigned word_in(const uint8_t *store, unsigned slot)
{
    size_t first = word_bits() * (size_t)slot, end = first + word_bits();
    uint64_t bytes = adk_read_be(store + layout->words + first / 8, 4);
    return (unsigned)(bytes >> (first / 8 * 8 + 32 - end)) & (2 * used_bit() - 1);
}

void put_word(uint8_t *store, unsigned slot, unsigned word)
{
    size_t first = word_bits() * (size_t)slot;
    for (unsigned i = 0; i < word_bits(); i++)
        put_bit(store + layout->words, first + i, (word & used_bit() >> i) != 0);
}

/* ---- Live guests and taken marks ---- */

bool has_live(const uint8_t *store, uint64_t guest)
{
    return guest >= 1 && guest <= layout->guests && bit_in(store + LIVE, guest - 1);
}

void put_live(uint8_t *store, uint64_t guest, bool live)
{
    if (guest >= 1 && guest <= 8 * layout->live_bytes)
        put_bit(store + LIVE, guest - 1, live);
}

bool any_live(const uint8_t *store)
{
    return adk_read_be(store + LIVE, layout->live_bytes) >> zero_bits() != 0;
}

unsigned zero_bits(void)
{
    return 8 * layout->live_bytes - layout->guests;
}

bool has_mark(const uint8_t *store, unsigned slot)
{
    return bit_in(store + layout->marks, slot);
}

bool any_mark(const uint8_t *store)
{
    return adk_read_be(store + layout->marks, layout->marks_size) != 0;
}

void put_mark(uint8_t *store, unsigned slot, bool mark)
{
    put_bit(store + layout->marks, slot, mark);
}

/* ---- Values ---- */

size_t guest_at(uint64_t guest)
{
    return layout->header + GUEST_SIZE * (guest - 1);
}

size_t slot_at(unsigned slot)
{
    return layout->slot_values + SLOT_SIZE * (size_t)slot;
}
