/* damage.c: see damage.h. */
#include "damage.h"

#include "chance.h"
#include "night.h"

#include <string.h>

/* ---- The header ---- */

/* A word of this guest in any slot. */
static unsigned put_guest(uint8_t *h, uint64_t guest)
{
    unsigned w = word_of(guest, below(2048));
    put_word(h, below(layout->slots), w);
    return w;
}

/* Two slots with one pair, or with pairs that differ in one bit of the vCPU id. */
static void pair_twice(uint8_t *h)
{
    unsigned w = used_word();
    if (w == 0)
        w = put_guest(h, live_guest());
    if (percent(40))
        w ^= 1u << below(11);
    put_word(h, below(layout->slots), w);
}

/* A word that is not used and not zero: made so, or by clearing the used bit. */
static void word_unused(uint8_t *h)
{
    unsigned slot = below(layout->slots);
    unsigned w = word_in(memory[BEFORE][STORE], slot) & (used_bit() - 1);
    if (w == 0 || percent(50))
        w = percent(50) ? used_bit() >> (1 + below(layout->guest_bits + 11)) : 1 + below(used_bit() - 1);
    put_word(h, slot, w);
}

/* A mark more or less: on a slot that is not used it is wrong. */
static void turn_mark(uint8_t *h)
{
    unsigned slot = below(layout->slots);
    put_mark(h, slot, !is_marked(slot));
}

/* All guests live and all slots used, by guests at random or by each guest with one id or two: well formed, or with one
   pair twice. */
static void full_house(uint8_t *h)
{
    unsigned first = below(2048);
    bool alike = percent(30);
    for (unsigned g = 1; g <= layout->guests; g++)
        put_live(h, g, true);
    for (unsigned i = 0; i < layout->slots; i++) {
        unsigned nth = alike ? i / layout->guests : i;
        put_word(h, i, word_of(1 + (alike ? i : below(layout->guests)) % layout->guests, (first + nth) % 2048));
    }
    if (percent(60)) {
        unsigned w = word_in(h, below(layout->slots));
        put_word(h, below(layout->slots), w);
    }
}

static void capabilities_wrong(uint8_t *h)
{
    if (percent(20))
        any_bytes(h, 8);
    else
        flip_bit(h, 8);
}

/* Bits behind that of the last guest, one or more. */
static void set_zero_bits(uint8_t *h)
{
    unsigned first = layout->guests + 1;
    for (unsigned i = 0; i < zero_bits(); i++)
        put_live(h, first + i, percent(20));
    put_live(h, first + below(zero_bits()), true);
}

/* A guest that is no longer live, or others that are. */
static void turn_live(uint8_t *h)
{
    if (percent(50)) {
        put_live(h, 1 + below(layout->guests), false);
        return;
    }
    for (unsigned g = 1; g <= layout->guests; g++)
        put_live(h, g, percent(50));
}

/* Some of these leave the store well formed, and then the call must go through. */
static void damage_header(uint8_t *h)
{
    unsigned n = (unsigned)layout->header;
    switch (below(13)) {
    case 0: any_bytes(h, n); break;
    case 1: any_bytes(h + below(n), 1); break;
    case 2: flip_bit(h, n); flip_bit(h, n); break;
    case 3: pair_twice(h); break;
    case 4: put_guest(h, below(1u << layout->guest_bits)); break;
    case 5: word_unused(h); break;
    case 6: set_zero_bits(h); break;
    case 7: capabilities_wrong(h); break;
    case 8: turn_live(h); break;
    case 9: full_house(h); break;
    case 10: turn_mark(h); break;
    default: flip_bit(h, n); break;
    }
}

/* A damaged header stays for a few calls and is then put back, so that the history goes on. */
static uint8_t saved_header[HEADER_MOST];
static unsigned damaged_for;

static void damage_or_repair(void)
{
    uint8_t *h = memory[BEFORE][STORE];
    if (damaged_for > 0) {
        if (--damaged_for > 0)
            return;
        memcpy(h, saved_header, layout->header);
    } else if (percent(12)) {
        memcpy(saved_header, h, layout->header);
        damage_header(h);
        damaged_for = 1 + below(5);
    } else {
        return;
    }
    share(STORE, 0, layout->header);
}

void forget_damage(void)
{
    damaged_for = 0;
}

/* ---- Values and marks ---- */

/* Value bytes are free: they are made anything, so that what a call zeroes, keeps or adds shows. */
static void stir_values(void)
{
    size_t at = layout->header, n = layout->size - at;
    uint8_t *s = memory[BEFORE][STORE];
    if (percent(90)) {
        at = percent(50) ? at + below((unsigned)n) : at + below(layout->guests * GUEST_SIZE);
        n = 1 + below(64);
        if (n > layout->size - at)
            n = layout->size - at;
    }
    any_bytes(s + at, n);
    share(STORE, at, n);
}

static void set_tb_offset(void)
{
    size_t at = guest_at(1 + below(layout->guests)) + TB_OFFSET;
    adk_write_be(memory[BEFORE][STORE] + at, 8, any_tb_offset());
    share(STORE, at, 8);
}

/* Value bytes are free, so a guest can have any PVR, agreed or not: POWER9's, none, another, one that differs from
   POWER9's in a bit. */
static void set_pvr(void)
{
    uint64_t guest = 1 + below(layout->guests);
    static const uint32_t others[] = { 0, ADK_PVR_ARCH_31, 0x0F000004, 0x0F000007, 0x0500000F, 0xFFFFFFFF };
    uint32_t other = percent(60) ? others[below(COUNT(others))] : ADK_PVR_ARCH_300 ^ 1u << below(32);
    put_pvr(guest, percent(50) ? ADK_PVR_ARCH_300 : other);
    share(STORE, guest_at(guest), 4);
}

/* A vCPU becomes taken or is no longer: value bytes are free, so one that is taken may have values. */
static void turn_used_mark(void)
{
    unsigned slot = below(layout->slots);
    if (!is_used(slot))
        return;
    put_mark(memory[BEFORE][STORE], slot, !is_marked(slot));
    share(STORE, layout->marks, layout->marks_size);
}

void touch_store(void)
{
    damage_or_repair();
    if (percent(1) && damaged_for == 0)
        turn_used_mark();
    if (percent(4))
        stir_values();
    if (percent(4))
        set_tb_offset();
    if (percent(4))
        set_pvr();
}
