/*
 * store.h: the two stores of adderknot.h as the bench reads and writes them, to choose numbers, do damage and tell what
 * a byte is part of. All goes by the layout of the store that is lent now.
 */
#ifndef STORE_H
#define STORE_H

#include "adderknot_gsb.h"

#include <stdbool.h>

/* What both have: where the live guests are, and the values of a guest and of a slot. */
enum { LIVE = 8, GUEST_SIZE = 52, TB_OFFSET = 4, SLOT_SIZE = 1820, SLOTS_MOST = ADK_LARGE_SLOTS, HEADER_MOST = 168 };

enum size { SMALL, LARGE, SIZES };

struct layout {
    const char *name;
    size_t size;
    unsigned guests, slots, guest_bits;
    unsigned live_bytes; /* the live guests, and the zero bits behind them */
    size_t words, words_size, marks, marks_size;
    size_t header; /* where the values of the guests begin; all before it is tested */
    size_t slot_values;
};

extern const struct layout LAYOUTS[SIZES];

/* That of the store that is lent now; a small one at first. */
extern const struct layout *layout;

/* A slot word; what it names; the word in a slot, and one that is put there. */
unsigned word_of(uint64_t guest, unsigned vcpu);
unsigned used_bit(void);
unsigned guest_in(unsigned word);
unsigned vcpu_in(unsigned word);
unsigned word_in(const uint8_t *store, unsigned slot);
void put_word(uint8_t *store, unsigned slot, unsigned word);

/* Live bits by guest, from 1, and the taken marks by slot. Behind the last guest are the bits that must be zero. */
bool has_live(const uint8_t *store, uint64_t guest);
void put_live(uint8_t *store, uint64_t guest, bool live);
bool any_live(const uint8_t *store);
unsigned zero_bits(void);
bool has_mark(const uint8_t *store, unsigned slot);
bool any_mark(const uint8_t *store);
void put_mark(uint8_t *store, unsigned slot, bool mark);

/* Where the values of a guest begin, whose first is its logical PVR; and those of a slot. */
size_t guest_at(uint64_t guest);
size_t slot_at(unsigned slot);

#endif
