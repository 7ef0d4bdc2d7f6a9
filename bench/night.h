/*
 * night.h: a long mix of calls, chosen by chance: the table of the calls, and what each is given.
 *
 * A night is fixed by its seed and by what the library left in BEFORE; what the other side does never changes it. Most
 * calls are good ones, so that stores fill and vCPUs run, and each edge of a rule is met. Between the calls values are
 * stirred, and headers damaged for a while. To add a call: its entry in l0.h, then in night.c its numbers' makers, a
 * line MAKE, and a row of KINDS.
 *
 * A night of the large store begins with a large one or with a small one, which is soon converted; so does what follows
 * a fresh store.
 */
#ifndef NIGHT_H
#define NIGHT_H

#include "form.h"
#include "l0.h"

/* Answers are 0 to 21; no call of a night gives 15 or 18 to 20. */
enum { NUMBERS = 4, MOODS = 3, ANSWERS = 22, KIND_COUNT = 16, EXIT_COUNT = 7, NO_EXIT_COUNT = 34 };
enum { TIMEBASE_COUNT = 11 };
enum use { NOT_LENT, READ, WRITTEN };

/* The hand-overs of a vCPU: get state takes it, set state gives it back. */
enum hand { NO_HAND, TAKING, GIVING };

#define A(n) (1u << (n))

struct call {
    const struct kind *kind;
    size_t len[PIECES];
    uint64_t n[NUMBERS];
    bool was_target; /* the store is what the last call, a conversion, had as its target */
};

/* Get and set state have a row for each scope and one for the hand-over, so that the answers of each are counted. */
extern const struct kind {
    const char *name;
    const char *number[NUMBERS];
    enum use use[PIECES];
    unsigned weight[MOODS]; /* how often, in a mood that fills the store, mixes, or empties it */
    unsigned answers;       /* the answers that it can give, as bits */
    unsigned both;          /* of these the ones that it gives with r4 0 and with another r4 */
    uint64_t supported;     /* the flag bits that it supports */
    void (*choose)(struct call *c);
    adk_found (*make)(const struct l0 *on, const struct call *c, uint8_t *const *m);
    unsigned access; /* of get and set state: what they ask of an element, R or W, and its scope */
    bool wide;
    enum hand hand; /* a get or set state that asks for no elements */
} KINDS[KIND_COUNT];

/* The call's number of this name, "flags" or another of its row; NULL if it has none. */
uint64_t *number_named(struct call *c, const char *name);

bool is_run(const struct kind *k);

/* Whether what the call takes goes by the guest's list: thread get and set state, and run. */
bool goes_by_list(const struct kind *k);

/* L4: whether an answer of the call tells a bad element's index and offset. A lookup's 6 has none: it tells the count. */
bool tells_place(const struct kind *k, uint64_t answer);
bool is_clock(const struct kind *k);
bool is_delete(const struct kind *k);
bool sets_capabilities(const struct kind *k);
bool converts(const struct kind *k);
bool makes_fresh(const struct kind *k);

/* L9: the kind of the call's record, or 0 where it has none. */
unsigned record_kind(const struct kind *k);

/* Exit reasons; and numbers close to one, other interrupts, and exit reasons where only the low or the high bits are
   kept. */
extern const uint64_t EXITS[EXIT_COUNT], NO_EXITS[NO_EXIT_COUNT];

/* Timebases: small ones, and those on both sides of where the clock wraps with one of TB_OFFSETS. */
extern const uint64_t TIMEBASES[TIMEBASE_COUNT];

/* How a night is made. opaque: what is kept changes by calls only, from the fresh store that the first call asks for,
   as a vendor needs it that keeps its own state. only_nops: every guest state buffer holds NOPs and nothing else.
   large: the store is the large one, and small ones are converted unless no_conversion. */
struct manner {
    bool opaque, only_nops, large, no_conversion;
};

/* Whether a call is made in such a night, and can give an answer: where nothing is done to the store, it is always well
   formed. */
bool is_made(const struct kind *k, struct manner m);
bool can_answer(const struct kind *k, int answer, struct manner m);

/* The store that such a night is of. */
const struct layout *layout_of_night(struct manner m);

/* Begins with a fresh store. */
void begin_night(struct manner m);

/* The call of this number, from 1, and in BEFORE and on both sides what it is lent. */
struct call next_call(uint64_t number);

/* Lends what was built. */
void lend(struct call *c, const struct build *g);

/* The bytes of a piece that are compared: what was lent and, of a store lent too short, the rest. */
size_t extent(const struct call *c, enum piece p);

bool same_answer(const adk_found *a, const adk_found *b);

/* ---- What the store before the call holds ---- */

/* The word of a used slot, 0 where there is none; and a live guest, any where none is: by chance. */
unsigned used_word(void);
uint64_t live_guest(void);

/* The slot of the vCPU that the call names, or the number of slots. */
unsigned slot_of(const struct call *c);

/* Whether the slot is used, and whether its vCPU is taken. */
bool is_used(unsigned slot);
bool is_marked(unsigned slot);

/* The TB offset of a guest that there can be. */
uint64_t tb_offset(uint64_t guest);

/* The logical PVR of a guest, 0 for a number that is none of a guest; the list that it makes; and one that is put. */
uint32_t pvr_of(uint64_t guest);
enum list list_of(uint64_t guest);
void put_pvr(uint64_t guest, uint32_t pvr);

/* The size in element 0x0C00 or 0x0C01 of a slot. */
uint64_t registered_size(unsigned slot, unsigned id);
void put_registered_size(unsigned slot, unsigned id, uint64_t size);

#endif
