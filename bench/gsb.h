/*
 * gsb.h: guest state buffers, good and bad, built by chance; the elements that they hold, and the values around each
 * rule.
 */
#ifndef GSB_H
#define GSB_H

#include "lent.h"

/* ---- Elements ---- */

/* Read with get state, written with set state, taken in the input of a run, taken in its effect. */
enum { R = 1, W = 2, RUN_IN = 4, RUN_EFFECT = 8, RW = R | W, ALL = RW | RUN_IN | RUN_EFFECT };

/* The list of adderknot.h apart from the NOP, in runs of equal elements. later: a POWER9 guest lacks them (02, L7). */
enum { ROW_COUNT = 25, LATER_COUNT = 9 };

extern const struct row {
    unsigned first, last, size, access;
    bool wide, later;
} ROWS[ROW_COUNT];

/* What a guest is offered: that whole list, or what POWER9 has of it. */
enum list { WHOLE, POWER9, LISTS };

/* Whose list it is, as "POWER9 guests". */
extern const char *const LIST_NAME[LISTS];

/* The row of an ID, or NULL. */
const struct row *row_of(unsigned id);

/* Whether a call with this access and scope takes the elements of the row, for a guest with this list. */
bool takes(unsigned access, bool wide, enum list list, const struct row *row);

/* What a guest with this list can use an element for; 0 if it is not offered. */
unsigned access_to(enum list list, unsigned id);

/* The IDs that came after POWER9, by number from 0; and the number of one, or LATER_COUNT. */
unsigned later_id(unsigned number);
unsigned later_number(unsigned id);

/* An ID of the list, the NOP, one beside a run of the list, or any. */
unsigned any_id(void);

/* The element behind this one, which must lie within its buffer. */
const uint8_t *next_element(const uint8_t *element);

/* ---- Values around each value rule: a logical PVR, or the size of a run buffer ---- */

#define ANY UINT64_MAX

enum { EDGE_COUNT = 31 };

extern const struct edge {
    unsigned id;
    uint64_t agreed; /* with these capabilities agreed, or ANY */
    uint64_t value;
    bool good;
} VALUE_EDGES[EDGE_COUNT];

/* The capabilities that are agreed in the store before the call. */
uint64_t agreed(void);

/* The number in a value that a rule judges. */
uint64_t ruled_number(const uint8_t *value, unsigned id);

/* Whether the edge is one of this ID, with the capabilities that are agreed in the store. */
bool at_edge(const struct edge *e, unsigned id);

/* Puts an edge into a value that a rule judges, a good one if it is to be good. Each has the same chance. */
void put_edge(uint8_t *value, unsigned id, bool good);

/* ---- TB offsets ---- */

/* The clock uses an offset rounded up to a multiple of this. */
#define TB_STEP (UINT64_C(1) << 24)

/* Offsets around which the rounding changes. */
enum { OFFSET_COUNT = 9 };
extern const uint64_t TB_OFFSETS[OFFSET_COUNT];

/* One of these, or any. */
uint64_t any_tb_offset(void);

/* ---- Buffers ---- */

/* A buffer under construction in BEFORE; high is the end of what was written. Elements take their IDs from a few, so
   that IDs repeat. */
struct build {
    enum piece piece;
    unsigned access; /* what the call asks of an element, and its scope */
    bool wide;
    enum list list; /* that of the guest */
    uint8_t *b;
    size_t len, high;
    uint32_t count;
    unsigned id[3];
};

struct build begin_build(enum piece piece, unsigned access, bool wide, enum list list);

/* Adds an element if it fits; the value keeps old bytes past the first 32. */
void add_element(struct build *g, unsigned id, unsigned size);
void put_count(struct build *g);

/* An ID that the call can take now. */
unsigned taken_id(const struct build *g);

/* A buffer of the IDs in g, for a lookup; one for get or set state; mostly good elements, for a run, so that often
   enough its input and its effect are; good elements to the greatest length; the first and the last of each row that
   the call takes; run buffers, to register them; logical PVRs, one behind the other; NOPs and nothing else. */
void build_buffer(struct build *g);
void build_state(struct build *g);
void build_run(struct build *g);
void build_full(struct build *g);
void build_ends(struct build *g);
void build_registration(struct build *g);
void build_pvrs(struct build *g);
void build_nops(struct build *g);

#endif
