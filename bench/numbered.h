/*
 * numbered.h: the calls of a night made by their number (02, L9), through the tally too (02, L5), and by kinds that are
 * none of the eight.
 *
 * What a call has no use for is anything: numbers, and memory of which some bytes are lent or none.
 */
#ifndef NUMBERED_H
#define NUMBERED_H

#include "night.h"

/* The arguments of a call by its number. data is the piece that is lent as its data; of pieces that are not lent len is
   0. */
struct numbered {
    uint64_t kind, flags, guest, number, exit_reason;
    enum piece data;
    size_t len[PIECES];
};

/* Kinds that are none of the eight: those beside them, and those of which only some bits are a good one's. */
enum { NO_KIND_COUNT = 15 };
extern const uint64_t NO_KINDS[NO_KIND_COUNT];

/* The call by its number, which is record_kind; 0 if it has none. any: what it has no use for follows from this. */
struct numbered by_number(const struct call *c, uint64_t any);

typedef __typeof__(adk_call) call_entry;
adk_found make_numbered(call_entry *call, const struct numbered *n, uint8_t *const *m);

/* L5: the same through the tally, with so many summary records. */
typedef __typeof__(adk_tally) tally_entry;
adk_found make_tallied(tally_entry *tally, const struct numbered *n, adk_summary *records, size_t count,
                       uint8_t *const *m);

/* How many records the store that is lent asks for. */
size_t records_asked(const struct numbered *n);

/* Whether both sides left what they were lent as a call with this answer must: the same bytes where the call c writes
   and was accepted, else those of before. */
bool numbered_holds(const struct numbered *n, const struct call *c, const adk_found *f);

#endif
