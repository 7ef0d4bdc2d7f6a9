/*
 * met.h: what a comparison met of the stores themselves: the last guest and the last slot, each thing that alone makes
 * a store ill formed, wrong lengths, and conversions.
 */
#ifndef MET_H
#define MET_H

#include "night.h"

/* What is ill formed in a store: a mark on a slot that is not used, a bit behind the last guest's, a word of guest 0 or
   of another guest that is not live, one pair in two slots, a word that is not used and not zero, a capability. */
enum ill { UNUSED_MARKED, ZERO_BIT, GUEST_0, NOT_LIVE, PAIR_TWICE, UNUSED_WORD, CAPABILITY, ILLS };

/* What an accepted conversion met, and that a large store was refused as its source. */
enum conversion { UNUSED_VALUES, MARKED, LAST_OF_BOTH, LARGE_SOURCE, CONVERSIONS };

enum { WRONG_SIZES = 8 };

struct met_stores {
    bool ill[ILLS];
    bool last_guest[KIND_COUNT], last_slot[KIND_COUNT]; /* the calls that were accepted of them */
    bool lengths[WRONG_SIZES], targets[WRONG_SIZES];    /* refused of a store, and of a conversion's target */
    bool conversions[CONVERSIONS];
};

/* After a call that both sides answered so. BEFORE is what it left. */
void note_stores(struct met_stores *m, const struct call *c, const adk_found *f);

/* Whether all was met that such a night can meet; names what was not. */
bool stores_covered(const struct met_stores *m, struct manner manner);

#endif
