/*
 * lists.h: what a comparison met of the two lists of elements (02, L7): the whole one, and that of a POWER9 guest,
 * which lacks nine.
 */
#ifndef LISTS_H
#define LISTS_H

#include "night.h"

/* Where elements are judged: get state, set state, a run's input and its effect, as R, W, RUN_IN and RUN_EFFECT. */
enum { USES = 4 };

/* How one of the nine is met by a POWER9 guest, and refused for its ID. */
enum lack { ALONE, OTHER_SIZE, LAST_OF_MANY, LACKS };

/* The PVRs with which the nine are offered. */
enum pvr { NO_PVR, POWER10_PVR, OTHER_PVR, PVRS };

/* What is to happen to a guest's PVR, and to what its vCPUs hold for the nine. */
enum turn { BECOMES_POWER9, LEAVES_POWER9, TWICE_TO_POWER9, TWICE_FROM_POWER9, KEPT_MEANWHILE, TAKEN_WITH_LATER,
            GIVEN_WITH_LATER, TURNS };

struct lists {
    bool refused[USES][LATER_COUNT][LACKS];
    bool offered[USES][LATER_COUNT][PVRS];
    bool turns[TURNS];
    uint32_t pvr; /* of the guest that the call names, before it */
    struct kept_later {
        unsigned word; /* of the slot, so that it is the same vCPU */
        enum { NOTHING, SET_BEFORE, POWER9_SINCE } stage;
    } kept[SLOTS_MOST];
};

/* Before a call: looks at the guest that it names. After it, where both sides gave this answer: what was met. */
void look_at_lists(struct lists *l, const struct call *c);
void note_lists(struct lists *l, const struct call *c, const adk_found *f);

/* Whether all was met; names what was not. */
bool lists_covered(const struct lists *l);

#endif
