/*
 * cover.h: what a night covered: answers, elements by the list of the guest, what POWER9 guests were refused, accepted
 * buffers that held nothing but NOPs, and hand-overs.
 */
#ifndef COVER_H
#define COVER_H

#include "night.h"

/* The elements that are listed, the NOP apart. */
enum { ELEMENTS = 176 };

/* How an element is covered: set by set state or a run's input, read by get state, written by a run's effect, returned
   in a run's output; with a value that is not zero, taken with its vCPU, and given back with it. */
enum way { SET, GOT, WROTE, RETURNED, TAKEN, GIVEN, WAYS };

/* The buffers that a call accepts or refuses. */
enum judged { GET_BUFFER, SET_BUFFER, RUN_INPUT, RUN_EFFECT_BUFFER, JUDGED };

/* The hand-overs. */
enum { TAKEN_OVER, GIVEN_BACK, HANDS };

extern const char *const WAY_NAME[WAYS], *const JUDGED_NAME[JUDGED], *const HAND_NAME[HANDS];

struct cover {
    uint64_t answers[KIND_COUNT][ANSWERS];
    uint64_t elements[LISTS][WAYS][0x10000]; /* how often, by the guest's list and the ID; the NOP is not counted */
    uint64_t refused[JUDGED][LATER_COUNT];   /* how often a POWER9 guest was refused what it lacks */
    uint64_t accepted[JUDGED], only_nops[JUDGED];
    uint64_t longest[JUDGED]; /* bytes of the longest accepted one, to the end of its last counted element */
    struct handed {
        uint64_t vcpus, empty, full; /* how many; of these without any value, and with all */
    } handed[HANDS];
    uint64_t guests, slots; /* how many guests were live at once, and how many slots in use, at most */
};

/* Counts a call that was made on the library's side and answered so. */
void note_cover(struct cover *v, const struct call *c, const adk_found *f);

/* Adds what another part of the night covered. */
void add_cover(struct cover *to, const struct cover *from);

/* ---- Questions ---- */

/* Whether guests with a list can cover an element in this way, did, and did not though they can. The form of a vCPU
   that is handed over has all elements, whatever the guest is offered. */
bool can_be(enum list list, enum way way, unsigned id);
bool is_covered(const struct cover *v, enum list list, enum way way, unsigned id);
bool is_missed(const struct cover *v, enum list list, enum way way, unsigned id);

typedef bool id_test(const struct cover *v, enum list list, enum way way, unsigned id);

unsigned how_many(const struct cover *v, enum list list, enum way way, id_test *which);

/* How many elements can be covered in this way. */
unsigned how_many_can_be(enum list list, enum way way);

/* How many of the nine that a POWER9 guest lacks were refused in such a buffer. */
unsigned how_many_refused(const struct cover *v, enum judged j);

/* Of all buffers. */
uint64_t all_accepted(const struct cover *v);
uint64_t all_only_nops(const struct cover *v);

/* No element was set: whatever agreed, it says nothing about the values that the calls are for. */
bool worth_nothing(const struct cover *v);

#endif
