/* lists.c: see lists.h. */
#include "lists.h"

#include <stdio.h>

/* So many elements are many: the last is then behind all that a POWER9 guest is offered. */
enum { MANY = 100 };

static const struct {
    unsigned access;
    enum piece piece;
    const char *name;
} USE[USES] = {
    { R, BUFFER, "get state" },
    { W, BUFFER, "set state" },
    { RUN_IN, INPUT, "a run's input" },
    { RUN_EFFECT, EFFECT, "a run's effect" },
};

static const char *const LACK_NAME[LACKS] = {
    [ALONE] = "alone", [OTHER_SIZE] = "with another size", [LAST_OF_MANY] = "as the last of many elements"
};
static const char *const PVR_NAME[PVRS] = {
    [NO_PVR] = "no PVR", [POWER10_PVR] = "POWER10's PVR", [OTHER_PVR] = "a PVR of neither"
};
static const char *const TURN_NAME[TURNS] = {
    [BECOMES_POWER9] = "a guest that became a POWER9 one",
    [LEAVES_POWER9] = "a POWER9 guest that became another",
    [TWICE_TO_POWER9] = "two PVRs in one buffer, the last POWER9's",
    [TWICE_FROM_POWER9] = "two PVRs in one buffer, the first POWER9's and the last not",
    [KEPT_MEANWHILE] = "what came later, set before its guest was a POWER9 one and read after",
    [TAKEN_WITH_LATER] = "a vCPU of a POWER9 guest taken with a value that came later",
    [GIVEN_WITH_LATER] = "a vCPU of a POWER9 guest given back with such a value",
};

/* Whether the call judges elements for this use. */
static bool judges(const struct kind *k, unsigned use)
{
    return is_run(k) ? USE[use].piece != BUFFER : k->access == USE[use].access && !k->wide;
}

static enum pvr pvr_kind(uint32_t pvr)
{
    return pvr == 0 ? NO_PVR : pvr == ADK_PVR_ARCH_31 ? POWER10_PVR : OTHER_PVR;
}

/* ---- What came later ---- */

/* The vCPU that the call names, in its slot; one that is forgotten if another has the slot now. */
static struct kept_later *kept_of(struct lists *l, const struct call *c)
{
    unsigned slot = slot_of(c);
    if (slot == layout->slots)
        return NULL;
    struct kept_later *k = &l->kept[slot];
    unsigned word = word_of(c->n[1], (unsigned)c->n[2]);
    if (k->word != word)
        *k = (struct kept_later){ word, NOTHING };
    return k;
}

/* An accepted buffer of a guest that is no POWER9 one. */
static void note_offered(struct lists *l, const struct call *c, unsigned use)
{
    const uint8_t *b = memory[BEFORE][USE[use].piece], *element = b + 4;
    struct kept_later *k = kept_of(l, c);
    bool any = false;
    for (uint64_t left = adk_read_be(b, 4); left > 0; left--, element = next_element(element)) {
        unsigned number = later_number((unsigned)adk_read_be(element, 2));
        if (number == LATER_COUNT)
            continue;
        l->offered[use][number][pvr_kind(l->pvr)] = true;
        any = true;
    }
    if (k == NULL || !any)
        return;
    l->turns[KEPT_MEANWHILE] |= USE[use].access == R && k->stage == POWER9_SINCE;
    if (USE[use].access != R)
        k->stage = SET_BEFORE;
}

/* A buffer that was refused for the element at this byte. */
static void note_refused(struct lists *l, unsigned use, size_t at)
{
    const uint8_t *b = memory[BEFORE][USE[use].piece], *element = b + at;
    unsigned id = (unsigned)adk_read_be(element, 2), number = later_number(id);
    uint64_t count = adk_read_be(b, 4), before = 0;
    if (number == LATER_COUNT)
        return;
    for (const uint8_t *e = b + 4; e < element; e = next_element(e))
        before++;
    l->refused[use][number][ALONE] |= count == 1;
    l->refused[use][number][OTHER_SIZE] |= adk_read_be(element + 2, 2) != row_of(id)->size;
    l->refused[use][number][LAST_OF_MANY] |= count >= MANY && before == count - 1;
}

/* The use for which an element was refused, and its byte; false where the answer names none. */
static bool refused_at(const struct call *c, const adk_found *f, unsigned use, size_t *at)
{
    bool effect = USE[use].piece == EFFECT;
    *at = is_run(c->kind) ? f->r4 : f->r5;
    if (f->r3 != (effect ? ADK_BAD_EFFECT : ADK_INVALID_ELEMENT_ID))
        return false;
    return *at != 0 && c->len[USE[use].piece] - *at >= 4;
}

static void note_use(struct lists *l, const struct call *c, const adk_found *f, unsigned use)
{
    bool power9 = l->pvr == ADK_PVR_ARCH_300;
    size_t at;
    if (!power9 && f->r3 == ADK_OK)
        note_offered(l, c, use);
    if (power9 && refused_at(c, f, use, &at))
        note_refused(l, use, at);
}

/* ---- PVRs that change ---- */

/* An accepted guest-wide set; BEFORE has the store after it. */
static void note_turn(struct lists *l, const struct call *c)
{
    const uint8_t *b = memory[BEFORE][BUFFER], *element = b + 4;
    bool was = l->pvr == ADK_PVR_ARCH_300, is = list_of(c->n[1]) == POWER9;
    bool nine = false, other = false;
    for (uint64_t left = adk_read_be(b, 4); left > 0; left--, element = next_element(element)) {
        if (adk_read_be(element, 2) != ADK_GSID_LOGICAL_PVR)
            continue;
        nine |= adk_read_be(element + 4, 4) == ADK_PVR_ARCH_300;
        other |= adk_read_be(element + 4, 4) != ADK_PVR_ARCH_300;
    }
    l->turns[BECOMES_POWER9] |= !was && is;
    l->turns[LEAVES_POWER9] |= was && !is;
    l->turns[TWICE_TO_POWER9] |= nine && other && is;
    l->turns[TWICE_FROM_POWER9] |= nine && other && !is;
}

/* An accepted hand-over of a POWER9 guest's vCPU; BEFORE has the form. */
static void note_form(struct lists *l, enum hand hand)
{
    const uint8_t *form = memory[BEFORE][BUFFER];
    for (unsigned e = 0; e < THREAD_ELEMENTS; e++)
        if (row_of(thread_id(e))->later && is_present(form, e))
            l->turns[hand == TAKING ? TAKEN_WITH_LATER : GIVEN_WITH_LATER] = true;
}

void look_at_lists(struct lists *l, const struct call *c)
{
    l->pvr = pvr_of(c->n[1]);
}

void note_lists(struct lists *l, const struct call *c, const adk_found *f)
{
    bool power9 = l->pvr == ADK_PVR_ARCH_300;
    struct kept_later *k = c->kind->access != 0 || is_run(c->kind) ? kept_of(l, c) : NULL;
    if (power9 && k != NULL && k->stage == SET_BEFORE)
        k->stage = POWER9_SINCE;
    for (unsigned use = 0; use < USES; use++)
        if (judges(c->kind, use))
            note_use(l, c, f, use);
    if (f->r3 != ADK_OK)
        return;
    if (c->kind->access == W && c->kind->wide)
        note_turn(l, c);
    if (c->kind->hand != NO_HAND && power9)
        note_form(l, c->kind->hand);
}

/* ---- Whether all was met ---- */

static bool use_covered(const struct lists *l, unsigned use)
{
    bool all = true;
    for (unsigned i = 0; i < LATER_COUNT; i++) {
        for (unsigned p = 0; p < PVRS; p++)
            if (!l->offered[use][i][p]) {
                printf("  %s never took 0x%04X with %s\n", USE[use].name, later_id(i), PVR_NAME[p]);
                all = false;
            }
        for (unsigned how = 0; how < LACKS; how++)
            if (!l->refused[use][i][how]) {
                printf("  %s of a POWER9 guest never refused 0x%04X %s\n", USE[use].name, later_id(i), LACK_NAME[how]);
                all = false;
            }
    }
    return all;
}

bool lists_covered(const struct lists *l)
{
    bool all = true;
    for (unsigned use = 0; use < USES; use++)
        all = use_covered(l, use) && all;
    for (unsigned t = 0; t < TURNS; t++)
        if (!l->turns[t]) {
            printf("  never seen: %s\n", TURN_NAME[t]);
            all = false;
        }
    return all;
}
