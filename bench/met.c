/* met.c: see met.h. */
#include "met.h"

#include "model.h"

#include <stdio.h>
#include <string.h>

static const char *const ILL_NAME[ILLS] = {
    [UNUSED_MARKED] = "a mark on a slot that is not used",
    [ZERO_BIT] = "a bit behind that of the last guest",
    [GUEST_0] = "a word of guest 0",
    [NOT_LIVE] = "a word of a guest that is not live",
    [PAIR_TWICE] = "one pair in two slots",
    [UNUSED_WORD] = "a word that is not used and not zero",
    [CAPABILITY] = "a capability that is not offered",
};

static const char *const CONVERSION_NAME[CONVERSIONS] = {
    [UNUSED_VALUES] = "a store converted with values in a slot that is not used",
    [MARKED] = "a store converted with a taken vCPU",
    [LAST_OF_BOTH] = "a store converted with its last guest and its last slot in use",
    [LARGE_SOURCE] = "a well-formed large store refused as a source",
};

/* Beside both sizes, between them, and where only the last 16 bits are a size's. The last is right for a store. */
static const size_t SIZES_WRONG[WRONG_SIZES] = {
    ADK_STORE_SIZE - 1, ADK_STORE_SIZE + 1, (ADK_STORE_SIZE + ADK_LARGE_STORE_SIZE) / 2, ADK_STORE_SIZE + 65536,
    ADK_LARGE_STORE_SIZE - 65536, ADK_LARGE_STORE_SIZE - 1, ADK_LARGE_STORE_SIZE + 1, ADK_STORE_SIZE
};

/* ---- Ill-formed stores ---- */

static bool is_ill_word(const uint8_t *s, unsigned slot, enum ill ill)
{
    unsigned w = word_in(s, slot), before = 0;
    bool used = (w & used_bit()) != 0;
    switch (ill) {
    case GUEST_0: return used && guest_in(w) == 0;
    case NOT_LIVE: return used && guest_in(w) != 0 && !has_live(s, guest_in(w));
    case UNUSED_WORD: return !used && w != 0;
    default:
        while (before < slot && word_in(s, before) != w)
            before++;
        return used && before < slot;
    }
}

/* Makes good what is ill in this way; a word that goes takes its mark along. */
static void repair(uint8_t *s, enum ill ill)
{
    if (ill == CAPABILITY)
        adk_write_be(s, 8, adk_read_be(s, 8) & (ADK_CAP_POWER9 | ADK_CAP_POWER10));
    for (unsigned i = 0; ill == ZERO_BIT && i < zero_bits(); i++)
        put_live(s, layout->guests + 1 + i, false);
    for (unsigned slot = 0; slot < layout->slots; slot++)
        if (ill == UNUSED_MARKED && word_in(s, slot) == 0) {
            put_mark(s, slot, false);
        } else if (ill >= GUEST_0 && ill <= UNUSED_WORD && is_ill_word(s, slot, ill)) {
            put_word(s, slot, 0);
            put_mark(s, slot, false);
        }
}

/* A store was refused: where it is well formed once it is repaired in one way, that alone was ill. */
static void note_ill(struct met_stores *m)
{
    static uint8_t store[ADK_LARGE_STORE_SIZE];
    for (enum ill ill = 0; ill < ILLS; ill++) {
        if (m->ill[ill])
            continue;
        memcpy(store, memory[BEFORE][STORE], layout->header);
        repair(store, ill);
        m->ill[ill] = mdl_get_capabilities(store, layout->size, 0).r3 == ADK_OK;
    }
}

/* ---- The last guest and the last slot ---- */

/* The place of a number among those of the call, or NUMBERS. */
static int number_at(const struct kind *k, const char *name)
{
    int i = 0;
    while (i < NUMBERS && (k->number[i] == NULL || strcmp(k->number[i], name) != 0))
        i++;
    return i;
}

static bool creates_guest(const struct kind *k)
{
    return number_at(k, "token") < NUMBERS;
}

static bool names_guest(const struct kind *k)
{
    return number_at(k, "guest") < NUMBERS;
}

static bool names_vcpu(const struct kind *k)
{
    return number_at(k, "vcpu") < NUMBERS && !k->wide;
}

static void note_last(struct met_stores *m, const struct call *c, const adk_found *f)
{
    size_t k = (size_t)(c->kind - KINDS);
    uint64_t guest = creates_guest(c->kind) ? f->r4 : names_guest(c->kind) ? c->n[number_at(c->kind, "guest")] : 0;
    m->last_guest[k] |= guest == layout->guests;
    m->last_slot[k] |= names_vcpu(c->kind) && slot_of(c) == layout->slots - 1;
}

/* ---- Conversions ---- */

static bool has_values(const uint8_t *s, unsigned slot)
{
    const uint8_t *values = s + slot_at(slot);
    return values[0] != 0 || memcmp(values, values + 1, SLOT_SIZE - 1) != 0;
}

static void note_converted(struct met_stores *m)
{
    const uint8_t *s = memory[BEFORE][STORE];
    for (unsigned slot = 0; slot < layout->slots; slot++)
        m->conversions[UNUSED_VALUES] |= !is_used(slot) && has_values(s, slot);
    m->conversions[MARKED] |= any_mark(s);
    m->conversions[LAST_OF_BOTH] |= has_live(s, layout->guests) && is_used(layout->slots - 1);
}

static void note_conversion(struct met_stores *m, const struct call *c, const adk_found *f)
{
    for (size_t i = 0; f->r3 == ADK_BAD_LENGTH && i < WRONG_SIZES; i++)
        m->targets[i] |= c->len[TARGET] == SIZES_WRONG[i];
    if (f->r3 == ADK_OK)
        note_converted(m);
    if (f->r3 == ADK_BAD_STORE && c->len[STORE] == ADK_LARGE_STORE_SIZE)
        m->conversions[LARGE_SOURCE] |= mdl_get_capabilities(memory[BEFORE][STORE], layout->size, 0).r3 == ADK_OK;
}

/* ---- All of them ---- */

void note_stores(struct met_stores *m, const struct call *c, const adk_found *f)
{
    for (size_t i = 0; f->r3 == ADK_BAD_STORE && i < WRONG_SIZES; i++)
        m->lengths[i] |= c->len[STORE] == SIZES_WRONG[i];
    if (converts(c->kind)) {
        note_conversion(m, c, f);
        return;
    }
    if (f->r3 == ADK_OK)
        note_last(m, c, f);
    if (f->r3 == ADK_BAD_STORE && c->len[STORE] == layout->size)
        note_ill(m);
}

static bool missed(const char *what, const char *which)
{
    printf("  never seen: %s%s\n", what, which);
    return false;
}

static bool lasts_covered(const struct met_stores *m)
{
    bool all = true;
    for (const struct kind *k = KINDS; k < KINDS + KIND_COUNT; k++) {
        if ((creates_guest(k) || names_guest(k)) && !m->last_guest[k - KINDS])
            all = missed("the last guest in ", k->name);
        if (names_vcpu(k) && !m->last_slot[k - KINDS])
            all = missed("the last slot in ", k->name);
    }
    return all;
}

static bool lengths_covered(const bool *met, size_t n, const char *what)
{
    bool all = true;
    char length[32];
    for (size_t i = 0; i < n; i++)
        if (!met[i]) {
            snprintf(length, sizeof length, "%zu", SIZES_WRONG[i]);
            all = missed(what, length);
        }
    return all;
}

static bool conversions_covered(const struct met_stores *m)
{
    bool all = lengths_covered(m->targets, WRONG_SIZES, "a target refused with a length of ");
    for (enum conversion i = 0; i < CONVERSIONS; i++)
        if (!m->conversions[i])
            all = missed("", CONVERSION_NAME[i]);
    return all;
}

bool stores_covered(const struct met_stores *m, struct manner manner)
{
    bool all = lengths_covered(m->lengths, WRONG_SIZES - 1, "a store refused with a length of ");
    for (enum ill ill = 0; ill < ILLS; ill++)
        if (!m->ill[ill])
            all = missed("a store refused only for ", ILL_NAME[ill]);
    all = lasts_covered(m) && all;
    return (!manner.large || conversions_covered(m)) && all;
}
