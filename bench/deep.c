/* deep.c: see deep.h. */
#include "deep.h"

#include "cases.h"

#include <string.h>

enum { UNLISTED = 0x3040, SOME_NOPS = 20, MOST_NOPS = 16383 };

static uint8_t full_store[ADK_LARGE_STORE_SIZE];
static uint8_t full_form[ADK_FORM_MAX];
static bool longest_buffers;

static unsigned last_slot(void)
{
    return layout->slots - 1;
}

/* ---- A call that is accepted ---- */

/* False if the call has no such number. */
static bool put_number(struct call *c, const char *name, uint64_t value)
{
    uint64_t *number = number_named(c, name);
    if (number != NULL)
        *number = value;
    return number != NULL;
}

static void put_numbers(struct call *c)
{
    put_number(c, "flags", c->kind->hand != NO_HAND ? ADK_HAND_OVER : c->kind->wide ? ADK_GUEST_WIDE : 0);
    put_number(c, "guest", layout->guests);
    put_number(c, "vcpu", VCPU);
    put_number(c, "bitmap", agreed());
    put_number(c, "token", ADK_TOKEN);
    put_number(c, "exit_reason", ADK_EXIT_HCALL);
    put_number(c, "timebase", UINT64_MAX);
}

/* Whether the piece is a guest state buffer that the call walks. */
static bool is_walked(const struct call *c, enum piece p)
{
    return c->kind->use[p] != NOT_LENT && !is_store(p) && p != OUTPUT && c->kind->hand == NO_HAND;
}

/* Whether the lent length of the piece is judged: of a run's input what is registered counts. */
static bool is_measured(const struct call *c, enum piece p)
{
    return (is_walked(c, p) && p != INPUT) || (c->kind->hand != NO_HAND && p == BUFFER);
}

/* What the call asks of the elements in a piece; a lookup asks nothing. */
static unsigned access_in(const struct call *c, enum piece p)
{
    return p == INPUT ? RUN_IN : p == EFFECT ? RUN_EFFECT : c->kind->access != 0 ? c->kind->access : R;
}

static uint8_t *last_element(enum piece p)
{
    uint8_t *element = memory[BEFORE][p] + 4;
    for (uint64_t left = adk_read_be(memory[BEFORE][p], 4); left > 1; left--)
        element += 4 + adk_read_be(element + 2, 2);
    return element;
}

/* The input ends at the registered size. */
static void end_input(const struct call *c)
{
    put_registered_size(last_slot(), ADK_GSID_RUN_INPUT, c->len[INPUT]);
}

/* A vCPU with all 170 values is taken, or given back. */
static void lend_form(struct call *c)
{
    memset(memory[BEFORE][STORE] + slot_at(last_slot()), 0xFF, SLOT_SIZE);
    if (c->kind->hand == GIVING) {
        put_mark(memory[BEFORE][STORE], last_slot(), true);
        memcpy(memory[BEFORE][BUFFER], full_form, sizeof full_form);
    }
    c->len[BUFFER] = longest_buffers ? ADK_BUFFER_MAX : ADK_FORM_MAX;
}

static void lend_buffers(struct call *c)
{
    if (c->kind->hand != NO_HAND)
        lend_form(c);
    for (int p = 0; p < PIECES; p++) {
        struct build g = begin_build(p, access_in(c, p), c->kind->wide, list_of(layout->guests));
        if (!is_walked(c, p))
            continue;
        if (longest_buffers)
            build_full(&g);
        else
            build_ends(&g);
        c->len[p] = g.len;
    }
    if (is_run(c->kind)) {
        end_input(c);
        c->len[OUTPUT] = ADK_BUFFER_MAX;
    }
    if (is_walked(c, BUFFER))
        put_number(c, "id", adk_read_be(last_element(BUFFER), 2));
}

/* What is created gets the last place, which nobody has. */
static void make_room(const struct call *c)
{
    uint8_t *s = memory[BEFORE][STORE];
    if (!(c->kind->answers & A(ADK_NOT_ENOUGH_RESOURCES)))
        return;
    put_word(s, last_slot(), 0);
    if (!(c->kind->answers & A(ADK_VCPU_EXISTS)))
        put_live(s, layout->guests, false);
}

static struct call good_call(const struct kind *k)
{
    struct call c = { .kind = k };
    memcpy(memory[BEFORE][STORE], full_store, layout->size);
    c.len[STORE] = k->use[STORE] != NOT_LENT ? layout->size : 0;
    c.len[TARGET] = k->use[TARGET] != NOT_LENT ? ADK_LARGE_STORE_SIZE : 0;
    put_numbers(&c);
    lend_buffers(&c);
    make_room(&c);
    return c;
}

/* ---- What is changed in it: false where there is no such thing to change in the piece ---- */

static bool hold_nops(struct call *c, enum piece p)
{
    unsigned count = longest_buffers ? MOST_NOPS : SOME_NOPS;
    if (!is_walked(c, p))
        return false;
    c->len[p] = 4 + 4 * count;
    memset(memory[BEFORE][p], 0, c->len[p]);
    adk_write_be(memory[BEFORE][p], 4, count);
    put_number(c, "id", ADK_GSID_NOP);
    if (p == INPUT)
        end_input(c);
    return true;
}

/* The guest becomes a POWER9 one, and the buffers hold what it is offered. */
static void become_power9(struct call *c)
{
    put_pvr(layout->guests, ADK_PVR_ARCH_300);
    lend_buffers(c);
}

static bool be_power9(struct call *c, enum piece p)
{
    if (p == STORE && goes_by_list(c->kind))
        become_power9(c);
    return p == STORE && goes_by_list(c->kind);
}

static bool end_with_later(struct call *c, enum piece p)
{
    if (!is_walked(c, p) || !goes_by_list(c->kind))
        return false;
    become_power9(c);
    adk_write_be(last_element(p), 2, ADK_GSID_DAWR1);
    return true;
}

static bool have_no_guest(struct call *c, enum piece p)
{
    (void)c;
    if (p == STORE)
        memset(memory[BEFORE][STORE] + LIVE, 0, layout->header - LIVE);
    return p == STORE;
}

/* The words of the last two slots are equal. A fresh store is made of any bytes. */
static bool repeat_word(struct call *c, enum piece p)
{
    uint8_t *s = memory[BEFORE][STORE];
    put_word(s, last_slot(), word_in(s, last_slot() - 1));
    return p == STORE && c->kind != KINDS;
}

static bool lengthen_store(struct call *c, enum piece p)
{
    c->len[STORE]++;
    return p == STORE;
}

/* A vCPU may be absent when it is created. */
static bool name_absent(struct call *c, enum piece p)
{
    return p == STORE && !(c->kind->answers & A(ADK_VCPU_EXISTS)) && put_number(c, "vcpu", VCPU - 1);
}

static bool leave_no_room(struct call *c, enum piece p)
{
    memcpy(memory[BEFORE][STORE], full_store, layout->header);
    put_number(c, "vcpu", VCPU - 1);
    return p == STORE;
}

static bool create_again(struct call *c, enum piece p)
{
    (void)c;
    memcpy(memory[BEFORE][STORE], full_store, layout->header);
    return p == STORE;
}

static bool turn_mark(struct call *c, enum piece p)
{
    (void)c;
    if (p == STORE)
        put_mark(memory[BEFORE][STORE], last_slot(), !is_marked(last_slot()));
    return p == STORE;
}

static bool lend_one_too_many(struct call *c, enum piece p)
{
    c->len[p] = ADK_BUFFER_MAX + 1;
    return is_measured(c, p);
}

static bool lengthen_target(struct call *c, enum piece p)
{
    c->len[TARGET]++;
    return p == TARGET;
}

/* A guest that is one too many. */
static bool name_no_guest(struct call *c, enum piece p)
{
    return p == STORE && put_number(c, "guest", layout->guests + 1);
}

static bool lend_one_too_few(struct call *c, enum piece p)
{
    static const size_t LEAST[] = { [NO_HAND] = ADK_BUFFER_MIN, [TAKING] = ADK_FORM_MAX, [GIVING] = ADK_FORM_MIN };
    c->len[p] = LEAST[c->kind->hand] - 1;
    return is_measured(c, p);
}

static bool spoil_version(struct call *c, enum piece p)
{
    memory[BEFORE][BUFFER][0] ^= 0x80;
    return c->kind->hand == GIVING && p == BUFFER;
}

/* The last value, which is present, is all zero. */
static bool spoil_last_value(struct call *c, enum piece p)
{
    memset(memory[BEFORE][BUFFER] + ADK_FORM_MAX - 8, 0, 8);
    return c->kind->hand == GIVING && p == BUFFER;
}

/* A lookup judges neither IDs nor sizes. */
static bool is_judged(const struct call *c, enum piece p)
{
    return is_walked(c, p) && tells_place(c->kind, ADK_INVALID_ELEMENT_ID);
}

static bool spoil_first_id(struct call *c, enum piece p)
{
    if (is_judged(c, p))
        adk_write_be(memory[BEFORE][p] + 4, 2, UNLISTED);
    return is_judged(c, p);
}

static bool spoil_last_id(struct call *c, enum piece p)
{
    if (is_judged(c, p))
        adk_write_be(last_element(p), 2, UNLISTED);
    return is_judged(c, p);
}

static bool spoil_first_size(struct call *c, enum piece p)
{
    if (is_judged(c, p))
        memory[BEFORE][p][4 + 3] ^= 1;
    return is_judged(c, p);
}

/* Its value ends behind the buffer. */
static bool spoil_last_size(struct call *c, enum piece p)
{
    if (is_walked(c, p))
        adk_write_be(last_element(p) + 2, 2, 0xFFFF);
    return is_walked(c, p);
}

static bool count_one_more(struct call *c, enum piece p)
{
    if (!is_walked(c, p))
        return false;
    adk_write_be(memory[BEFORE][p], 4, adk_read_be(memory[BEFORE][p], 4) + 1);
    return true;
}

/* Of the last element that has a value rule. */
static bool spoil_value(struct call *c, enum piece p)
{
    uint8_t *ruled = NULL, *element = memory[BEFORE][p] + 4;
    if (c->kind->access != W || p != BUFFER)
        return false;
    for (uint64_t left = adk_read_be(memory[BEFORE][p], 4); left > 0; left--) {
        uint64_t id = adk_read_be(element, 2);
        if (id == ADK_GSID_LOGICAL_PVR || id == ADK_GSID_RUN_INPUT || id == ADK_GSID_RUN_OUTPUT)
            ruled = element;
        element += 4 + adk_read_be(element + 2, 2);
    }
    if (ruled != NULL)
        memset(ruled + 4, 0xFF, adk_read_be(ruled + 2, 2));
    return ruled != NULL;
}

/* One byte less than the rule asks for. */
static bool register_too_little(struct call *c, enum piece p)
{
    (void)c;
    if (p == INPUT)
        put_registered_size(last_slot(), ADK_GSID_RUN_INPUT, ADK_BUFFER_MIN - 1);
    else
        put_registered_size(last_slot(), ADK_GSID_RUN_OUTPUT, ADK_RUN_OUTPUT_MIN - 1);
    return p == INPUT || p == OUTPUT;
}

static bool lend_less_than_registered(struct call *c, enum piece p)
{
    c->len[p]--;
    return p == INPUT || p == OUTPUT;
}

/* ---- The cases ---- */

/* A number of the call, or what it is lent, is another, and then the answer is this. It is tried in one call, or in all
   that have such a thing and can give the answer. */
static const struct change {
    uint64_t answer;
    const char *call, *what, *number;
    uint64_t value;
    bool (*change)(struct call *c, enum piece p);
} CHANGES[] = {
    { ADK_OK, NULL, "nothing", NULL, 0, NULL },
    { ADK_OK, NULL, "the most NOPs", NULL, 0, hold_nops },
    { ADK_OK, NULL, "a POWER9 guest", NULL, 0, be_power9 },
    { ADK_OK, "set_capabilities", "no guest lives", "bitmap", ADK_CAP_POWER9, have_no_guest },
    { ADK_OK, "delete_guest", "all guests", "flags", ADK_DELETE_ALL, NULL },
    { ADK_OK, "run_vcpu", "each flag", "flags", ADK_BIT(0) | ADK_BIT(1) | ADK_BIT(2), NULL },
    { ADK_OK, "run_vcpu", "exit 0x000", "exit_reason", ADK_EXIT_UNSPECIFIED, NULL },
    { ADK_OK, "run_vcpu", "exit 0x980", "exit_reason", ADK_EXIT_HDEC, NULL },
    { ADK_OK, "run_vcpu", "exit 0xE00", "exit_reason", ADK_EXIT_HDSI, NULL },
    { ADK_OK, "run_vcpu", "exit 0xE20", "exit_reason", ADK_EXIT_HISI, NULL },
    { ADK_OK, "run_vcpu", "exit 0xE40", "exit_reason", ADK_EXIT_HEA, NULL },
    { ADK_OK, "run_vcpu", "exit 0xF80", "exit_reason", ADK_EXIT_HV_FAC_UNAVAIL, NULL },
    { ADK_BAD_STORE, NULL, "the last slot word twice", NULL, 0, repeat_word },
    { ADK_BAD_STORE, NULL, "a store of one byte more", NULL, 0, lengthen_store },
    { ADK_BAD_FLAG, NULL, "flag bit 63", "flags", ADK_BIT(63), NULL },
    { ADK_BAD_PARAMETER, NULL, "a guest past the last", NULL, 0, name_no_guest },
    { ADK_BAD_PARAMETER, "create_guest", "another token", "token", ADK_TOKEN - 1, NULL },
    { ADK_BAD_PARAMETER, "set_capabilities", "a bit that is not offered", "bitmap", ADK_BIT(63), NULL },
    { ADK_BAD_VCPU, NULL, "vCPU 2048", "vcpu", ADK_VCPU_MAX + 1, NULL },
    { ADK_BAD_VCPU, NULL, "an absent vCPU", NULL, 0, name_absent },
    { ADK_BAD_LENGTH, NULL, "65,537 bytes", NULL, 0, lend_one_too_many },
    { ADK_BAD_LENGTH, NULL, "a byte less than the least", NULL, 0, lend_one_too_few },
    { ADK_BAD_LENGTH, NULL, "a target of one byte more", NULL, 0, lengthen_target },
    { ADK_INVALID_ELEMENT_ID, NULL, "the first ID", NULL, 0, spoil_first_id },
    { ADK_INVALID_ELEMENT_ID, NULL, "the last ID", NULL, 0, spoil_last_id },
    { ADK_INVALID_ELEMENT_ID, NULL, "a last ID that POWER9 lacks", NULL, 0, end_with_later },
    { ADK_INVALID_ELEMENT_ID, NULL, "an ID that is not there", "id", 0xFFFF, NULL },
    { ADK_INVALID_ELEMENT_SIZE, NULL, "the first size", NULL, 0, spoil_first_size },
    { ADK_INVALID_ELEMENT_SIZE, NULL, "the last size", NULL, 0, spoil_last_size },
    { ADK_INVALID_ELEMENT_SIZE, NULL, "a count of one more", NULL, 0, count_one_more },
    { ADK_INVALID_ELEMENT_VALUE, NULL, "the last value with a rule", NULL, 0, spoil_value },
    { ADK_NOT_ENOUGH_RESOURCES, NULL, "no room", NULL, 0, leave_no_room },
    { ADK_VCPU_EXISTS, NULL, "a vCPU that is there", NULL, 0, create_again },
    { ADK_NOT_REGISTERED, NULL, "a size under the least", NULL, 0, register_too_little },
    { ADK_LENT_TOO_SHORT, NULL, "a byte less than registered", NULL, 0, lend_less_than_registered },
    { ADK_UNKNOWN_EXIT, NULL, "exit 0xC01", "exit_reason", ADK_EXIT_HCALL + 1, NULL },
    { ADK_WRONG_OWNER, NULL, "the other mark", NULL, 0, turn_mark },
    { ADK_BAD_FORM, NULL, "another version", NULL, 0, spoil_version },
    { ADK_BAD_FORM, NULL, "a last value of zeros", NULL, 0, spoil_last_value },
    { ADK_CAPABILITIES_IN_USE, NULL, "another bitmap", "bitmap", ADK_CAP_POWER9, NULL },
};

/* p: where the change is made, or PIECES if only a number is another. */
static void try_change(const struct kind *k, const struct change *d, enum piece p, try_case *try)
{
    uint64_t answer = p == EFFECT && d->answer != ADK_OK ? ADK_BAD_EFFECT : d->answer;
    if ((d->call != NULL && strcmp(d->call, k->name) != 0) || !(k->answers & A(answer)))
        return;
    struct call c = good_call(k);
    if (d->number != NULL && !put_number(&c, d->number, d->value))
        return;
    if (p != PIECES && !d->change(&c, p))
        return;
    share_all();
    try(&c, answer, d->what);
}

/* The form of the vCPU in the last slot with all its values. */
static bool fill_form(void)
{
    static uint8_t store[ADK_LARGE_STORE_SIZE];
    memcpy(store, full_store, layout->size);
    memset(store + slot_at(last_slot()), 0xFF, SLOT_SIZE);
    return adk_get_state(store, layout->size, ADK_HAND_OVER, layout->guests, VCPU, full_form, sizeof full_form).r3 ==
           ADK_OK;
}

static void try_all(const struct kind *k, try_case *try)
{
    for (const struct change *d = CHANGES; d < CHANGES + COUNT(CHANGES); d++) {
        if (d->change == NULL)
            try_change(k, d, PIECES, try);
        for (int p = 0; p < PIECES && d->change != NULL; p++)
            if (k->use[p] != NOT_LENT)
                try_change(k, d, p, try);
    }
}

/* Only a small store can be converted. */
bool each_case(enum size size, bool longest, try_case *try)
{
    longest_buffers = longest;
    layout = &LAYOUTS[size];
    if (!fill_store(full_store) || !fill_form())
        return false;
    for (const struct kind *k = KINDS; k < KINDS + KIND_COUNT; k++)
        if (size == SMALL || !converts(k))
            try_all(k, try);
    return true;
}
