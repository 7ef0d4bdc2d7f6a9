/* cover.c: see cover.h. */
#include "cover.h"

const char *const WAY_NAME[WAYS] = { "set", "read", "effect", "returned", "taken", "given back" };
const char *const JUDGED_NAME[JUDGED] = { "get_state", "set_state", "run input", "run effect" };
const char *const HAND_NAME[HANDS] = { "taken", "given back" };

/* ---- Counting ---- */

static void raise_to(uint64_t *most, uint64_t n)
{
    if (n > *most)
        *most = n;
}

/* Counts the elements of an accepted buffer, or of an output; true if there was one other than the NOP. end is where
   the last one ends. */
static bool note_elements(struct cover *v, enum list list, enum piece p, enum way way, uint64_t *end)
{
    const uint8_t *b = memory[LIBRARY][p], *element = b + 4;
    bool any = false;
    for (uint64_t left = adk_read_be(b, 4); left > 0; left--, element = next_element(element)) {
        uint64_t id = adk_read_be(element, 2);
        if (id != ADK_GSID_NOP) {
            v->elements[list][way][id]++;
            any = true;
        }
    }
    *end = (uint64_t)(element - b);
    return any;
}

static void note_accepted(struct cover *v, enum list list, enum judged j, enum piece p, enum way way)
{
    uint64_t end;
    v->accepted[j]++;
    if (!note_elements(v, list, p, way, &end))
        v->only_nops[j]++;
    raise_to(&v->longest[j], end);
}

/* Counts an accepted hand-over, by the form in the buffer. */
static void note_handed(struct cover *v, enum list list, int hand, enum way way)
{
    const uint8_t *form = memory[LIBRARY][BUFFER];
    unsigned present = read_form(form).present;
    struct handed *h = &v->handed[hand];
    h->vcpus++;
    h->empty += present == 0;
    h->full += present == THREAD_ELEMENTS;
    for (unsigned e = 0; e < THREAD_ELEMENTS; e++)
        v->elements[list][way][thread_id(e)] += is_present(form, e);
}

/* Counts a refusal of a POWER9 guest, if the element that the answer names is one that it lacks. */
static void note_refused(struct cover *v, const struct call *c, const adk_found *f)
{
    bool run = is_run(c->kind), effect = f->r3 == ADK_BAD_EFFECT;
    enum judged j = effect ? RUN_EFFECT_BUFFER : run ? RUN_INPUT : c->kind->access == W ? SET_BUFFER : GET_BUFFER;
    enum piece p = effect ? EFFECT : run ? INPUT : BUFFER;
    uint64_t at = run ? f->r4 : f->r5;
    if (!tells_place(c->kind, f->r3) || !goes_by_list(c->kind) || at < 4 || at + 4 > c->len[p])
        return;
    unsigned number = later_number((unsigned)adk_read_be(memory[LIBRARY][p] + at, 2));
    if (number < LATER_COUNT)
        v->refused[j][number]++;
}

/* How full the store is that an accepted call meets. */
static void note_fullness(struct cover *v)
{
    const uint8_t *s = memory[BEFORE][STORE];
    unsigned guests = 0, slots = 0;
    for (unsigned guest = 1; guest <= layout->guests; guest++)
        guests += has_live(s, guest);
    for (unsigned slot = 0; slot < layout->slots; slot++)
        slots += is_used(slot);
    raise_to(&v->guests, guests);
    raise_to(&v->slots, slots);
}

void note_cover(struct cover *v, const struct call *c, const adk_found *f)
{
    enum list list = list_of(c->n[1]);
    uint64_t end;
    if (f->r3 < ANSWERS)
        v->answers[c->kind - KINDS][f->r3]++;
    if (f->r3 != ADK_OK && list == POWER9)
        note_refused(v, c, f);
    if (f->r3 != ADK_OK)
        return;
    if (c->kind->use[STORE] != NOT_LENT && c->kind != KINDS)
        note_fullness(v);
    if (c->kind->access == R)
        note_accepted(v, list, GET_BUFFER, BUFFER, GOT);
    if (c->kind->access == W)
        note_accepted(v, list, SET_BUFFER, BUFFER, SET);
    if (c->kind->hand == TAKING)
        note_handed(v, list, TAKEN_OVER, TAKEN);
    if (c->kind->hand == GIVING)
        note_handed(v, list, GIVEN_BACK, GIVEN);
    if (is_run(c->kind)) {
        note_accepted(v, list, RUN_INPUT, INPUT, SET);
        note_accepted(v, list, RUN_EFFECT_BUFFER, EFFECT, WROTE);
        note_elements(v, list, OUTPUT, RETURNED, &end);
    }
}

static void add_numbers(uint64_t *to, const uint64_t *from, size_t n)
{
    for (size_t i = 0; i < n; i++)
        to[i] += from[i];
}

void add_cover(struct cover *to, const struct cover *from)
{
    add_numbers(to->answers[0], from->answers[0], KIND_COUNT * ANSWERS);
    add_numbers(to->elements[0][0], from->elements[0][0], LISTS * WAYS * COUNT(to->elements[0][0]));
    add_numbers(to->refused[0], from->refused[0], JUDGED * LATER_COUNT);
    add_numbers(to->accepted, from->accepted, JUDGED);
    add_numbers(to->only_nops, from->only_nops, JUDGED);
    for (int j = 0; j < JUDGED; j++)
        raise_to(&to->longest[j], from->longest[j]);
    raise_to(&to->guests, from->guests);
    raise_to(&to->slots, from->slots);
    for (int h = 0; h < HANDS; h++) {
        to->handed[h].vcpus += from->handed[h].vcpus;
        to->handed[h].empty += from->handed[h].empty;
        to->handed[h].full += from->handed[h].full;
    }
}

/* ---- Questions ---- */

bool can_be(enum list list, enum way way, unsigned id)
{
    static const unsigned access[WAYS] = { [SET] = W | RUN_IN, [GOT] = R, [WROTE] = RUN_EFFECT };
    const struct row *row = row_of(id);
    if (row == NULL)
        return false;
    if (way == RETURNED)
        return (id >= 0x1003 && id <= 0x100C) || id == 0x102D || (id >= 0xF000 && id <= 0xF003);
    if (way == TAKEN || way == GIVEN)
        return !row->wide;
    return (access_to(list, id) & access[way]) != 0;
}

bool is_covered(const struct cover *v, enum list list, enum way way, unsigned id)
{
    return v->elements[list][way][id] != 0;
}

bool is_missed(const struct cover *v, enum list list, enum way way, unsigned id)
{
    return can_be(list, way, id) && !is_covered(v, list, way, id);
}

unsigned how_many(const struct cover *v, enum list list, enum way way, id_test *which)
{
    unsigned n = 0;
    for (const struct row *row = ROWS; row < ROWS + ROW_COUNT; row++)
        for (unsigned id = row->first; id <= row->last; id++)
            n += which(v, list, way, id);
    return n;
}

static bool possible(const struct cover *v, enum list list, enum way way, unsigned id)
{
    (void)v;
    return can_be(list, way, id);
}

unsigned how_many_can_be(enum list list, enum way way)
{
    return how_many(NULL, list, way, possible);
}

unsigned how_many_refused(const struct cover *v, enum judged j)
{
    unsigned n = 0;
    for (unsigned i = 0; i < LATER_COUNT; i++)
        n += v->refused[j][i] != 0;
    return n;
}

static uint64_t sum(const uint64_t *of)
{
    uint64_t n = 0;
    for (int j = 0; j < JUDGED; j++)
        n += of[j];
    return n;
}

uint64_t all_accepted(const struct cover *v)
{
    return sum(v->accepted);
}

uint64_t all_only_nops(const struct cover *v)
{
    return sum(v->only_nops);
}

bool worth_nothing(const struct cover *v)
{
    return how_many(v, WHOLE, SET, is_covered) + how_many(v, POWER9, SET, is_covered) == 0;
}
