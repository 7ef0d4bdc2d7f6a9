/* tell.c: see tell.h. */
#include "tell.h"

#include <inttypes.h>
#include <stdio.h>
#include <string.h>

void print_call(FILE *to, const struct call *c)
{
    fprintf(to, "%s(", c->kind->name);
    for (int i = 0; i < NUMBERS && c->kind->number[i] != NULL; i++)
        fprintf(to, "%s%s 0x%" PRIX64, i == 0 ? "" : ", ", c->kind->number[i], c->n[i]);
    fprintf(to, ")\n");
    if (goes_by_list(c->kind))
        fprintf(to, "  logical PVR 0x%08" PRIX32 "%s\n", pvr_of(c->n[1]),
                list_of(c->n[1]) == POWER9 ? ": a POWER9 guest" : "");
}

/* What is lent of a piece, at most so many bytes; lines that are as the one before are left out. */
static void print_piece(FILE *to, const struct call *c, enum piece p, size_t most)
{
    enum { LINE = 32 };
    const uint8_t *b = memory[BEFORE][p];
    size_t n = c->len[p] < most ? c->len[p] : most;
    bool repeated = false;
    fprintf(to, "  %s of %zu bytes before the call:\n", PIECE_NAME[p], c->len[p]);
    for (size_t at = 0; at < n; at += LINE) {
        size_t here = n - at < LINE ? n - at : LINE;
        bool again = at > 0 && here == LINE && memcmp(b + at, b + at - LINE, LINE) == 0;
        if (again && !repeated)
            fprintf(to, "    *\n");
        repeated = again;
        if (again)
            continue;
        fprintf(to, "    %5zu ", at);
        for (size_t i = 0; i < here; i++)
            fprintf(to, "%s%02X", i % 4 == 0 ? " " : "", b[at + i]);
        fprintf(to, "\n");
    }
    if (n < c->len[p])
        fprintf(to, "    .. and %zu bytes more\n", c->len[p] - n);
}

/* L4: a run tells the byte offset first, the other calls the index. */
static void print_bad_place(FILE *to, const struct call *c, const adk_found *f)
{
    bool run = is_run(c->kind);
    fprintf(to, ": index %" PRIu64 ", byte %" PRIu64, run ? f->r5 : f->r4, run ? f->r4 : f->r5);
}

void print_answer(FILE *to, const char *who, const struct call *c, const adk_found *f)
{
    fprintf(to, "  %s: r3 %" PRIu64 " (%s), r4 %" PRIu64 " (0x%" PRIX64 "), r5 %" PRIu64, who, f->r3,
            adk_answer_name(f->r3), f->r4, f->r4, f->r5);
    if (f->at != 0 || f->len != 0)
        fprintf(to, ", at %" PRIu64 ", len %" PRIu64, f->at, f->len);
    if (tells_place(c->kind, f->r3))
        print_bad_place(to, c, f);
    fprintf(to, "\n");
}

/* The element whose value this byte is part of, in the values of a guest or a slot: they follow each other in order of
   ID, but for the two guest-wide ones that are not kept. */
static unsigned element_at(size_t at, bool wide)
{
    for (size_t i = 0; i < ROW_COUNT; i++) {
        const struct row *row = &ROWS[i];
        size_t all = row->size * (row->last - row->first + 1);
        if (row->wide != wide || (wide && row->access == R))
            continue;
        if (at < all)
            return row->first + (unsigned)(at / row->size);
        at -= all;
    }
    return ADK_GSID_NOP;
}

/* What a byte of the slot words is part of: in a large store often of two. */
static void print_word_place(FILE *to, const struct layout *l, size_t at)
{
    size_t bit = 8 * (at - l->words), bits = 8 * l->words_size / l->slots;
    fprintf(to, bit / bits == (bit + 7) / bits ? " (word of slot %zu)" : " (words of slots %zu and %zu)", bit / bits,
            (bit + 7) / bits);
}

/* What a byte before the values is part of. */
static void print_header_place(FILE *to, const struct layout *l, size_t at)
{
    if (at < LIVE)
        fprintf(to, " (capabilities)");
    else if (at < LIVE + l->live_bytes)
        fprintf(to, " (%s)", 8 * (at - LIVE) < l->guests ? "live guests" : "zero byte");
    else if (at >= l->marks && at < l->marks + l->marks_size)
        fprintf(to, " (marks of slots %zu to %zu)", 8 * (at - l->marks), 8 * (at - l->marks) + 7);
    else
        print_word_place(to, l, at);
}

/* What a byte of a store is part of. */
static void print_place(FILE *to, const struct layout *l, size_t at)
{
    size_t in_guests = at - l->header, in_slots = at - l->slot_values;
    if (at < l->header)
        print_header_place(to, l, at);
    else if (at < l->slot_values)
        fprintf(to, " (guest %zu, 0x%04X)", in_guests / GUEST_SIZE + 1, element_at(in_guests % GUEST_SIZE, true));
    else if (at < l->size)
        fprintf(to, " (slot %zu, 0x%04X)", in_slots / SLOT_SIZE, element_at(in_slots % SLOT_SIZE, false));
}

/* The differing bytes of one piece; told is how many are printed so far, of at most so many. */
static unsigned print_differing_of(FILE *to, const struct call *c, enum piece p, bool refused, const char *other,
                                   unsigned told, unsigned most)
{
    bool fixed = refused || c->kind->use[p] == READ;
    long n = (long)extent(c, p);
    for (long i = -GUARD; i < n + GUARD && told < most; i++) {
        uint8_t lib = memory[LIBRARY][p][i], oth = memory[OTHER][p][i], was = memory[BEFORE][p][i];
        bool lent = i >= 0 && i < (long)c->len[p];
        if (lib == oth && (lib == was || (lent && !fixed)))
            continue;
        fprintf(to, "  %s byte %ld", PIECE_NAME[p], i);
        if (!lent)
            fprintf(to, " (outside)");
        else if (is_store(p))
            print_place(to, p == TARGET ? &LAYOUTS[LARGE] : layout, (size_t)i);
        fprintf(to, ": before %02X, library %02X, %s %02X\n", was, lib, other, oth);
        told++;
    }
    return told;
}

void print_differing(FILE *to, const struct call *c, bool refused, const char *other, unsigned most)
{
    unsigned told = 0;
    for (int p = 0; p < PIECES; p++)
        if (c->kind->use[p] != NOT_LENT)
            told = print_differing_of(to, c, p, refused, other, told, most);
    if (told == 0)
        fprintf(to, "  no byte differs\n");
}

/* ---- Guest state buffers, element by element ---- */

/* Whether the answer names this element of the piece as the first bad one. */
static bool names_element(const adk_found *f, enum piece p, const adk_element *e)
{
    if (f->r3 == ADK_BAD_EFFECT)
        return p == EFFECT && f->r4 == e->offset;
    if (f->r3 < ADK_INVALID_ELEMENT_ID || f->r3 > ADK_INVALID_ELEMENT_VALUE)
        return false;
    return (p == INPUT && f->r4 == e->offset) || (p == BUFFER && f->r4 == e->index);
}

static void print_element(FILE *to, const adk_element *e, size_t held, const char *remark)
{
    enum { SHOWN = 24 };
    char name[ADK_NAME_SIZE];
    fprintf(to, "    %5" PRIu32 " %6zu  0x%04X %-19s %5u  ", e->index, e->offset, (unsigned)e->id,
            adk_element_name(e->id, name), (unsigned)e->size);
    for (size_t i = 0; i < held && i < SHOWN; i++)
        fprintf(to, "%02X", e->value[i]);
    fprintf(to, "%s%s\n", held > SHOWN ? ".." : "", remark);
}

/* The element at the same place of another side; the size that is seen is held to what is lent. */
static void print_theirs(FILE *to, const struct call *c, enum piece p, const adk_element *ours, const char *other)
{
    char remark[64];
    adk_element e = *ours;
    const uint8_t *at = memory[OTHER][p] + e.offset;
    size_t left = c->len[p] - e.offset - 4;
    e.id = (uint16_t)adk_read_be(at, 2);
    e.size = (uint16_t)adk_read_be(at + 2, 2);
    e.value = at + 4;
    snprintf(remark, sizeof remark, "   <- %s", other);
    print_element(to, &e, e.size < left ? e.size : left, remark);
}

/* Whether the answer that judged an output tells the place of a bad element. */
static bool tells_element(const adk_answer *output)
{
    return output->r3 >= ADK_INVALID_ELEMENT_ID && output->r3 <= ADK_INVALID_ELEMENT_VALUE;
}

/* What is said behind an element: that an answer names it, or that it is the library's where the sides differ. */
static const char *remark_on(const struct telling *t, enum piece p, const adk_element *e, bool differs)
{
    static char remark[96];
    if (p == OUTPUT && t->output != NULL)
        return tells_element(t->output) && t->output->r4 == e->index ? "   <- refused" : "";
    bool ours = names_element(t->ours, p, e), theirs = t->theirs != NULL && names_element(t->theirs, p, e);
    if (differs)
        return "   <- library";
    if (!ours && !theirs)
        return "";
    snprintf(remark, sizeof remark, "   <- %s%s%s", ours ? "library" : "", ours && theirs ? ", " : "",
             theirs ? t->other : "");
    return remark;
}

/* How the walk over the counted elements ended. */
static void print_walk_end(FILE *to, const adk_gsb_reader *r)
{
    size_t left = r->len - r->offset;
    if (r->index < r->count)
        fprintf(to, "    %5" PRIu32 " %6zu  cut off by the end: %zu bytes are left\n", r->index, r->offset, left);
    else if (left > 0)
        fprintf(to, "    .. and %zu bytes behind the last counted element\n", left);
}

/* The elements of one side; after the call each at which the sides differ is shown of both. */
static void print_elements(const struct telling *t, enum piece p, enum side s, const char *when)
{
    const struct call *c = t->call;
    const uint8_t *b = memory[s][p];
    adk_gsb_reader r;
    adk_element e;
    unsigned shown = 0, left_out = 0;
    adk_gsb_open(&r, b, c->len[p]);
    fprintf(t->to, "  %s of %zu bytes %s: count %" PRIu32 "\n", PIECE_NAME[p], c->len[p], when, r.count);
    if (r.count > 0)
        fprintf(t->to, "    %5s %6s  %-26s %5s  value\n", "index", "byte", "ID and name", "size");
    while (adk_gsb_next(&r, &e)) {
        bool differs = s == LIBRARY && memcmp(b + e.offset, memory[OTHER][p] + e.offset, 4 + (size_t)e.size) != 0;
        const char *remark = remark_on(t, p, &e, differs);
        if (shown >= t->most && (*remark == '\0' || shown >= 2 * t->most)) {
            left_out++;
            continue;
        }
        print_element(t->to, &e, e.size, remark);
        shown++;
        if (differs)
            print_theirs(t->to, c, p, &e, t->other);
    }
    if (left_out > 0)
        fprintf(t->to, "    .. and %u elements more\n", left_out);
    print_walk_end(t->to, &r);
}

/* ---- A vendor's output that was judged ---- */

/* Our value is that of the output that the library wrote; an element that is none of the exit's has none there. */
static void print_our_value(FILE *to, const struct call *c, unsigned id)
{
    adk_found f = adk_lookup(memory[LIBRARY][OUTPUT], c->len[OUTPUT], (uint16_t)id);
    if (f.r3 != ADK_OK)
        return;
    fprintf(to, ", ours is ");
    for (uint64_t i = 0; i < f.len; i++)
        fprintf(to, "%02X", memory[LIBRARY][OUTPUT][f.at + i]);
}

/* 20 is no answer of a call, so adk_answer_name has no name for it. */
static const char *judged_name(uint64_t r3)
{
    return r3 == ADK_MISSING_ELEMENT ? "missing element" : adk_answer_name(r3);
}

void print_judged(FILE *to, const struct call *c, const adk_answer *output)
{
    char name[ADK_NAME_SIZE];
    const uint8_t *bytes = memory[OTHER][OUTPUT];
    bool placed = tells_element(output), missing = output->r3 == ADK_MISSING_ELEMENT;
    fprintf(to, "  output: r3 %" PRIu64 " (%s)", output->r3, judged_name(output->r3));
    if (placed)
        fprintf(to, ": index %" PRIu64 ", byte %" PRIu64, output->r4, output->r5);
    if (missing || (placed && output->r5 + 2 <= c->len[OUTPUT])) {
        unsigned id = missing ? (unsigned)output->r4 : (unsigned)adk_read_be(bytes + output->r5, 2);
        fprintf(to, "%s 0x%04X %s", missing ? ":" : ", ID", id, adk_element_name((uint16_t)id, name));
        print_our_value(to, c, id);
    }
    fprintf(to, "\n");
}

/* ---- The form of a vCPU that is handed over ---- */

static void print_value(FILE *to, const uint8_t *form, size_t len, unsigned element)
{
    const uint8_t *value = value_in(form, len, element);
    if (value == NULL)
        fprintf(to, is_present(form, element) ? "cut off" : "absent");
    for (unsigned i = 0; value != NULL && i < thread_size(element); i++)
        fprintf(to, "%02X", value[i]);
}

/* What the bytes of one side say as a form, and what is wrong with it. */
static void print_form(FILE *to, const struct call *c, enum side s, const char *who)
{
    const uint8_t *b = memory[s][BUFFER];
    size_t len = c->len[BUFFER];
    if (len < ADK_FORM_MIN) {
        fprintf(to, "    %s too short for a form\n", who);
        return;
    }
    struct form f = read_form(b);
    unsigned wrong = wrong_parts(b, len, (unsigned)c->n[2]);
    fprintf(to, "    %s version %u, vCPU id %u, %u of %d present, form of %zu bytes", who, f.version, f.vcpu, f.present,
            THREAD_ELEMENTS, f.len);
    for (unsigned p = 0; p < PARTS; p++)
        if (wrong & A(p))
            fprintf(to, "%s %s", wrong & (A(p) - 1) ? "," : "; wrong:", PART_NAME[p]);
    fprintf(to, "\n");
}

/* The first element in which the forms of both sides differ. */
static void print_first_differing(const struct telling *t)
{
    const uint8_t *ours = memory[LIBRARY][BUFFER], *theirs = memory[OTHER][BUFFER];
    size_t len = t->call->len[BUFFER];
    char name[ADK_NAME_SIZE];
    for (unsigned e = 0; len >= ADK_FORM_MIN && e < THREAD_ELEMENTS; e++) {
        const uint8_t *a = value_in(ours, len, e), *b = value_in(theirs, len, e);
        bool same = a == NULL || b == NULL ? a == b : memcmp(a, b, thread_size(e)) == 0;
        if (same && is_present(ours, e) == is_present(theirs, e))
            continue;
        fprintf(t->to, "    first element that differs: 0x%04X %s, library ", thread_id(e),
                adk_element_name((uint16_t)thread_id(e), name));
        print_value(t->to, ours, len, e);
        fprintf(t->to, ", %s ", t->other);
        print_value(t->to, theirs, len, e);
        fprintf(t->to, "\n");
        return;
    }
    fprintf(t->to, "    the same elements with the same values\n");
}

/* Of one that is given back the bytes before the call; of one that is taken what each side made of them. */
static void print_handed_over(const struct telling *t)
{
    const struct call *c = t->call;
    bool ours = t->ours->r3 == ADK_OK, theirs = t->theirs != NULL && t->theirs->r3 == ADK_OK;
    char other[32];
    snprintf(other, sizeof other, "%s:", t->other);
    fprintf(t->to, "  buffer of %zu bytes\n", c->len[BUFFER]);
    if (c->kind->hand == GIVING) {
        print_form(t->to, c, BEFORE, "given:");
        return;
    }
    if (ours)
        print_form(t->to, c, LIBRARY, "library:");
    if (theirs)
        print_form(t->to, c, OTHER, other);
    if (ours && theirs)
        print_first_differing(t);
}

/* ---- All that was lent ---- */

static void print_buffer(const struct telling *t, enum piece p)
{
    const struct call *c = t->call;
    if (p == OUTPUT && t->output != NULL) {
        print_elements(t, p, OTHER, "after the vendor's call");
        return;
    }
    if (p == OUTPUT)
        fprintf(t->to, "  output of %zu bytes\n", c->len[p]);
    else
        print_elements(t, p, BEFORE, "before the call");
    if (t->theirs != NULL && (!same_bytes(p, LIBRARY, BEFORE, c->len[p]) || !same_bytes(p, OTHER, BEFORE, c->len[p])))
        print_elements(t, p, LIBRARY, "after the call");
}

void print_lent(const struct telling *t, size_t store_bytes)
{
    const struct call *c = t->call;
    for (int p = 0; p < PIECES; p++) {
        if (c->kind->use[p] == NOT_LENT)
            continue;
        if (is_store(p))
            print_piece(t->to, c, p, store_bytes);
        else if (c->kind->hand != NO_HAND)
            print_handed_over(t);
        else
            print_buffer(t, p);
    }
}

bool some_call_gives(int answer)
{
    for (size_t k = 0; k < KIND_COUNT; k++)
        if (KINDS[k].answers & A(answer))
            return true;
    return false;
}

void print_tally(FILE *to, const uint64_t tally[KIND_COUNT][ANSWERS], struct manner manner)
{
    fprintf(to, "%-18s", "answer");
    for (int a = 0; a < ANSWERS; a++)
        if (some_call_gives(a))
            fprintf(to, "%8d", a);
    fprintf(to, "\n");
    for (size_t k = 0; k < KIND_COUNT; k++) {
        if (!is_made(&KINDS[k], manner))
            continue;
        fprintf(to, "%-18s", KINDS[k].name);
        for (int a = 0; a < ANSWERS; a++)
            if (can_answer(&KINDS[k], a, manner))
                fprintf(to, "%8" PRIu64, tally[k][a]);
            else if (some_call_gives(a))
                fprintf(to, "%8s", "-");
        fprintf(to, "\n");
    }
}
