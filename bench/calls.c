/*
 * calls.c: makes the calls that a text file lists, on the library and on the model, and holds both to what it expects.
 *
 *     make target/bench/calls
 *     calls FILE...
 *
 * A line is a statement; one that begins with a space goes on with the line before, and # begins a comment.
 *
 *     case TEXT                             begins a case, with a fresh small store
 *     store N                               goes on with N bytes of zeros as the store; 119,924 are a large one
 *     lend N                                goes on with the first N of these bytes as the store, as they are
 *     convert N = r3                        converts the store into N bytes that are 0xEE before, and, where that is
 *                                           accepted, goes on with these as the store
 *     NAME numbers buffers = r3 r4 r5       a call: its name without adk_, then, each in the order of adderknot.h, its
 *                                           numbers and the buffers lent. r4 and r5 are 0 where they are left out
 *     NAME numbers buffers = r3 r4 r5 [..]  the same, where the call writes a buffer: what that buffer holds afterwards.
 *                                           A call by its number has the name call, or tally where it goes through the
 *                                           tally, and writes what its kind writes
 *     create_vcpus GUEST N                  creates vCPUs 0 to N - 1 of the guest, each accepted
 *     store_is AT [..]                      the store holds these bytes from byte AT
 *     store_put AT [..]                     puts bytes there
 *     slot_is SLOT AT [..]                  the values of a slot do
 *     slot_put SLOT AT [..]                 puts bytes there
 *     records N                             goes on with N summary records lent; at first as many as the store asks for
 *     record_is SLOT runs elements refusals exit_reason
 *                                           the record of a slot holds these numbers; at first a new vCPU's
 *     record_put SLOT runs elements refusals exit_reason
 *                                           puts them there
 *
 * A number is decimal or begins with 0x. Bytes stand in brackets, in hexadecimal; NxHH is N times the byte HH. Unless
 * the text says otherwise a call must leave every buffer as it was, and a refused one the store too; all summary
 * records of both sides must be the same. A line 'passed calls TEXT' or 'failed calls TEXT' is printed for each case.
 */
#include "l0.h"
#include "model.h"
#include "store.h"

#include <ctype.h>
#include <stdio.h>
#include <stdlib.h>
#include <string.h>

#define COUNT(a) (sizeof(a) / sizeof((a)[0]))

enum { NUMBERS = 5, PIECES = 3, BYTES_MAX = ADK_BUFFER_MAX + 1, TEXT_MAX = 4096, STORE_MAX = 2 * ADK_LARGE_STORE_SIZE };
enum { RECORDS_MAX = 2 * ADK_LARGE_SLOTS };

struct bytes {
    size_t n;
    uint8_t b[BYTES_MAX];
};

/* A statement as it was read. The numbers and bytes behind '=' are apart. */
struct statement {
    char name[32];
    uint64_t number[NUMBERS], answer[3];
    unsigned numbers, answers, pieces, afters;
    struct bytes piece[PIECES], after;
};

/* ---- The two sides ---- */

struct side {
    const char *name;
    struct l0 on;
    __typeof__(adk_judge_output) *judge_output;
    __typeof__(adk_call) *call;
    __typeof__(adk_tally) *tally;
    __typeof__(adk_write_record) *write_record;
    uint8_t store[STORE_MAX], target[STORE_MAX];
    adk_summary records[RECORDS_MAX];
    struct bytes piece[PIECES];
};

/* How many bytes are the store, and how many records are lent, on both sides. */
static size_t store_len, record_count;

static struct side sides[] = {
    { .name = "library", .on = L0_LIBRARY, .judge_output = adk_judge_output, .call = adk_call, .tally = adk_tally,
      .write_record = adk_write_record },
    { .name = "model", .on = L0_MODEL, .judge_output = mdl_judge_output, .call = mdl_call, .tally = mdl_tally,
      .write_record = mdl_write_record },
};

typedef adk_answer make_on(struct side *s, const uint64_t *n);

/* One call on a side, by an entry of it. */
#define MAKE_BY(entry, name, ...)                                    \
    static adk_answer make_##name(struct side *s, const uint64_t *n) \
    {                                                                \
        (void)n;                                                     \
        return s->entry(__VA_ARGS__);                                \
    }

#define MAKE(name, ...) MAKE_BY(on.name, name, __VA_ARGS__)

#define STORE s->store, store_len
#define PIECE(i) s->piece[i].b, s->piece[i].n

MAKE(fresh_store, STORE)
MAKE(get_capabilities, STORE, n[0])
MAKE(set_capabilities, STORE, n[0], n[1])
MAKE(create_guest, STORE, n[0], n[1])
MAKE(create_vcpu, STORE, n[0], n[1], n[2])
MAKE(get_state, STORE, n[0], n[1], n[2], PIECE(0))
MAKE(set_state, STORE, n[0], n[1], n[2], PIECE(0))
MAKE(run_vcpu, STORE, n[0], n[1], n[2], PIECE(0), PIECE(1), PIECE(2), n[3])
MAKE(delete_guest, STORE, n[0], n[1])
MAKE(guest_clock, STORE, n[0], n[1])
MAKE_BY(judge_output, judge_output, STORE, n[0], n[1], n[2], PIECE(0))
MAKE_BY(call, call, STORE, n[0], n[1], n[2], n[3], n[4], PIECE(0), PIECE(1), PIECE(2))
MAKE_BY(tally, tally, s->records, record_count, STORE, n[0], n[1], n[2], n[3], n[4], PIECE(0), PIECE(1), PIECE(2))
MAKE_BY(write_record, write_record, PIECE(0), n[0], n[1], n[2], n[3], n[4], PIECE(1), PIECE(2))

enum { NONE = PIECES, BY_KIND };

#define ON(name) #name, make_##name

static const struct kind {
    const char *name;
    make_on *make;
    unsigned numbers, pieces, written; /* written: the piece that the call may write, NONE, or that of its kind */
} KINDS[] = {
    { ON(fresh_store), 0, 0, NONE },
    { ON(get_capabilities), 1, 0, NONE },
    { ON(set_capabilities), 2, 0, NONE },
    { ON(create_guest), 2, 0, NONE },
    { ON(create_vcpu), 3, 0, NONE },
    { ON(get_state), 3, 1, 0 },
    { ON(set_state), 3, 1, NONE },
    { ON(run_vcpu), 4, 3, 1 },
    { ON(delete_guest), 2, 0, NONE },
    { ON(guest_clock), 2, 0, NONE },
    { ON(judge_output), 3, 1, NONE },
    { ON(call), 5, 3, BY_KIND },
    { ON(tally), 5, 3, BY_KIND },
    { ON(write_record), 5, 3, 0 },
};

/* The piece that is written, or NONE. By its number a get state writes its data, and a run its output. */
static unsigned written_piece(const struct kind *k, const struct statement *t)
{
    if (k->written != BY_KIND)
        return k->written;
    return t->number[0] == ADK_KIND_GET_STATE ? 0 : t->number[0] == ADK_KIND_RUN_VCPU ? 1 : NONE;
}

/* ---- Statements carried out; each says whether it holds ---- */

static bool same_bytes(const struct bytes *a, const struct bytes *b)
{
    return a->n == b->n && memcmp(a->b, b->b, a->n) == 0;
}

static bool is_expected(const struct side *s, const adk_answer *a, const struct statement *t)
{
    if (a->r3 == t->answer[0] && a->r4 == t->answer[1] && a->r5 == t->answer[2])
        return true;
    printf("  %s answers %llu %llu %llu\n", s->name, (unsigned long long)a->r3, (unsigned long long)a->r4,
           (unsigned long long)a->r5);
    return false;
}

static bool call_on(struct side *s, const struct kind *k, const struct statement *t)
{
    static uint8_t before[STORE_MAX];
    memcpy(before, s->store, sizeof before);
    memcpy(s->piece, t->piece, sizeof s->piece);
    adk_answer a = k->make(s, t->number);
    bool holds = is_expected(s, &a, t);
    if (a.r3 != 0 && memcmp(before, s->store, sizeof before) != 0) {
        printf("  %s refuses and changes the store\n", s->name);
        holds = false;
    }
    for (unsigned i = 0; i < k->pieces; i++)
        if (!same_bytes(&s->piece[i], i == written_piece(k, t) && t->afters != 0 ? &t->after : &t->piece[i])) {
            printf("  %s leaves other bytes in buffer %u\n", s->name, i);
            holds = false;
        }
    return holds;
}

static bool same_stores(void)
{
    if (memcmp(sides[0].store, sides[1].store, STORE_MAX) == 0 &&
        memcmp(sides[0].records, sides[1].records, sizeof sides[0].records) == 0)
        return true;
    printf("  library and model leave different stores or records\n");
    return false;
}

static bool call(const struct kind *k, const struct statement *t)
{
    bool holds = true;
    if (t->numbers != k->numbers || t->pieces != k->pieces || t->answers == 0)
        return false;
    if (t->afters != 0 && written_piece(k, t) == NONE)
        return false;
    for (size_t i = 0; i < COUNT(sides); i++)
        holds = call_on(&sides[i], k, t) && holds;
    return same_stores() && holds;
}

/* So many bytes are the store, and so many records are lent with it. */
static bool lend(uint64_t n)
{
    store_len = n <= STORE_MAX ? n : 0;
    layout = &LAYOUTS[n == ADK_LARGE_STORE_SIZE ? LARGE : SMALL];
    record_count = layout->slots;
    return n <= STORE_MAX;
}

static bool lend_records(uint64_t n)
{
    record_count = n <= RECORDS_MAX ? n : 0;
    return n <= RECORDS_MAX;
}

/* A store of zeros, and records of new vCPUs. */
static bool begin_store(uint64_t n)
{
    static const adk_summary new = ADK_NEW_SUMMARY;
    for (size_t i = 0; i < COUNT(sides); i++) {
        memset(sides[i].store, 0, STORE_MAX);
        for (size_t slot = 0; slot < RECORDS_MAX; slot++)
            sides[i].records[slot] = new;
    }
    return lend(n);
}

/* The record of a slot is looked at or, if put, written. */
static bool record(const struct statement *t, bool put)
{
    const uint64_t *n = t->number;
    adk_summary told = { (uint32_t)n[1], (uint32_t)n[2], (uint32_t)n[3], (uint32_t)n[4] };
    bool holds = t->pieces == 0 && t->answers == 0 && n[0] < RECORDS_MAX;
    for (size_t i = 0; holds && i < COUNT(sides); i++) {
        adk_summary *r = &sides[i].records[n[0]];
        if (put)
            *r = told;
        holds = memcmp(r, &told, sizeof told) == 0;
        if (!holds)
            printf("  %s has %u %u %u %u in the record\n", sides[i].name, r->runs, r->elements, r->refusals,
                   r->exit_reason);
    }
    return holds;
}

static bool convert_on(struct side *s, const struct statement *t, size_t n)
{
    static uint8_t before[STORE_MAX];
    memcpy(before, s->store, sizeof before);
    memset(s->target, 0xEE, sizeof s->target);
    adk_answer a = s->on.convert(s->store, store_len, s->target, n);
    size_t written = a.r3 == 0 ? n : 0;
    bool holds = is_expected(s, &a, t) && memcmp(before, s->store, sizeof before) == 0;
    for (size_t i = written; i < sizeof s->target; i++)
        holds = holds && s->target[i] == 0xEE;
    memcpy(s->store, s->target, written);
    return holds;
}

static bool convert(const struct statement *t)
{
    bool holds = t->number[0] <= STORE_MAX && t->answers != 0;
    for (size_t i = 0; holds && i < COUNT(sides); i++)
        holds = convert_on(&sides[i], t, t->number[0]);
    if (holds && t->answer[0] == 0)
        lend(t->number[0]);
    return holds && same_stores();
}

/* The bytes from a place of the store are looked at or, if put, written. */
static bool store_bytes(const struct statement *t, uint64_t at, bool put)
{
    const struct bytes *bytes = &t->piece[0];
    bool holds = t->pieces == 1 && t->answers == 0 && at <= store_len && bytes->n <= store_len - at;
    for (size_t i = 0; holds && i < COUNT(sides); i++) {
        if (put)
            memcpy(sides[i].store + at, bytes->b, bytes->n);
        holds = memcmp(sides[i].store + at, bytes->b, bytes->n) == 0;
    }
    return holds;
}

static const struct kind *kind_of(const char *name)
{
    for (size_t i = 0; i < COUNT(KINDS); i++)
        if (strcmp(name, KINDS[i].name) == 0)
            return &KINDS[i];
    return NULL;
}

static bool create_vcpus(uint64_t guest, uint64_t n)
{
    static struct statement one;
    bool holds = true;
    for (uint64_t vcpu = 0; holds && vcpu < n; vcpu++) {
        one = (struct statement){ .numbers = 3, .number = { 0, guest, vcpu }, .answers = 1 };
        holds = call(kind_of("create_vcpu"), &one);
    }
    return holds;
}

static bool carry_out(const struct statement *t)
{
    const struct kind *k = kind_of(t->name);
    if (k != NULL)
        return call(k, t);
    if (strcmp(t->name, "convert") == 0 && t->numbers == 1)
        return convert(t);
    if (strcmp(t->name, "create_vcpus") == 0 && t->numbers == 2)
        return create_vcpus(t->number[0], t->number[1]);
    if (strcmp(t->name, "store") == 0 && t->numbers == 1)
        return begin_store(t->number[0]);
    if (strcmp(t->name, "lend") == 0 && t->numbers == 1)
        return lend(t->number[0]);
    if (strcmp(t->name, "records") == 0 && t->numbers == 1)
        return lend_records(t->number[0]);
    bool put = strcmp(t->name, "record_put") == 0;
    if ((put || strcmp(t->name, "record_is") == 0) && t->numbers == 5)
        return record(t, put);
    put = strcmp(t->name, "store_put") == 0;
    if ((put || strcmp(t->name, "store_is") == 0) && t->numbers == 1)
        return store_bytes(t, t->number[0], put);
    put = strcmp(t->name, "slot_put") == 0;
    if ((put || strcmp(t->name, "slot_is") == 0) && t->numbers == 2 && t->number[0] < layout->slots)
        return store_bytes(t, slot_at((unsigned)t->number[0]) + t->number[1], put);
    return false;
}

/* ---- Reading ---- */

/* Each reader takes the text where its part begins and gives back where it ends, or NULL if it cannot be read. */

static const char *skip_space(const char *p)
{
    while (p != NULL && isspace((unsigned char)*p))
        p++;
    return p;
}

static const char *read_number(const char *p, uint64_t *numbers, unsigned *n, unsigned room)
{
    char *end;
    if (*n == room || !isdigit((unsigned char)*p))
        return NULL;
    numbers[(*n)++] = strtoull(p, &end, 0);
    return end;
}

/* A byte, or N times one. */
static const char *read_byte(const char *p, struct bytes *to)
{
    unsigned long times = 1;
    unsigned byte;
    size_t digits = strspn(p, "0123456789");
    if (digits > 0 && p[digits] == 'x') {
        times = strtoul(p, NULL, 10);
        p += digits + 1;
    }
    if (!isxdigit((unsigned char)p[0]) || !isxdigit((unsigned char)p[1]) || times > BYTES_MAX - to->n)
        return NULL;
    sscanf(p, "%2x", &byte);
    memset(to->b + to->n, (int)byte, times);
    to->n += times;
    return p + 2;
}

/* The bytes between brackets. */
static const char *read_bytes(const char *p, struct bytes *bytes, unsigned *n, unsigned room)
{
    if (*n == room)
        return NULL;
    struct bytes *to = &bytes[(*n)++];
    for (p = skip_space(p + 1); p != NULL && *p != ']'; p = skip_space(p))
        p = read_byte(p, to);
    return p == NULL ? NULL : p + 1;
}

static bool read_statement(const char *p, struct statement *t)
{
    size_t n = strcspn(p, " ");
    bool expected = false;
    memset(t, 0, sizeof *t);
    if (n >= sizeof t->name)
        return false;
    memcpy(t->name, p, n);
    for (p = skip_space(p + n); p != NULL && *p != '\0'; p = skip_space(p))
        if (*p == '=' && !expected) {
            expected = true;
            p++;
        } else if (*p == '[') {
            p = expected ? read_bytes(p, &t->after, &t->afters, 1) : read_bytes(p, t->piece, &t->pieces, PIECES);
        } else {
            p = expected ? read_number(p, t->answer, &t->answers, COUNT(t->answer))
                         : read_number(p, t->number, &t->numbers, NUMBERS);
        }
    return p != NULL;
}

/* ---- Cases ---- */

struct play {
    char title[TEXT_MAX]; /* of the case; empty between cases */
    bool failed;          /* the case has: the rest of it is skipped */
    unsigned passes, failures;
};

static void end_case(struct play *play)
{
    if (play->title[0] == '\0' && !play->failed)
        return;
    printf("%s calls %s\n", play->failed ? "failed" : "passed", play->title);
    *(play->failed ? &play->failures : &play->passes) += 1;
    play->title[0] = '\0';
    play->failed = false;
}

static void begin_case(struct play *play, const char *title)
{
    end_case(play);
    snprintf(play->title, sizeof play->title, "%s", title);
    begin_store(ADK_STORE_SIZE);
}

/* A whole statement, its lines joined. Outside a case none holds. */
static void take_statement(struct play *play, const char *text, const char *file, unsigned line)
{
    static struct statement t;
    if (strncmp(text, "case ", 5) == 0) {
        begin_case(play, text + 5);
    } else if (text[0] != '\0' && !play->failed) {
        play->failed = play->title[0] == '\0' || !read_statement(text, &t) || !carry_out(&t);
        if (play->failed)
            printf("  %s:%u does not hold: %s\n", file, line, text);
    }
}

/* Reads a line without its comment and the space behind it; false at the end. */
static bool read_line(FILE *f, char *line)
{
    if (fgets(line, TEXT_MAX, f) == NULL)
        return false;
    line[strcspn(line, "#\n")] = '\0';
    for (size_t n = strlen(line); n > 0 && line[n - 1] == ' '; n--)
        line[n - 1] = '\0';
    return true;
}

static bool play_file(struct play *play, const char *file)
{
    static char line[TEXT_MAX], text[TEXT_MAX];
    unsigned number = 0, first = 0;
    FILE *f = fopen(file, "r");
    if (f == NULL)
        return false;
    text[0] = '\0';
    while (read_line(f, line)) {
        number++;
        if (line[0] != ' ') {
            take_statement(play, text, file, first);
            text[0] = '\0';
            first = number;
        }
        strncat(text, line, sizeof text - 1 - strlen(text));
    }
    take_statement(play, text, file, first);
    end_case(play);
    fclose(f);
    return true;
}

int main(int argc, char **argv)
{
    static struct play play;
    for (int i = 1; i < argc; i++)
        if (!play_file(&play, argv[i])) {
            fprintf(stderr, "calls: cannot read %s\n", argv[i]);
            return 2;
        }
    return play.failures == 0 && play.passes > 0 ? 0 : 1;
}
