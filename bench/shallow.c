/*
 * shallow.c: makes calls of the library on a stack of 512 bytes with a page behind it that may not be touched, and
 * compares each with the same call on an ordinary stack.
 *
 *     make target/bench/shallow
 *     shallow [--calls N]      the deepest cases of each entry, and nights of calls, 100,000 if not told, of each size
 *     shallow --memset         how deep the C library's memset goes, its return address not counted
 *
 * The deepest cases (deep.h) are made twice: with the longest buffers; and with shorter ones step by step, so that what
 * is reserved and never written counts (depth.h). Those of the eight calls are made by their number too, and through the
 * tally. Each entry must be seen to go as deep as bench/stack.sh computes from its machine code. So it is run in the
 * repository's folder. Lines 'passed shallow ..' or 'failed shallow ..' say what was established. A call that goes deeper
 * than the stack ends the program by a signal; that it does is tried first.
 */
#define _GNU_SOURCE
#include "chance.h"
#include "deep.h"
#include "depth.h"
#include "fields.h"
#include "numbered.h"
#include "output.h"
#include "pairs.h"
#include "summaries.h"

#include <inttypes.h>
#include <stdio.h>
#include <stdlib.h>
#include <string.h>
#include <sys/wait.h>
#include <unistd.h>

/* ---- The entries on the shallow stack ---- */

/* What the tally takes is more than 512 bytes, as the compiler of today makes it (docs/PORT.md). */
enum { TALLY_DEPTH = 640 };

/* What was seen of each entry; those without a name are not used yet. */
static struct seen {
    const char *name;
    unsigned deepest, computed, accepted, refused, wrong;
} seen[20];

static struct seen *last_seen; /* the entry that was called last */

static struct seen *seen_of(const char *name)
{
    struct seen *s = seen;
    while (s->name != NULL && strcmp(s->name, name) != 0)
        s++;
    return s;
}

static void note(const char *name, unsigned depth)
{
    last_seen = seen_of(name);
    last_seen->name = name;
    if (depth > last_seen->deepest)
        last_seen->deepest = depth;
}

#define WORD(x) ((uint64_t)(x))
#define AT(p) WORD((uintptr_t)(p))

/* The body of an entry whose answer is of a type; the words are the arguments. */
#define SHALLOW(type, entry, ...)                                                    \
    {                                                                                \
        type answer;                                                                 \
        const uint64_t words[ARGUMENTS] = { AT(&answer), __VA_ARGS__ };                  \
        note(#entry, call_shallow((void (*)(void))adk_##entry, words));              \
        return answer;                                                               \
    }

static adk_answer on_fresh_store(uint8_t *s, size_t n)
    SHALLOW(adk_answer, fresh_store, AT(s), n)

static adk_answer on_get_capabilities(const uint8_t *s, size_t n, uint64_t flags)
    SHALLOW(adk_answer, get_capabilities, AT(s), n, flags)

static adk_answer on_set_capabilities(uint8_t *s, size_t n, uint64_t flags, uint64_t bitmap)
    SHALLOW(adk_answer, set_capabilities, AT(s), n, flags, bitmap)

static adk_answer on_create_guest(uint8_t *s, size_t n, uint64_t flags, uint64_t token)
    SHALLOW(adk_answer, create_guest, AT(s), n, flags, token)

static adk_answer on_create_vcpu(uint8_t *s, size_t n, uint64_t flags, uint64_t guest, uint64_t vcpu)
    SHALLOW(adk_answer, create_vcpu, AT(s), n, flags, guest, vcpu)

static adk_answer on_get_state(uint8_t *s, size_t n, uint64_t flags, uint64_t guest, uint64_t vcpu, uint8_t *b,
                               size_t len)
    SHALLOW(adk_answer, get_state, AT(s), n, flags, guest, vcpu, AT(b), len)

static adk_answer on_set_state(uint8_t *s, size_t n, uint64_t flags, uint64_t guest, uint64_t vcpu, const uint8_t *b,
                               size_t len)
    SHALLOW(adk_answer, set_state, AT(s), n, flags, guest, vcpu, AT(b), len)

static adk_answer on_run_vcpu(uint8_t *s, size_t n, uint64_t flags, uint64_t guest, uint64_t vcpu, const uint8_t *input,
                              size_t input_len, uint8_t *output, size_t output_len, const uint8_t *effect,
                              size_t effect_len, uint64_t exit_reason)
    SHALLOW(adk_answer, run_vcpu, AT(s), n, flags, guest, vcpu, AT(input), input_len, AT(output), output_len,
            AT(effect), effect_len, exit_reason)

static adk_answer on_delete_guest(uint8_t *s, size_t n, uint64_t flags, uint64_t guest)
    SHALLOW(adk_answer, delete_guest, AT(s), n, flags, guest)

static adk_answer on_guest_clock(const uint8_t *s, size_t n, uint64_t guest, uint64_t timebase)
    SHALLOW(adk_answer, guest_clock, AT(s), n, guest, timebase)

static adk_answer on_convert(const uint8_t *small, size_t n, uint8_t *large, size_t len)
    SHALLOW(adk_answer, convert, AT(small), n, AT(large), len)

static adk_found on_lookup(const uint8_t *b, size_t len, uint16_t id)
    SHALLOW(adk_found, lookup, AT(b), len, id)

static adk_answer on_join(const uint8_t *a, size_t a_len, const uint8_t *b, size_t b_len, uint8_t *result, size_t len)
    SHALLOW(adk_answer, join, AT(a), a_len, AT(b), b_len, AT(result), len)

static adk_answer on_judge_output(const uint8_t *s, size_t n, uint64_t guest, uint64_t vcpu, uint64_t exit_reason,
                                  const uint8_t *b, size_t len)
    SHALLOW(adk_answer, judge_output, AT(s), n, guest, vcpu, exit_reason, AT(b), len)

static adk_answer on_call(uint8_t *s, size_t n, uint64_t kind, uint64_t flags, uint64_t guest, uint64_t number,
                          uint64_t exit_reason, uint8_t *data, size_t data_len, uint8_t *output, size_t output_len,
                          const uint8_t *effect, size_t effect_len)
    SHALLOW(adk_answer, call, AT(s), n, kind, flags, guest, number, exit_reason, AT(data), data_len, AT(output),
            output_len, AT(effect), effect_len)

static adk_answer within_tally(adk_summary *records, size_t count, uint8_t *s, size_t n, uint64_t kind,
                               uint64_t flags, uint64_t guest, uint64_t number, uint64_t exit_reason, uint8_t *data,
                               size_t data_len, uint8_t *output, size_t output_len, const uint8_t *effect,
                               size_t effect_len)
    SHALLOW(adk_answer, tally, AT(records), count, AT(s), n, kind, flags, guest, number, exit_reason, AT(data),
            data_len, AT(output), output_len, AT(effect), effect_len)

/* The tally has more room. */
static adk_answer on_tally(adk_summary *records, size_t count, uint8_t *s, size_t n, uint64_t kind, uint64_t flags,
                           uint64_t guest, uint64_t number, uint64_t exit_reason, uint8_t *data, size_t data_len,
                           uint8_t *output, size_t output_len, const uint8_t *effect, size_t effect_len)
{
    set_room(TALLY_DEPTH);
    adk_answer answer = within_tally(records, count, s, n, kind, flags, guest, number, exit_reason, data, data_len, output,
                                     output_len, effect, effect_len);
    set_room(DEPTH);
    return answer;
}

static adk_answer on_write_record(uint8_t *bytes, size_t n, uint64_t kind, uint64_t flags, uint64_t guest,
                                  uint64_t number, uint64_t exit_reason, const uint8_t *data, size_t data_len,
                                  const uint8_t *effect, size_t effect_len)
    SHALLOW(adk_answer, write_record, AT(bytes), n, kind, flags, guest, number, exit_reason, AT(data), data_len,
            AT(effect), effect_len)

#define L0_SHALLOW_ENTRY(name) .name = on_##name,

static const struct l0 ordinary = L0_LIBRARY, shallow = { L0_ENTRIES(L0_SHALLOW_ENTRY) };

/* ---- What is tried ---- */

static int failures;

static void tell(bool good, const char *what)
{
    printf("%s shallow %s\n", good ? "passed" : "failed", what);
    failures += !good;
}

/* More than the stack has. Every byte is written. */
__attribute__((noinline)) static void go_deep(void)
{
    volatile uint8_t room[DEPTH];
    for (size_t i = sizeof room; i-- > 0;)
        room[i] = 0;
}

/* Whether the page behind the stack is met: a child that goes too deep ends by a signal. */
static bool too_deep_is_met(void)
{
    const uint64_t words[ARGUMENTS] = { 0 };
    int status = 0;
    pid_t child = fork();
    if (child == 0) {
        call_shallow(go_deep, words);
        _exit(0);
    }
    return child > 0 && waitpid(child, &status, 0) == child && WIFSIGNALED(status);
}

/* Reserves 200 bytes and writes none. */
__attribute__((naked)) static void reserve(void)
{
    __asm__("sub $200, %rsp\n\t"
            "add $200, %rsp\n\t"
            "ret");
}

static bool reserved_is_seen(void)
{
    const uint64_t words[ARGUMENTS] = { 0 };
    unsigned painted = call_shallow(reserve, words);
    step_calls(true);
    unsigned stepped = call_shallow(reserve, words);
    step_calls(false);
    return painted == 8 && stepped == 208;
}

/* A call on a stack. */
typedef adk_found make_on(const struct call *c);

static adk_found by_entry(const struct call *c)
{
    return c->kind->make(&ordinary, c, memory[LIBRARY]);
}

static adk_found entry_shallow(const struct call *c)
{
    return c->kind->make(&shallow, c, memory[OTHER]);
}

static adk_found numbered_shallow(const struct call *c)
{
    struct numbered n = by_number(c, c->n[0]);
    return make_numbered(on_call, &n, memory[OTHER]);
}

static adk_found tallied(const struct call *c)
{
    struct numbered n = by_number(c, c->n[0]);
    return make_tallied(adk_tally, &n, summaries_of(LIBRARY), records_asked(&n), memory[LIBRARY]);
}

static adk_found tallied_shallow(const struct call *c)
{
    struct numbered n = by_number(c, c->n[0]);
    return make_tallied(on_tally, &n, summaries_of(OTHER), records_asked(&n), memory[OTHER]);
}

/* How it is made on the ordinary stack, and on the shallow one: by its own entry, by its number, or through the tally. */
static const struct way {
    make_on *ordinary, *shallow;
} BY_ENTRY = { by_entry, entry_shallow }, BY_NUMBER = { by_entry, numbered_shallow },
  TALLIED = { tallied, tallied_shallow };

/* Whether both stacks left the same records, and none beside them changed. */
static bool same_records(void)
{
    size_t slot;
    enum number number;
    bool same = !summaries_differ(LIBRARY, OTHER, SLOTS_MOST, &slot, &number) && beside_intact(OTHER, SLOTS_MOST);
    settle_summaries(SLOTS_MOST);
    return same;
}

/* One call on both stacks; answer is that on the shallow one. What the ordinary one left is what the next call of a
   night starts from. */
static bool call_agrees(const struct call *c, const struct way *way, uint64_t *answer)
{
    adk_found a = way->ordinary(c), b = way->shallow(c);
    bool good = same_answer(&a, &b) && same_records();
    for (int p = 0; p < PIECES; p++) {
        size_t n = extent(c, p);
        if (c->kind->use[p] == NOT_LENT)
            continue;
        good &= same_bytes(p, LIBRARY, OTHER, n) && guards_intact(p, OTHER, n);
        memcpy(memory[BEFORE][p], memory[LIBRARY][p], n);
    }
    *answer = b.r3;
    return good;
}

static unsigned answered[KIND_COUNT]; /* the answers that each call gave, as bits */

/* Counts a case of the entry that was called last. */
static void count(uint64_t given, bool good)
{
    last_seen->accepted += given == ADK_OK;
    last_seen->refused += given != ADK_OK;
    last_seen->wrong += !good;
}

static void try_by(const struct call *c, const struct way *way, uint64_t answer, const char *what)
{
    uint64_t given;
    bool good = call_agrees(c, way, &given) && given == answer;
    answered[c->kind - KINDS] |= A(given);
    count(given, good);
    if (!good)
        printf("  %s, %s: answer %" PRIu64 ", not %" PRIu64 ", or other bytes\n", c->kind->name, what, given, answer);
}

static void try_deep(const struct call *c, uint64_t answer, const char *what)
{
    try_by(c, &BY_ENTRY, answer, what);
}

/* By its number; and before, by a kind that is none of the eight, which changes nothing. */
static void try_numbered(const struct call *c, uint64_t answer, const char *what)
{
    const adk_found refused = { .r3 = ADK_BAD_RECORD };
    struct numbered n = by_number(c, 0);
    if (n.kind == 0)
        return;
    n.kind += 8;
    adk_found f = make_numbered(on_call, &n, memory[OTHER]);
    count(f.r3, same_answer(&f, &refused) && numbered_holds(&n, c, &refused));
    try_by(c, &BY_NUMBER, answer, what);
}

/* With another number of records, and of another kind, which change nothing; and then as it is. */
static void try_tallied(const struct call *c, uint64_t answer, const char *what)
{
    const adk_found refused[] = { { .r3 = ADK_WRONG_RECORD_COUNT }, { .r3 = ADK_BAD_RECORD } };
    struct numbered n = by_number(c, 0);
    if (n.kind == 0)
        return;
    for (unsigned none = 0; none < COUNT(refused); none++) {
        size_t lent = records_asked(&n) - (none == 0);
        n.kind += none == 0 ? 0 : 8;
        adk_found f = make_tallied(on_tally, &n, summaries_of(OTHER), lent, memory[OTHER]);
        count(f.r3, same_answer(&f, &refused[none]) && numbered_holds(&n, c, &f) && same_records());
    }
    try_by(c, &TALLIED, answer, what);
}

/* Whether the deepest cases could be made on a store of this size, and gave each answer that there is. */
static bool cases_agree(enum size size, bool longest, try_case *try)
{
    bool all = each_case(size, longest, try);
    for (size_t k = 0; k < KIND_COUNT; k++) {
        bool made = try != try_deep ? record_kind(&KINDS[k]) != 0 : size == SMALL || !converts(&KINDS[k]);
        unsigned answers = made ? KINDS[k].answers : 0;
        if (answered[k] != answers)
            printf("  %s gave the answers 0x%X, not 0x%X\n", KINDS[k].name, answered[k], answers);
        all &= answered[k] == answers;
        answered[k] = 0;
    }
    return all;
}

static bool deepest_cases(enum size size, bool longest)
{
    bool all = cases_agree(size, longest, try_deep);
    all = cases_agree(size, longest, try_numbered) && all;
    return cases_agree(size, longest, try_tallied) && all;
}

static void try_join(const struct pair *p)
{
    adk_found wanted = plain(p->answer);
    adk_found a = plain(join_pair(adk_join, LIBRARY, p)), b = plain(join_pair(on_join, OTHER, p));
    bool good = same_answer(&a, &b) && same_answer(&b, &wanted) && same_pieces(p) && only_lent_changed(p);
    count(b.r3, good);
    if (!good)
        printf("  join, first %s, second %s: answer %" PRIu64 ", or other bytes\n", p->first, p->second, b.r3);
    share(RESULT, 0, p->len[RESULT]);
}

/* One of so many outputs is judged: a call on the shallow stack takes longer, and a stepped one longer still. */
static unsigned judged_every;

static void try_judged(const struct output *o)
{
    static unsigned number;
    if (++number % judged_every != 0)
        return;
    adk_found wanted = plain(o->answer), a = plain(judge_as_lent(adk_judge_output, LIBRARY, o));
    adk_found b = plain(judge_as_lent(on_judge_output, OTHER, o));
    bool good = same_answer(&a, &b) && same_answer(&b, &wanted) && changed_piece(o, number % 64 == 0) == NULL;
    count(b.r3, good);
    if (!good)
        printf("  judge_output, %s: answer %" PRIu64 ", or other bytes\n", SCENE_NAME[o->scene], b.r3);
}

static bool judge_outputs(enum size size, bool stepped)
{
    judged_every = stepped ? 211 : 7;
    if (!begin_outputs(size))
        return false;
    each_output(!stepped, try_judged);
    return true;
}

static void try_record(const struct fields *f)
{
    adk_found wanted = plain(f->answer), a = plain(write_fields(adk_write_record, LIBRARY, f));
    adk_found b = plain(write_fields(on_write_record, OTHER, f));
    size_t n = wanted.r3 == ADK_OK ? wanted.r4 : 0;
    bool good = same_answer(&a, &b) && same_answer(&b, &wanted) && rest_is_kept(OTHER, n) &&
                memcmp(written_by(LIBRARY), written_by(OTHER), n) == 0;
    count(b.r3, good);
    if (!good)
        printf("  write_record, %s, %zu bytes lent: answer %" PRIu64 ", or other bytes\n", f->what, f->room, b.r3);
    forget_written(n);
}

static bool stepped_cases(enum size size)
{
    step_calls(true);
    bool all = deepest_cases(size, false);
    step_calls(false);
    return all;
}

/* One of four calls goes by its number; in a night through the tally, all that have one go that way. */
static const struct way *way_of(const struct kind *k, uint64_t number, bool tallies)
{
    if (record_kind(k) == 0)
        return &BY_ENTRY;
    return tallies ? &TALLIED : number % 4 == 0 ? &BY_NUMBER : &BY_ENTRY;
}

static bool night_agrees(enum size size, uint64_t calls, bool tallies)
{
    seed_chance(SEED);
    begin_night((struct manner){ .large = size == LARGE });
    for (uint64_t i = 1; i <= calls; i++) {
        struct call c = next_call(i);
        uint64_t answer;
        if (!call_agrees(&c, way_of(c.kind, i, tallies), &answer)) {
            printf("  call %" PRIu64 ", %s\n", i, c.kind->name);
            return false;
        }
    }
    return true;
}

/* Lengths up to a large store's: the C library has another way for short, for long and for odd ones. */
static unsigned memset_depth(void)
{
    static uint8_t to[ADK_LARGE_STORE_SIZE];
    unsigned deepest = 0;
    for (size_t n = 0; n <= sizeof to; n += n < 1024 ? 1 : 997) {
        const uint64_t words[ARGUMENTS] = { AT(to), 0, n };
        unsigned depth = call_shallow((void (*)(void))memset, words);
        if (depth > deepest)
            deepest = depth;
    }
    return deepest - 8;
}

/* What bench/stack.sh says of each entry: lines of bytes and the chain of calls. */
static void read_computed(void)
{
    char command[128], line[256], name[64];
    unsigned bytes;
    snprintf(command, sizeof command, "bench/stack.sh target/staticlib/libadderknot.a %d memset=%u 'adk_tally<=%d'", DEPTH,
             memset_depth(), TALLY_DEPTH);
    FILE *said = popen(command, "r");
    while (said != NULL && fgets(line, sizeof line, said) != NULL)
        if (sscanf(line, " %u adk_%63s", &bytes, name) == 2)
            seen_of(name)->computed = bytes;
    if (said != NULL)
        pclose(said);
}

/* What no call reaches of what is computed. A conversion tests a small store; in the same function the test of a large one
   has a filter of 64 bytes and a word beside it. */
static unsigned out_of_reach(const char *name)
{
    return strcmp(name, "convert") == 0 ? 72 : 0;
}

/* Whether an entry was accepted and refused as it must be, and seen to go as deep as it can. */
static void tell_entry(const struct seen *s)
{
    char what[160];
    bool deep = s->deepest <= s->computed && s->deepest + out_of_reach(s->name) >= s->computed;
    bool good = s->wrong == 0 && s->accepted > 0 && s->refused > 0 && deep;
    snprintf(what, sizeof what, "adk_%s: %u cases accepted and %u refused as on an ordinary stack, %u of %u bytes seen",
             s->name, s->accepted, s->refused, s->deepest, s->computed);
    tell(good, what);
}

/* All that is tried on stores of one size. */
static void try_size(enum size size, uint64_t calls)
{
    const char *name = LAYOUTS[size].name;
    char what[96];
    snprintf(what, sizeof what, "every answer of every call, on a full %s store with the longest buffers", name);
    tell(deepest_cases(size, true), what);
    snprintf(what, sizeof what, "every answer of every call on a %s store, step by step", name);
    tell(stepped_cases(size), what);
    snprintf(what, sizeof what, "a night of calls of the %s store", name);
    tell(night_agrees(size, calls, false), what);
    snprintf(what, sizeof what, "a night of calls through the tally, of the %s store", name);
    tell(night_agrees(size, calls / 4, true), what);
}

int main(int argc, char **argv)
{
    uint64_t calls = argc == 3 && strcmp(argv[1], "--calls") == 0 ? strtoull(argv[2], NULL, 10) : 100000;
    if (!make_stack()) {
        perror("shallow");
        return 2;
    }
    if (argc == 2 && strcmp(argv[1], "--memset") == 0) {
        printf("%u\n", memset_depth());
        return 0;
    }
    seed_chance(SEED);
    make_memory();
    renew_summaries();
    tell(too_deep_is_met(), "a function of more than 512 bytes meets the page behind the stack");
    tell(reserved_is_seen(), "what a function reserves and does not write is seen step by step");
    for (enum size size = 0; size < SIZES; size++)
        try_size(size, calls);
    share_all();
    make_fields();
    for (int stepped = 0; stepped < 2; stepped++) {
        step_calls(stepped != 0);
        tell(judge_outputs(SMALL, stepped != 0) && judge_outputs(LARGE, stepped != 0),
             stepped ? "outputs judged, step by step" : "outputs judged, on full stores of both sizes");
        each_pair(stepped == 0, try_join);
        each_fields(stepped == 0, try_record);
    }
    step_calls(false);
    read_computed();
    for (size_t i = 0; seen[i].name != NULL; i++)
        tell_entry(&seen[i]);
    free_memory();
    return failures != 0;
}
