/* both.c: see both.h. The small store is the library's side of lent memory, the large one the other. */
#include "both.h"

#include "chance.h"
#include "tell.h"

#include <inttypes.h>
#include <stdio.h>
#include <string.h>

static const struct l0 library = L0_LIBRARY;

/* How many lists of calls there were, and how many ended by a 9. */
static uint64_t lists, full;

/* A call of a night whose store changes by calls only, made on the small store; what it left is what the next meets. */
static adk_found make_small(const struct call *c)
{
    adk_found f = c->kind->make(&library, c, memory[LIBRARY]);
    for (int p = 0; p < PIECES; p++)
        if (c->kind->use[p] == WRITTEN)
            memcpy(memory[BEFORE][p], memory[LIBRARY][p], c->len[p]);
    return f;
}

/* Value bytes are free, and any vCPU may be taken. */
static void stir_store(void)
{
    uint8_t *s = memory[BEFORE][STORE];
    any_bytes(s + layout->header, layout->size - layout->header);
    for (unsigned slot = 0; slot < layout->slots; slot++)
        put_mark(s, slot, is_used(slot) && percent(20));
    share_all();
}

static bool convert(uint8_t *to)
{
    return library.convert(memory[LIBRARY][STORE], layout->size, to, ADK_LARGE_STORE_SIZE).r3 == ADK_OK;
}

/* A well-formed small store, with guests and vCPUs or without, and its conversion. The first call of such a night would
   be a fresh store. */
static bool begin_list(uint64_t *number)
{
    unsigned before = percent(20) ? 0 : below(400);
    lists++;
    begin_night((struct manner){ .opaque = true });
    for (*number = 2; *number < 2 + before; ++*number) {
        struct call c = next_call(*number);
        make_small(&c);
    }
    stir_store();
    return convert(memory[OTHER][STORE]);
}

/* The conversion of what the small store is now is what the large one is. */
static bool still_converted(void)
{
    return convert(memory[LIBRARY][TARGET]) &&
           memcmp(memory[LIBRARY][TARGET], memory[OTHER][STORE], ADK_LARGE_STORE_SIZE) == 0;
}

static bool same_buffers(const struct call *c)
{
    bool same = true;
    for (int p = 0; p < PIECES; p++)
        if (c->kind->use[p] != NOT_LENT && !is_store(p))
            same = same && same_bytes(p, LIBRARY, OTHER, c->len[p]);
    return same;
}

/* One call on both stores. *goes_on: the list does, since the small one has room. */
static bool call_alike(const struct call *c, bool *goes_on)
{
    struct call on_large = *c;
    if (c->kind->use[STORE] != NOT_LENT)
        on_large.len[STORE] = ADK_LARGE_STORE_SIZE;
    adk_found small = make_small(c), large = c->kind->make(&library, &on_large, memory[OTHER]);
    *goes_on = small.r3 != ADK_NOT_ENOUGH_RESOURCES;
    if (!*goes_on || (same_answer(&small, &large) && same_buffers(c) && still_converted()))
        return true;
    printf("  a small store and its conversion differ: ");
    print_call(stdout, c);
    print_answer(stdout, "small", c, &small);
    print_answer(stdout, "large", c, &large);
    return false;
}

/* A list ends by a 9, by a fresh store, which is none of the calls, or at some length. */
static bool make_list(uint64_t *left)
{
    uint64_t number;
    bool goes_on = true;
    if (!begin_list(&number)) {
        printf("  a well-formed small store is not converted\n");
        return false;
    }
    for (unsigned most = 1 + below(2000); goes_on && most > 0 && *left > 0; most--, --*left) {
        struct call c = next_call(number++);
        if (c.kind == KINDS)
            return true;
        if (!call_alike(&c, &goes_on))
            return false;
    }
    full += !goes_on;
    return true;
}

bool same_on_both(uint64_t calls)
{
    while (calls > 0)
        if (!make_list(&calls))
            return false;
    printf("both: %" PRIu64 " lists of calls, %" PRIu64 " ended by a 9\n", lists, full);
    return full > 0;
}
