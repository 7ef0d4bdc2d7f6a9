/*
 * isolated.c: 02, L13, "One guest cannot tell what another does", tried on the library: two histories from fresh
 * stores, in which one guest's calls are the same and all others differ.
 *
 * Guest A is created with the same id in both, whatever was before. From then on a call naming A is made in both, and
 * any other in one of them; nobody deletes all guests while A lives. A create vCPU that only one store has room for is
 * not made. What is agreed is set at first, the same in both, and stays. Once A is deleted, or was followed for long
 * enough, another guest is A. Each history has a store of its own size.
 *
 *     same        get, set, run and clock calls on A, hand-overs too, had the same answers and buffers in both
 *     coverage    each of them was accepted where A's vCPU had different slots in the two; A had another's id; it was
 *                 created where one store had more room; both sizes met
 */
#include "chance.h"
#include "night.h"
#include "tell.h"

#include <inttypes.h>
#include <stdio.h>
#include <stdlib.h>
#include <string.h>

static const struct l0 library = L0_LIBRARY;

/* A history: the side whose buffers it is lent, and a store, which is its own. */
struct history {
    enum side side;
    const struct layout *layout;
    uint8_t store[ADK_LARGE_STORE_SIZE];
};

static struct history histories[2] = { { .side = LIBRARY }, { .side = OTHER } };

/* Guest A, 0 while there is none, and how many turns it is still followed. */
static uint64_t guest_a;
static unsigned turns;

/* What was met, by kind: accepted calls on A with its vCPU in two slots; calls compared. */
static uint64_t moved[KIND_COUNT], compared[KIND_COUNT];
static uint64_t calls_made, guests_followed, ids_again, room_in_one, sizes_mixed;
static bool id_used[ADK_LARGE_GUESTS + 1];

/* ---- A call by chance, as the store of a history suggests it. A fresh store is no call of a history. ---- */

static const struct manner manner = { .opaque = true, .no_conversion = true };

static struct call suggested(const struct history *h)
{
    static uint64_t number = 1;
    for (;;) {
        layout = h->layout;
        memcpy(memory[BEFORE][STORE], h->store, layout->size);
        struct call c = next_call(++number);
        if (!makes_fresh(c.kind))
            return c;
        begin_night(manner);
    }
}

/* What both histories meet next in the lent pieces but the store: what this one left. */
static void leave(const struct call *c, enum side s)
{
    for (int p = 0; p < PIECES; p++)
        if (c->kind->use[p] == WRITTEN && !is_store(p)) {
            memcpy(memory[BEFORE][p], memory[s][p], c->len[p]);
            share(p, 0, c->len[p]);
        }
}

static adk_found make(struct history *h, const struct call *c)
{
    struct call on = *c;
    uint8_t *lent[PIECES];
    memcpy(lent, memory[h->side], sizeof lent);
    lent[STORE] = h->store;
    on.len[STORE] = h->layout->size;
    calls_made++;
    return c->kind->make(&library, &on, lent);
}

static bool names_a(struct call *c)
{
    const uint64_t *guest = number_named(c, "guest");
    return guest_a != 0 && guest != NULL && *guest == guest_a;
}

static bool deletes_all(struct call *c)
{
    return is_delete(c->kind) && (*number_named(c, "flags") & ADK_BIT(0)) != 0;
}

/* ---- A call of one history ---- */

/* Any call that is no call of A. What is agreed stays as it is where a guest lives. */
static void alone(struct history *h)
{
    struct call c = suggested(h);
    bool stays = guest_a != 0 ? !deletes_all(&c) && !names_a(&c) : true;
    if (c.kind->use[STORE] == NOT_LENT || !stays || (sets_capabilities(c.kind) && !any_live(h->store)))
        return;
    make(h, &c);
    leave(&c, h->side);
}

/* ---- A call of both ---- */

static unsigned slot_in(const struct history *h, uint64_t vcpu)
{
    unsigned slot = 0;
    layout = h->layout;
    while (slot < layout->slots && (vcpu > 2047 || word_in(h->store, slot) != word_of(guest_a, (unsigned)vcpu)))
        slot++;
    return slot;
}

static bool same_buffers(const struct call *c)
{
    bool same = true;
    for (int p = 0; p < PIECES; p++)
        if (c->kind->use[p] != NOT_LENT && !is_store(p))
            same = same && same_bytes(p, LIBRARY, OTHER, c->len[p]);
    return same;
}

static void note(struct call *c, const adk_found *f)
{
    const uint64_t *vcpu = number_named(c, "vcpu");
    bool apart = vcpu == NULL || c->kind->wide || slot_in(&histories[0], *vcpu) != slot_in(&histories[1], *vcpu);
    compared[c->kind - KINDS]++;
    moved[c->kind - KINDS] += f->r3 == ADK_OK && apart;
}

static void fail(const struct call *c, const adk_found *a, const adk_found *b)
{
    const char *what = same_answer(a, b) ? "buffer" : "answer";
    printf("  guest %" PRIu64 ", %s differs in %s\n  ", guest_a, c->kind->name, what);
    print_call(stdout, c);
    print_answer(stdout, "first history", c, a);
    print_answer(stdout, "second history", c, b);
    printf("failed isolated same\n");
    exit(1);
}

static bool creates_vcpu(const struct kind *k)
{
    return record_kind(k) == ADK_KIND_CREATE_VCPU;
}

/* A create vCPU that only one store has room for is taken back: "succeed alike where they create vCPUs". */
static void create_alike(const struct call *c)
{
    static uint8_t kept[2][ADK_LARGE_STORE_SIZE];
    adk_found f[2];
    for (int i = 0; i < 2; i++)
        memcpy(kept[i], histories[i].store, histories[i].layout->size);
    for (int i = 0; i < 2; i++)
        f[i] = make(&histories[i], c);
    if (f[0].r3 == f[1].r3)
        return;
    room_in_one++;
    for (int i = 0; i < 2; i++)
        memcpy(histories[i].store, kept[i], histories[i].layout->size);
}

/* A is one of several guests: so several calls are suggested. It is not deleted each time that this is one of them. */
static void together(void)
{
    unsigned tries = 8;
    struct call c = suggested(&histories[below(2)]);
    while (!names_a(&c) && tries-- > 0)
        c = suggested(&histories[below(2)]);
    if (!names_a(&c) || deletes_all(&c) || (is_delete(c.kind) && !percent(20)))
        return;
    if (creates_vcpu(c.kind)) {
        create_alike(&c);
        return;
    }
    adk_found a = make(&histories[0], &c), b = make(&histories[1], &c);
    if (!same_answer(&a, &b) || !same_buffers(&c))
        fail(&c, &a, &b);
    leave(&c, LIBRARY);
    if (!is_delete(c.kind))
        note(&c, &a);
    else if (a.r3 == ADK_OK)
        guest_a = 0;
}

/* ---- Guest A ---- */

static uint64_t free_id(const struct history *h)
{
    uint64_t id = 1;
    layout = h->layout;
    while (id <= layout->guests && has_live(h->store, id))
        id++;
    return id <= layout->guests ? id : 0;
}

/* Where the lowest free id is the same in both, it is A's. */
static void create_a(void)
{
    uint64_t id = free_id(&histories[0]);
    if (id == 0 || id != free_id(&histories[1]))
        return;
    for (int i = 0; i < 2; i++) {
        adk_answer a = library.create_guest(histories[i].store, histories[i].layout->size, 0, ADK_TOKEN);
        if (a.r3 != ADK_OK || a.r4 != id) {
            printf("  r3 %" PRIu64 ", r4 %" PRIu64 " where guest %" PRIu64 " is free in both\n"
                   "  create_guest differs in answer\nfailed isolated same\n", a.r3, a.r4, id);
            exit(1);
        }
    }
    calls_made += 2;
    guest_a = id;
    turns = 1 + below(4000);
    guests_followed++;
    ids_again += id_used[id];
    id_used[id] = true;
}

/* ---- Two histories ---- */

static void begin_histories(void)
{
    static const uint64_t agreed[] = { 0, ADK_BIT(1), ADK_BIT(2), ADK_BIT(1) | ADK_BIT(2) };
    uint64_t bitmap = agreed[below(COUNT(agreed))];
    begin_night(manner);
    for (int i = 0; i < 2; i++) {
        histories[i].layout = &LAYOUTS[percent(50) ? SMALL : LARGE];
        library.fresh_store(histories[i].store, histories[i].layout->size);
        library.set_capabilities(histories[i].store, histories[i].layout->size, 0, bitmap);
    }
    sizes_mixed += histories[0].layout != histories[1].layout;
    memset(id_used, 0, sizeof id_used);
    guest_a = 0;
}

static void turn(void)
{
    unsigned which = below(4);
    if (guest_a != 0 && turns-- == 0)
        guest_a = 0;
    if (guest_a == 0 && percent(5))
        create_a();
    else if (guest_a != 0 && which >= 2)
        together();
    else
        alone(&histories[which % 2]);
}

/* Every kind of get, set, run and clock. */
static bool is_compared(const struct kind *k)
{
    unsigned kind = record_kind(k);
    return kind == ADK_KIND_GET_STATE || kind == ADK_KIND_SET_STATE || kind == ADK_KIND_RUN_VCPU || is_clock(k);
}

static bool all_met(void)
{
    bool all = ids_again > 0 && room_in_one > 0 && sizes_mixed > 0;
    if (!all)
        printf("  ids had again %" PRIu64 ", room in one store only %" PRIu64 ", two sizes %" PRIu64 "\n", ids_again,
               room_in_one, sizes_mixed);
    for (int k = 0; k < KIND_COUNT; k++)
        if (is_compared(&KINDS[k]) && moved[k] == 0) {
            printf("  %s never accepted with the vCPU in two slots\n", KINDS[k].name);
            all = false;
        }
    return all;
}

int main(int argc, char **argv)
{
    uint64_t calls = 200000, in_both = 0;
    if (!begin_run(argc, argv, "isolated", "two histories with one guest's calls in common", &calls))
        return 2;
    make_memory();
    while (calls_made < calls) {
        begin_histories();
        for (uint64_t end = calls_made + 20000; calls_made < end && calls_made < calls;)
            turn();
    }
    for (int k = 0; k < KIND_COUNT; k++)
        in_both += compared[k];
    printf("isolated: %" PRIu64 " guests followed, %" PRIu64 " of their calls compared\n", guests_followed, in_both);
    bool all = all_met();
    printf("passed isolated same\n%s isolated coverage\n", all ? "passed" : "failed");
    free_memory();
    return all ? 0 : 1;
}
