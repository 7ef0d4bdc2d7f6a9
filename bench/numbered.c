/* numbered.c: see numbered.h. */
#include "numbered.h"

#include "chance.h"

const uint64_t NO_KINDS[] = {
    0, 9, 10, 15, 16, 17, 24, 0x107, 0x10003, 0x100000005, 0x700000000, 0x1000000000000000, 0x8000000000000006,
    UINT64_MAX - 7, UINT64_MAX
};

/* The call's number of one of these names. */
static uint64_t first_named(const struct call *c, const char *const *names, uint64_t otherwise)
{
    struct call copy = *c;
    for (; *names != NULL; names++)
        if (number_named(&copy, *names) != NULL)
            return *number_named(&copy, *names);
    return otherwise;
}

struct numbered by_number(const struct call *c, uint64_t any)
{
    static const char *const guest[] = { "guest", NULL }, *const exit_reason[] = { "exit_reason", NULL },
                      *const third[] = { "vcpu", "token", "bitmap", NULL };
    struct numbered n = { .kind = record_kind(c->kind), .flags = c->n[0], .data = is_run(c->kind) ? INPUT : BUFFER };
    const enum piece lent[] = { n.data, OUTPUT, EFFECT };
    n.guest = first_named(c, guest, mixed(any + 1));
    n.number = first_named(c, third, mixed(any + 2));
    n.exit_reason = first_named(c, exit_reason, mixed(any + 3));
    n.len[STORE] = c->len[STORE];
    for (size_t i = 0; i < COUNT(lent); i++) {
        size_t unused = any % 4 == 0 ? 0 : mixed(any + 4 + i) % 300;
        n.len[lent[i]] = c->kind->use[lent[i]] == NOT_LENT ? unused : c->len[lent[i]];
    }
    return n;
}

adk_found make_numbered(call_entry *call, const struct numbered *n, uint8_t *const *m)
{
    return plain(call(m[STORE], n->len[STORE], n->kind, n->flags, n->guest, n->number, n->exit_reason, m[n->data],
                      n->len[n->data], m[OUTPUT], n->len[OUTPUT], m[EFFECT], n->len[EFFECT]));
}

adk_found make_tallied(tally_entry *tally, const struct numbered *n, adk_summary *records, size_t count,
                       uint8_t *const *m)
{
    return plain(tally(records, count, m[STORE], n->len[STORE], n->kind, n->flags, n->guest, n->number,
                       n->exit_reason, m[n->data], n->len[n->data], m[OUTPUT], n->len[OUTPUT], m[EFFECT],
                       n->len[EFFECT]));
}

size_t records_asked(const struct numbered *n)
{
    return n->len[STORE] == ADK_LARGE_STORE_SIZE ? ADK_LARGE_SLOTS : ADK_SLOTS;
}

bool numbered_holds(const struct numbered *n, const struct call *c, const adk_found *f)
{
    for (int p = 0; p < PIECES; p++) {
        size_t count = p == STORE ? extent(c, STORE) : n->len[p];
        if (broken(p, count, f->r3 == ADK_OK && c->kind->use[p] == WRITTEN) != NULL)
            return false;
    }
    return true;
}
