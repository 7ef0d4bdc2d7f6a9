/* history.c: see history.h. */
#include "history.h"

#include <string.h>

/* Of a vCPU since its creation. */
static struct account {
    bool created;
    uint64_t runs, elements, refusals, exit_reason;
} accounts[ADK_LARGE_GUESTS + 1][ADK_VCPU_MAX + 1];

struct content content_of(enum piece p)
{
    const uint8_t *b = memory[BEFORE][p], *element = b + 4;
    struct content h = { 0, 0, false };
    uint64_t last = ADK_GSID_NOP;
    for (uint64_t left = adk_read_be(b, 4); left > 0; left--, element = next_element(element)) {
        uint64_t id = adk_read_be(element, 2);
        h.twice |= id != ADK_GSID_NOP && id == last;
        h.elements += id != ADK_GSID_NOP;
        h.nops += id == ADK_GSID_NOP;
        last = id;
    }
    return h;
}

void begin_history(void)
{
    memset(accounts, 0, sizeof accounts);
}

/* An accepted call. */
static void note_accepted(const struct call *c)
{
    struct account *a = &accounts[c->n[1] & 63][c->n[2] & ADK_VCPU_MAX];
    switch (record_kind(c->kind)) {
    case ADK_KIND_CREATE_VCPU:
        *a = (struct account){ .created = true, .exit_reason = ADK_NO_EXIT };
        break;
    case ADK_KIND_SET_STATE:
        if (!c->kind->wide && c->kind->hand == NO_HAND)
            a->elements += content_of(BUFFER).elements;
        break;
    case ADK_KIND_RUN_VCPU:
        a->runs++;
        a->elements += content_of(INPUT).elements;
        a->exit_reason = c->n[3];
        break;
    case ADK_KIND_DELETE_GUEST:
        if (c->n[0] != 0)
            begin_history();
        else
            memset(accounts[c->n[1]], 0, sizeof accounts[0]);
        break;
    default:
        break;
    }
}

void note_history(const struct call *c, const adk_found *f)
{
    if (f->r3 == ADK_OK)
        note_accepted(c);
    else if (f->r3 >= ADK_INVALID_ELEMENT_ID && f->r3 <= ADK_INVALID_ELEMENT_VALUE && !c->kind->wide)
        accounts[c->n[1]][c->n[2]].refusals++;
}

static bool shows(uint32_t shown, uint64_t sum)
{
    return shown == (sum < UINT32_MAX ? sum : UINT32_MAX);
}

bool history_gives(uint64_t guest, unsigned vcpu, const adk_summary *r)
{
    const struct account *a = &accounts[guest][vcpu];
    return a->created && shows(r->runs, a->runs) && shows(r->elements, a->elements) &&
           shows(r->refusals, a->refusals) && r->exit_reason == a->exit_reason;
}
