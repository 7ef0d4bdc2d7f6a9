/* recording.c: see recording.h. */
#include "recording.h"

#include "adderknot_record.h"

#include <errno.h>
#include <inttypes.h>
#include <string.h>

_Static_assert(BUFFER_CAPACITY <= ADK_RECORD_PIECE_MAX, "a record holds each buffer of a night");

/* ---- Files ---- */

static bool cannot_write(const char *name)
{
    fprintf(stderr, "score: cannot write %s: %s\n", name, strerror(errno));
    return false;
}

static bool open_file(FILE **file, const char *name)
{
    *file = name == NULL ? NULL : fopen(name, "w");
    return name == NULL || *file != NULL || cannot_write(name);
}

static bool close_file(FILE *file, const char *name)
{
    if (file == NULL)
        return true;
    bool well = !ferror(file);
    return (fclose(file) == 0 && well) || cannot_write(name);
}

bool open_recording(struct recording *r, const struct order *o)
{
    r->count = 0;
    return open_file(&r->records, o->record) && open_file(&r->answers, o->answers);
}

bool end_recording(struct recording *r, const struct order *o)
{
    bool well = close_file(r->records, o->record);
    return close_file(r->answers, o->answers) && well;
}

/* ---- Calls ---- */

static void write_down(struct recording *r, const adk_record *record, const adk_found *answer)
{
    static uint8_t room[ADK_LONGEST_RECORD];
    if (r->records != NULL)
        adk_append_record(r->records, record, room, sizeof room);
    if (r->answers != NULL)
        fprintf(r->answers, "%" PRIu64 " %" PRIu64 " %" PRIu64 " %" PRIu64 " %" PRIu64 "\n", r->count, record->kind,
                answer->r3, answer->r4, answer->r5);
    r->count++;
}

/* The numbers behind the flags are guest and vCPU; but a token or a bitmap stands alone. */
static adk_record record_of(const struct call *c)
{
    unsigned kind = record_kind(c->kind);
    bool no_guest = kind == ADK_KIND_SET_CAPABILITIES || kind == ADK_KIND_CREATE_GUEST;
    enum piece data = is_run(c->kind) ? INPUT : BUFFER;
    return (adk_record){
        .kind = kind, .flags = c->n[0], .guest = no_guest ? 0 : c->n[1], .number = c->n[no_guest ? 1 : 2],
        .exit_reason = c->n[3], .data = memory[BEFORE][data], .data_len = c->len[data],
        .effect = memory[BEFORE][EFFECT], .effect_len = c->len[EFFECT]
    };
}

/* An output that is lent as registered is never too short. */
static bool is_told(const struct made *m)
{
    bool output_too_short = m->ours.r3 == ADK_LENT_TOO_SHORT && m->ours.r4 == 1;
    return record_kind(m->call.kind) != 0 && m->call.n[3] <= ADK_RECORD_EXIT_MAX && !output_too_short;
}

static void record_fresh_store(struct recording *r)
{
    static const adk_record none_live = { .kind = ADK_KIND_DELETE_GUEST, .flags = ADK_DELETE_ALL };
    static const adk_record none_agreed = { .kind = ADK_KIND_SET_CAPABILITIES };
    write_down(r, &none_live, &(adk_found){ ADK_OK });
    write_down(r, &none_agreed, &(adk_found){ ADK_OK });
}

void record_call(struct recording *r, const struct made *m)
{
    if (makes_fresh(m->call.kind) && m->ours.r3 == ADK_OK) {
        record_fresh_store(r);
    } else if (is_told(m)) {
        adk_record record = record_of(&m->call);
        write_down(r, &record, &m->ours);
    }
}
