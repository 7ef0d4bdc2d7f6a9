/* fields.c: see fields.h. */
#include "fields.h"

#include "chance.h"

#include <string.h>

/* Lengths of 17 bits are kept in more: what is lent is at times twice what they can say. */
enum { PIECE_ROOM = 2 * (ADK_RECORD_PIECE_MAX + 1), ROOM = ADK_LONGEST_RECORD + 4096 };

/* Data and effect, and what they were; the bytes of each side, with guards beside them. */
static uint8_t pieces[2][PIECE_ROOM], kept[2][PIECE_ROOM];
static uint8_t lent[SIDES][GUARD + ROOM + GUARD];

void make_fields(void)
{
    any_bytes(kept[0], sizeof kept);
    any_bytes(lent[BEFORE], sizeof lent[BEFORE]);
    memcpy(pieces, kept, sizeof pieces);
    for (int s = 0; s < BEFORE; s++)
        memcpy(lent[s], lent[BEFORE], sizeof lent[s]);
}

adk_answer write_fields(write_entry *write, enum side s, const struct fields *f)
{
    const adk_record *r = &f->record;
    return write(lent[s] + GUARD, f->room, r->kind, r->flags, r->guest, r->number, r->exit_reason, r->data,
                 r->data_len, r->effect, r->effect_len);
}

const uint8_t *written_by(enum side s)
{
    return lent[s] + GUARD;
}

bool rest_is_kept(enum side s, size_t n)
{
    return memcmp(lent[s], lent[BEFORE], GUARD) == 0 &&
           memcmp(lent[s] + GUARD + n, lent[BEFORE] + GUARD + n, ROOM + GUARD - n) == 0 &&
           memcmp(pieces, kept, sizeof pieces) == 0;
}

void forget_written(size_t n)
{
    for (int s = 0; s < BEFORE; s++)
        memcpy(lent[s] + GUARD, lent[BEFORE] + GUARD, n);
}

/* ---- Calls at an edge ---- */

#define ONES UINT64_MAX
#define MOST ADK_RECORD_PIECE_MAX

static const struct edge {
    const char *what;
    uint64_t kind, flags, guest, number, exit_reason;
    size_t data_len, effect_len;
} EDGES[] = {
    { "all fields small", 1, 0, 0, 0, 0, 0, 0 },
    { "kind 2", 2, 0, 1, ADK_CAP_POWER9, 0, 0, 0 },
    { "kind 3", 3, 0, 0, ADK_TOKEN, 0, 0, 0 },
    { "kind 4", 4, 0, 1, ADK_VCPU_MAX, 0, 0, 0 },
    { "kind 5", 5, ADK_HAND_OVER, 1, 2, 0, ADK_FORM_MAX, 0 },
    { "kind 6", 6, ADK_GUEST_WIDE, 1, 2, 0, 16, 0 },
    { "kind 7", 7, ADK_BIT(2), 63, 2, ADK_EXIT_HCALL, 124, 36 },
    { "kind 8", 8, ADK_DELETE_ALL, 1, 0, 0, 0, 0 },
    { "flags all ones", 6, ONES, 0, 0, 0, 0, 0 },
    { "guest all ones", 6, 0, ONES, 0, 0, 0, 0 },
    { "number all ones", 6, 0, 0, ONES, 0, 0, 0 },
    { "exit reason all ones", 6, 0, 0, 0, ADK_RECORD_EXIT_MAX, 0, 0 },
    { "data all ones", 6, 0, 0, 0, 0, MOST, 0 },
    { "effect all ones", 6, 0, 0, 0, 0, 0, MOST },
    { "all fields all ones", 8, ONES, ONES, ONES, ADK_RECORD_EXIT_MAX, MOST, MOST },
    { "flags 1", 1, 1, 0, 0, 0, 0, 0 },
    { "guest 1", 1, 0, 1, 0, 0, 0, 0 },
    { "number 1", 1, 0, 0, 1, 0, 0, 0 },
    { "exit reason 1", 1, 0, 0, 0, 1, 0, 0 },
    { "a byte of data", 1, 0, 0, 0, 0, 1, 0 },
    { "a byte of effect", 1, 0, 0, 0, 0, 0, 1 },
    { "each first bit", 8, ADK_BIT(0), ADK_BIT(0), ADK_BIT(0), 2048, 65536, 65536 },
    { "the longest buffers", 7, 0, 1, 2, ADK_EXIT_HDSI, ADK_BUFFER_MAX, ADK_BUFFER_MAX },
    { "kind 0", 0, 0, 1, 2, 0, 12, 12 },
    { "kind 9", 9, 0, 1, 2, 0, 12, 12 },
    { "kind 15", 15, 0, 1, 2, 0, 12, 12 },
    { "kind 16 + 1", 17, 0, 1, 2, 0, 12, 12 },
    { "kind 2^32 + 3", 0x100000003, 0, 1, 2, 0, 12, 12 },
    { "kind 2^64 - 1", ONES, 0, 1, 2, 0, 12, 12 },
    { "exit reason 4,096", 7, 0, 1, 2, ADK_RECORD_EXIT_MAX + 1, 12, 12 },
    { "exit reason 2^16 + 0xC00", 7, 0, 1, 2, 0x10C00, 12, 12 },
    { "exit reason 2^64 - 1", 7, 0, 1, 2, ONES, 12, 12 },
    { "131,072 bytes of data", 6, 0, 1, 2, 0, MOST + 1, 12 },
    { "131,072 bytes of effect", 7, 0, 1, 2, 0, 12, MOST + 1 },
    { "196,608 bytes of data", 6, 0, 1, 2, 0, MOST + 1 + 65536, 12 },
    { "262,144 bytes of effect", 7, 0, 1, 2, 0, 12, 2 * (MOST + 1) },
    { "all of it too great", ONES, ONES, ONES, ONES, ONES, 2 * (MOST + 1), 2 * (MOST + 1) },
};

#undef ONES
#undef MOST

/* 19 for what no record holds, then 12, success. */
static adk_answer told(const adk_record *r, size_t room)
{
    bool holds = r->kind >= 1 && r->kind <= 8 && r->exit_reason < 4096 && r->data_len < 131072 &&
                 r->effect_len < 131072;
    size_t len = 31 + r->data_len + r->effect_len;
    if (!holds)
        return (adk_answer){ ADK_BAD_RECORD, 0, 0 };
    return room < len ? (adk_answer){ ADK_LENT_TOO_SHORT, 1, 0 } : (adk_answer){ ADK_OK, len, 0 };
}

static struct fields fields_of(const struct edge *e)
{
    return (struct fields){ .what = e->what,
                            .record = { e->kind, e->flags, e->guest, e->number, e->exit_reason, pieces[0], e->data_len,
                                        pieces[1], e->effect_len } };
}

/* With more room than it takes, with as much, with a byte too few, with a head's, with less, and with none. */
static void try_rooms(const struct edge *e, try_fields *try)
{
    struct fields f = fields_of(e);
    size_t len = adk_record_length(&f.record);
    const size_t rooms[] = { ROOM, len + 40, len + 1, len, len - 1, ADK_RECORD_HEAD, ADK_RECORD_HEAD - 1, 1, 0 };
    for (size_t i = 0; i < COUNT(rooms); i++) {
        f.room = rooms[i] < ROOM ? rooms[i] : ROOM;
        f.answer = told(&f.record, f.room);
        try(&f);
    }
}

void each_fields(bool longest, try_fields *try)
{
    for (const struct edge *e = EDGES; e < EDGES + COUNT(EDGES); e++)
        if (longest || e->data_len + e->effect_len < ADK_BUFFER_MAX)
            try_rooms(e, try);
}

/* ---- Calls by chance ---- */

static uint64_t any_field(void)
{
    switch (below(3)) {
    case 0: return any64();
    case 1: return any_width();
    default: return any_number();
    }
}

/* Mostly short; now and then a long one, or close to the greatest. */
static size_t any_length(void)
{
    if (percent(97))
        return below(percent(90) ? 200 : 5000);
    return percent(50) ? below(PIECE_ROOM - 64) : ADK_RECORD_PIECE_MAX + 3 - below(6);
}

static struct fields any_fields(void)
{
    struct fields f = { .what = "chance" };
    adk_record *r = &f.record;
    r->kind = percent(97) ? 1 + below(8) : any_number();
    r->flags = any_field();
    r->guest = any_field();
    r->number = any_field();
    r->exit_reason = percent(97) ? below(ADK_RECORD_EXIT_MAX + 1) : any_number();
    r->data = pieces[0] + below(64);
    r->data_len = any_length();
    r->effect = pieces[1] + below(64);
    r->effect_len = any_length();
    f.room = percent(70) ? ROOM : adk_record_length(r) + 3 - below(6);
    if (f.room > ROOM)
        f.room = ROOM;
    f.answer = told(r, f.room);
    return f;
}

void some_fields(uint64_t calls, try_fields *try)
{
    for (uint64_t i = 0; i < calls; i++) {
        struct fields f = any_fields();
        try(&f);
    }
}
