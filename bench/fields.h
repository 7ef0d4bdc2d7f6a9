/*
 * fields.h: calls to be written as records (02, L9), and the memory that is lent for that: data and effect, and the
 * bytes of each side (lent.h) in which a record is to stand.
 */
#ifndef FIELDS_H
#define FIELDS_H

#include "adderknot_record.h"
#include "lent.h"

struct fields {
    const char *what; /* what is special in it */
    adk_record record;
    size_t room;       /* how many bytes are lent for the record */
    adk_answer answer; /* what the request says */
};

/* Fills the memory by chance. */
void make_fields(void);

/* Tries a call. All bytes of a side are those of BEFORE, and are so again afterwards. */
typedef void try_fields(const struct fields *f);

/* Tries each call at an edge with room at each edge. longest: data and effect of up to 262,144 bytes are among them. */
void each_fields(bool longest, try_fields *try);

/* Tries so many calls by chance, most of them good. */
void some_fields(uint64_t calls, try_fields *try);

/* The call written, in what is lent to a side. */
typedef __typeof__(adk_write_record) write_entry;
adk_answer write_fields(write_entry *write, enum side s, const struct fields *f);

/* The bytes of a side. */
const uint8_t *written_by(enum side s);

/* Whether the bytes of a side behind the first n are as they were, and those before them, and data and effect. */
bool rest_is_kept(enum side s, size_t n);

/* Makes the first n bytes of both sides as they were. */
void forget_written(size_t n);

#endif
