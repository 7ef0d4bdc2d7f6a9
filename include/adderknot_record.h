/*
 * adderknot_record.h: helps with the call records of adderknot.h, for the person who records a night or looks into one.
 * All of it is optional and static inline: nothing is linked but the library. It is C99 and C++11.
 *
 * A call is recorded beside the one that is made:
 *
 *     static uint8_t room[ADK_LONGEST_RECORD];
 *     adk_record record = { ADK_KIND_SET_STATE, 0, guest, vcpu, 0, buffer, buffer_len, NULL, 0 };
 *     if (!adk_append_record(file, &record, room, sizeof room))
 *         complain();
 *     answer = adk_set_state(store, sizeof store, 0, guest, vcpu, buffer, buffer_len);
 *
 * A get state is recorded before it is made, since it writes its buffer. The records among some bytes:
 *
 *     for (at = 0; (length = adk_read_record(&record, bytes + at, len - at)) != 0; at += length)
 *         use(&record);
 *
 * Where at is not len afterwards, it is the offset of the first bad record.
 */
#ifndef ADDERKNOT_RECORD_H
#define ADDERKNOT_RECORD_H

#include "adderknot_gsb.h"

#include <stdio.h>

/* A call, as a record holds it: a kind (ADK_KIND_..), the flags and so on, and the two pieces of data. */
typedef struct {
    uint64_t kind, flags, guest, number, exit_reason;
    const uint8_t *data;
    size_t data_len;
    const uint8_t *effect;
    size_t effect_len;
} adk_record;

/* ---- Writing ---- */

/* adk_write_record of these fields. Where a length is 0, its pointer may be NULL. */
static inline adk_answer adk_write_fields(const adk_record *record, uint8_t *bytes, size_t bytes_len)
{
    static const uint8_t none[1] = { 0 };
    return adk_write_record(bytes, bytes_len, record->kind, record->flags, record->guest, record->number,
                            record->exit_reason, record->data_len == 0 ? none : record->data, record->data_len,
                            record->effect_len == 0 ? none : record->effect, record->effect_len);
}

/* Appends the record to a file. room is where it is put together, and has its length at least. 0 if adk_write_record
   refuses, or if the file does not take all of it, which ferror tells; else 1. */
static inline int adk_append_record(FILE *file, const adk_record *record, uint8_t *room, size_t room_len)
{
    adk_answer written = adk_write_fields(record, room, room_len);
    return written.r3 == ADK_OK && fwrite(room, 1, (size_t)written.r4, file) == written.r4;
}

/* ---- Reading ---- */

/* Reads the head of a record, ADK_RECORD_HEAD bytes: all but data and effect, which become NULL. 0 if the kind is none
   of the eight or the padding is not zero; else 1. */
static inline int adk_read_head(adk_record *record, const uint8_t *bytes)
{
    uint64_t last = adk_read_be(bytes + 26, 5); /* both lengths and the padding: 17, 17 and 6 bits */
    record->kind = bytes[0] >> 4;
    record->flags = adk_read_be(bytes, 8) << 4 | bytes[8] >> 4;
    record->guest = adk_read_be(bytes + 8, 8) << 4 | bytes[16] >> 4;
    record->number = adk_read_be(bytes + 16, 8) << 4 | bytes[24] >> 4;
    record->exit_reason = adk_read_be(bytes + 24, 2) & ADK_RECORD_EXIT_MAX;
    record->data_len = (size_t)(last >> 23);
    record->effect_len = (size_t)(last >> 6 & ADK_RECORD_PIECE_MAX);
    record->data = record->effect = NULL;
    return record->kind >= ADK_KIND_GET_CAPABILITIES && record->kind <= ADK_KIND_DELETE_GUEST && (last & 0x3F) == 0;
}

/* The length of a record whose head was read. */
static inline size_t adk_record_length(const adk_record *record)
{
    return ADK_RECORD_HEAD + record->data_len + record->effect_len;
}

/* Reads the record that stands at the first of so many bytes, and gives back its length; 0 if none does: its head, data
   or effect is cut, its kind is none of the eight, or its padding is not zero. */
static inline size_t adk_read_record(adk_record *record, const uint8_t *bytes, size_t len)
{
    if (len < ADK_RECORD_HEAD || !adk_read_head(record, bytes) || len < adk_record_length(record))
        return 0;
    record->data = bytes + ADK_RECORD_HEAD;
    record->effect = record->data + record->data_len;
    return adk_record_length(record);
}

#endif
