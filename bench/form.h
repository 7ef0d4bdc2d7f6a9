/*
 * form.h: the form in which the state of a vCPU is handed over, as adderknot.h tells it: read, built by chance, and
 * damaged in each of its parts.
 */
#ifndef FORM_H
#define FORM_H

#include "gsb.h"

/* The thread elements, numbered from 0 in order of ID. */
enum { THREAD_ELEMENTS = 170 };

unsigned thread_id(unsigned element);
unsigned thread_size(unsigned element);

/* ---- Reading ---- */

/* What is told before the values, and the length that the presence bits ask for. */
struct form {
    unsigned version, vcpu, zero, padding, present;
    size_t len;
};

/* Of at least ADK_FORM_MIN bytes. */
struct form read_form(const uint8_t *bytes);

bool is_present(const uint8_t *bytes, unsigned element);

/* The value of a present element; NULL if it is absent, or runs past the end. */
const uint8_t *value_in(const uint8_t *bytes, size_t len, unsigned element);

/* The parts in which bytes can fail to be a form of a vCPU: a value that is present and all zero is WRONG_VALUE. */
enum part { WRONG_VERSION, WRONG_ID, WRONG_ZERO, WRONG_PADDING, WRONG_VALUE, CUT, PARTS };

extern const char *const PART_NAME[PARTS];

/* Those that are wrong, as bits; 0 where the bytes, at least ADK_FORM_MIN, begin with a form of the vCPU. */
unsigned wrong_parts(const uint8_t *bytes, size_t len, unsigned vcpu);

/* The first present value that is all zero, or THREAD_ELEMENTS. */
unsigned zero_value(const uint8_t *bytes, size_t len);

/* ---- Building ---- */

/* A form of the vCPU, with none, few, many or all of the values; and one as it is. */
void build_form(struct build *g, unsigned vcpu);
void build_copy(struct build *g, const uint8_t *bytes, size_t len);

/* Makes this part of a good form wrong, where it has such a part: an empty one cannot be cut, and has no value. */
void damage_part(struct build *g, enum part part);

#endif
