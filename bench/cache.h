/*
 * cache.h: the L1 cache of 01, as the library has it and once more in plain C. speed.c times the two.
 *
 * C has nothing of the library's cache: an archive that only the bench builds exports it (crates/l1bench). A cache is
 * CACHE_VALUES bytes, laid out as a slot's, and CACHE_MARKS words of marks: three of valid marks, then three of changed
 * ones. Thread element e, from 0 in order of ID, is bit e mod 64, from the most significant, of word e div 64.
 * marks_len counts words; pvr is the logical PVR that the call is told (02, L7). Answers and the rules about lent
 * memory are those of adderknot.h; 15 is for a cache that is not well formed.
 */
#ifndef CACHE_H
#define CACHE_H

#include "adderknot.h"

enum { CACHE_VALUES = 1820, CACHE_MARKS = 6 };

adk_answer adk_cache_write(uint8_t *values, size_t values_len, uint64_t *marks, size_t marks_len, uint32_t pvr,
                           uint16_t id, const uint8_t *value, size_t value_len);
adk_answer adk_cache_read(const uint8_t *store, size_t store_len, uint64_t guest, uint64_t vcpu, uint32_t pvr,
                          uint8_t *values, size_t values_len, uint64_t *marks, size_t marks_len, uint16_t id,
                          uint8_t *value, size_t value_len);
adk_answer adk_cache_run(uint8_t *store, size_t store_len, uint64_t flags, uint64_t guest, uint64_t vcpu, uint32_t pvr,
                         uint8_t *values, size_t values_len, uint64_t *marks, size_t marks_len, uint8_t *input,
                         size_t input_len, uint8_t *output, size_t output_len, const uint8_t *effect,
                         size_t effect_len, uint64_t exit_reason);

/* The model's. */
__typeof__(adk_cache_write) mdl_cache_write;
__typeof__(adk_cache_read) mdl_cache_read;
__typeof__(adk_cache_run) mdl_cache_run;

/* An L1 as the pointers to its operations. */
struct l1 {
    __typeof__(adk_cache_write) *write;
    __typeof__(adk_cache_read) *read;
    __typeof__(adk_cache_run) *run;
};

#define L1_LIBRARY { adk_cache_write, adk_cache_read, adk_cache_run }
#define L1_MODEL { mdl_cache_write, mdl_cache_read, mdl_cache_run }

#endif
