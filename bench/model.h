/*
 * model.h: the calls of adderknot.h once more, in plain C from documents 01 and 02 alone. compare.c lays the library
 * beside it, and speed.c times the two. Signatures, answers and the rules about lent memory are those of adderknot.h.
 */
#ifndef MODEL_H
#define MODEL_H

#include "adderknot.h"

adk_answer mdl_fresh_store(uint8_t *store, size_t store_len);
adk_answer mdl_get_capabilities(const uint8_t *store, size_t store_len, uint64_t flags);
adk_answer mdl_set_capabilities(uint8_t *store, size_t store_len, uint64_t flags, uint64_t bitmap);
adk_answer mdl_create_guest(uint8_t *store, size_t store_len, uint64_t flags, uint64_t token);
adk_answer mdl_create_vcpu(uint8_t *store, size_t store_len, uint64_t flags, uint64_t guest, uint64_t vcpu);
adk_answer mdl_get_state(uint8_t *store, size_t store_len, uint64_t flags, uint64_t guest, uint64_t vcpu,
                         uint8_t *buffer, size_t buffer_len);
adk_answer mdl_set_state(uint8_t *store, size_t store_len, uint64_t flags, uint64_t guest, uint64_t vcpu,
                         const uint8_t *buffer, size_t buffer_len);
adk_answer mdl_run_vcpu(uint8_t *store, size_t store_len, uint64_t flags, uint64_t guest, uint64_t vcpu,
                        const uint8_t *input, size_t input_len, uint8_t *output, size_t output_len,
                        const uint8_t *effect, size_t effect_len, uint64_t exit_reason);
adk_answer mdl_delete_guest(uint8_t *store, size_t store_len, uint64_t flags, uint64_t guest);
adk_answer mdl_guest_clock(const uint8_t *store, size_t store_len, uint64_t guest, uint64_t timebase);
adk_answer mdl_convert(const uint8_t *small, size_t small_len, uint8_t *large, size_t large_len);
adk_found mdl_lookup(const uint8_t *buffer, size_t buffer_len, uint16_t id);
adk_answer mdl_join(const uint8_t *first, size_t first_len, const uint8_t *second, size_t second_len, uint8_t *result,
                    size_t result_len);
adk_answer mdl_judge_output(const uint8_t *store, size_t store_len, uint64_t guest, uint64_t vcpu,
                            uint64_t exit_reason, const uint8_t *buffer, size_t buffer_len);
adk_answer mdl_call(uint8_t *store, size_t store_len, uint64_t kind, uint64_t flags, uint64_t guest, uint64_t number,
                    uint64_t exit_reason, uint8_t *data, size_t data_len, uint8_t *output, size_t output_len,
                    const uint8_t *effect, size_t effect_len);
adk_answer mdl_tally(adk_summary *records, size_t record_count, uint8_t *store, size_t store_len, uint64_t kind,
                     uint64_t flags, uint64_t guest, uint64_t number, uint64_t exit_reason, uint8_t *data,
                     size_t data_len, uint8_t *output, size_t output_len, const uint8_t *effect, size_t effect_len);
adk_answer mdl_write_record(uint8_t *bytes, size_t bytes_len, uint64_t kind, uint64_t flags, uint64_t guest,
                            uint64_t number, uint64_t exit_reason, const uint8_t *data, size_t data_len,
                            const uint8_t *effect, size_t effect_len);

#endif
