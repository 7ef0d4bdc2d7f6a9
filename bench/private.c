/*
 * private.c: the model as a vendor's library that keeps its own state, as a hypervisor does. The lent store is nothing
 * to it, and is filled with other bytes to show that. score --opaque is for such a library.
 */
#include "model.h"

#include <string.h>

/* As many bytes of it as the fresh store was asked for, or as a conversion made. */
static uint8_t own[ADK_LARGE_STORE_SIZE];
static size_t own_len;

adk_answer adk_fresh_store(uint8_t *store, size_t store_len)
{
    memset(store, 0x5A, store_len);
    own_len = store_len;
    return mdl_fresh_store(own, own_len);
}

/* What is kept becomes a large store. */
adk_answer adk_convert(const uint8_t *small, size_t small_len, uint8_t *large, size_t large_len)
{
    static uint8_t converted[ADK_LARGE_STORE_SIZE];
    (void)small, (void)small_len, (void)large;
    adk_answer a = mdl_convert(own, own_len, converted, large_len);
    if (a.r3 == ADK_OK) {
        memcpy(own, converted, sizeof own);
        own_len = sizeof own;
    }
    return a;
}

/* The other calls get the store that is kept here. */
#define OWN own, own_len
#define LENT (void)store, (void)store_len

adk_answer adk_get_capabilities(const uint8_t *store, size_t store_len, uint64_t flags)
{
    LENT;
    return mdl_get_capabilities(OWN, flags);
}

adk_answer adk_set_capabilities(uint8_t *store, size_t store_len, uint64_t flags, uint64_t bitmap)
{
    LENT;
    return mdl_set_capabilities(OWN, flags, bitmap);
}

adk_answer adk_create_guest(uint8_t *store, size_t store_len, uint64_t flags, uint64_t token)
{
    LENT;
    return mdl_create_guest(OWN, flags, token);
}

adk_answer adk_create_vcpu(uint8_t *store, size_t store_len, uint64_t flags, uint64_t guest, uint64_t vcpu)
{
    LENT;
    return mdl_create_vcpu(OWN, flags, guest, vcpu);
}

adk_answer adk_get_state(uint8_t *store, size_t store_len, uint64_t flags, uint64_t guest, uint64_t vcpu,
                         uint8_t *buffer, size_t buffer_len)
{
    LENT;
    return mdl_get_state(OWN, flags, guest, vcpu, buffer, buffer_len);
}

adk_answer adk_set_state(uint8_t *store, size_t store_len, uint64_t flags, uint64_t guest, uint64_t vcpu,
                         const uint8_t *buffer, size_t buffer_len)
{
    LENT;
    return mdl_set_state(OWN, flags, guest, vcpu, buffer, buffer_len);
}

adk_answer adk_run_vcpu(uint8_t *store, size_t store_len, uint64_t flags, uint64_t guest, uint64_t vcpu,
                        const uint8_t *input, size_t input_len, uint8_t *output, size_t output_len,
                        const uint8_t *effect, size_t effect_len, uint64_t exit_reason)
{
    LENT;
    return mdl_run_vcpu(OWN, flags, guest, vcpu, input, input_len, output, output_len, effect, effect_len, exit_reason);
}

adk_answer adk_delete_guest(uint8_t *store, size_t store_len, uint64_t flags, uint64_t guest)
{
    LENT;
    return mdl_delete_guest(OWN, flags, guest);
}

adk_answer adk_guest_clock(const uint8_t *store, size_t store_len, uint64_t guest, uint64_t timebase)
{
    LENT;
    return mdl_guest_clock(OWN, guest, timebase);
}

adk_found adk_lookup(const uint8_t *buffer, size_t buffer_len, uint16_t id)
{
    return mdl_lookup(buffer, buffer_len, id);
}
