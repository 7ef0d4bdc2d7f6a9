/*
 * l0.h: an L0 as the pointers to its entries, so that a call is made on the library, the model and a vendor's library
 * in one way.
 */
#ifndef L0_H
#define L0_H

#include "adderknot.h"

/* X of each entry's name without adk_, in the order of adderknot.h. A new entry is added here. */
#define L0_ENTRIES(X)                                                                           \
    X(fresh_store) X(get_capabilities) X(set_capabilities) X(create_guest) X(create_vcpu)       \
    X(get_state) X(set_state) X(run_vcpu) X(delete_guest) X(guest_clock) X(convert) X(lookup)

#define L0_POINTER(name) __typeof__(adk_##name) *name;

struct l0 {
    L0_ENTRIES(L0_POINTER)
};

#define L0_LIBRARY_ENTRY(name) .name = adk_##name,
#define L0_MODEL_ENTRY(name) .name = mdl_##name,

/* Initialisers. That of the model is for those who include model.h. */
#define L0_LIBRARY { L0_ENTRIES(L0_LIBRARY_ENTRY) }
#define L0_MODEL { L0_ENTRIES(L0_MODEL_ENTRY) }

/* The answer of a call in the form of a lookup's, so that all answers have one. */
static inline adk_found plain(adk_answer a)
{
    return (adk_found){ a.r3, a.r4, a.r5, 0, 0 };
}

#endif
