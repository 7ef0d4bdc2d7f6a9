/* crashes.c: writes where there is no memory. */
#include "hostile.h"

static void misbehave(const uint8_t *store, size_t store_len)
{
    (void)store;
    (void)store_len;
    volatile uintptr_t nowhere = 16;
    *(volatile char *)nowhere = 1;
}
