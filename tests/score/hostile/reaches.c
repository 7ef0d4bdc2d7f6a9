/* reaches.c: writes behind the store. */
#include "hostile.h"

static void misbehave(const uint8_t *store, size_t store_len)
{
    (void)store;
    (void)store_len;
    ((volatile uint8_t *)store)[store_len] = 0;
}
