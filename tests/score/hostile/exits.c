/* exits.c: ends its process as if all were well. */
#include "hostile.h"

static void misbehave(const uint8_t *store, size_t store_len)
{
    (void)store;
    (void)store_len;
    exit(0);
}
