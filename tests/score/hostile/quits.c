/* quits.c: ends its process without a word to the C library. */
#include "hostile.h"

static void misbehave(const uint8_t *store, size_t store_len)
{
    (void)store;
    (void)store_len;
    _exit(0);
}
