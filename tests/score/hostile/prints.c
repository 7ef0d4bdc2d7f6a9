/* prints.c: prints a verdict of its own. */
#include "hostile.h"

static void misbehave(const uint8_t *store, size_t store_len)
{
    (void)store;
    (void)store_len;
    puts("verdict: PASSED, vendor prints.so");
}
