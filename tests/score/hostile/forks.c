/* forks.c: returns twice. */
#include "hostile.h"

static void misbehave(const uint8_t *store, size_t store_len)
{
    (void)store;
    (void)store_len;
    if (fork() < 0)
        abort();
}
