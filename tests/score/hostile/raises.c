/* raises.c: raises a signal that it ignores. */
#include "hostile.h"

static void misbehave(const uint8_t *store, size_t store_len)
{
    (void)store;
    (void)store_len;
    signal(SIGUSR1, SIG_IGN);
    raise(SIGUSR1);
}
