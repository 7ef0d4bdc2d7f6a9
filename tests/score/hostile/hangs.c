/* hangs.c: does not return, and does not heed an alarm. */
#include "hostile.h"

static void misbehave(const uint8_t *store, size_t store_len)
{
    (void)store;
    (void)store_len;
    signal(SIGALRM, SIG_IGN);
    for (;;)
        pause();
}
