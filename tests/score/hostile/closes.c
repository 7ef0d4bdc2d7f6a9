/* closes.c: closes every descriptor. */
#include "hostile.h"

static void misbehave(const uint8_t *store, size_t store_len)
{
    (void)store;
    (void)store_len;
    for (int fd = 0; fd < 1024; fd++)
        close(fd);
}
