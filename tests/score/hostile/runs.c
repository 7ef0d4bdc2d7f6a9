/* runs.c: runs another program in its place. */
#include "hostile.h"

static void misbehave(const uint8_t *store, size_t store_len)
{
    (void)store;
    (void)store_len;
    execl("/bin/true", "true", (char *)NULL);
}
