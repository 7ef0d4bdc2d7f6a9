/* constructs.c: says that all agreed and exits, while it is loaded. */
#include "hostile.h"

static void misbehave(const uint8_t *store, size_t store_len)
{
    (void)store;
    (void)store_len;
}

__attribute__((constructor)) static void construct(void)
{
    puts("agreed: 200000 of 200000 calls");
    exit(0);
}
