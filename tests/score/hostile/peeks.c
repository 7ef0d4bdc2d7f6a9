/* peeks.c: crashes if it can open the memory of the process that started it. */
#include "hostile.h"

static void misbehave(const uint8_t *store, size_t store_len)
{
    char path[64];
    (void)store;
    (void)store_len;
    snprintf(path, sizeof path, "/proc/%d/mem", (int)getppid());
    if (open(path, O_RDWR) >= 0)
        abort();
}
