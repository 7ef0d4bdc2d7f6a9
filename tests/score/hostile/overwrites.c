/* overwrites.c: writes over all memory that it shares with anybody. */
#include "hostile.h"

static void misbehave(const uint8_t *store, size_t store_len)
{
    unsigned long from, to;
    char line[512], access[8];
    FILE *maps = fopen("/proc/self/maps", "r");
    (void)store;
    (void)store_len;
    while (maps != NULL && fgets(line, sizeof line, maps) != NULL)
        if (sscanf(line, "%lx-%lx %7s", &from, &to, access) == 3 && strcmp(access, "rw-s") == 0)
            memset((void *)from, 0xA5, to - from);
    if (maps != NULL)
        fclose(maps);
}
