/* lent.c: see lent.h. */
#include "lent.h"

#include "chance.h"

#include <stdlib.h>
#include <string.h>

const char *const PIECE_NAME[PIECES] = { "store", "buffer", "input", "output", "effect", "target" };

const size_t CAPACITY[PIECES] = {
    STORE_CAPACITY, BUFFER_CAPACITY, BUFFER_CAPACITY, BUFFER_CAPACITY, BUFFER_CAPACITY, STORE_CAPACITY
};

uint8_t *memory[SIDES][PIECES];

static size_t size_with_guards(int p)
{
    return GUARD + CAPACITY[p] + GUARD;
}

void make_memory(void)
{
    for (int p = 0; p < PIECES; p++)
        for (int s = 0; s < SIDES; s++) {
            uint8_t *m = malloc(size_with_guards(p));
            if (m == NULL)
                exit(2);
            memory[s][p] = m + GUARD;
        }
    fill_memory();
}

void fill_memory(void)
{
    for (int p = 0; p < PIECES; p++)
        any_bytes(memory[BEFORE][p] - GUARD, size_with_guards(p));
    share_all();
}

void free_memory(void)
{
    for (int p = 0; p < PIECES; p++)
        for (int s = 0; s < SIDES; s++)
            free(memory[s][p] - GUARD);
}

void share(enum piece p, size_t at, size_t n)
{
    for (int s = 0; s < BEFORE; s++)
        memcpy(memory[s][p] + at, memory[BEFORE][p] + at, n);
}

void renew(enum side s)
{
    for (int p = 0; p < PIECES; p++)
        memcpy(memory[s][p] - GUARD, memory[BEFORE][p] - GUARD, size_with_guards(p));
}

void share_all(void)
{
    renew(LIBRARY);
    renew(OTHER);
}

bool same_bytes(enum piece p, enum side a, enum side b, size_t n)
{
    return memcmp(memory[a][p], memory[b][p], n) == 0;
}

bool guards_intact(enum piece p, enum side s, size_t n)
{
    return memcmp(memory[s][p] - GUARD, memory[BEFORE][p] - GUARD, GUARD) == 0 &&
           memcmp(memory[s][p] + n, memory[BEFORE][p] + n, GUARD) == 0;
}

const char *broken(enum piece p, size_t n, bool may_write)
{
    if (!guards_intact(p, LIBRARY, n) || !guards_intact(p, OTHER, n))
        return "guards";
    if (!may_write)
        return same_bytes(p, LIBRARY, BEFORE, n) && same_bytes(p, OTHER, BEFORE, n) ? NULL : "unchanged";
    return same_bytes(p, LIBRARY, OTHER, n) ? NULL : "agreement";
}
