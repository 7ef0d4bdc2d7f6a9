/* chance.c: see chance.h. */
#include "chance.h"

#include "adderknot.h"

#include <errno.h>
#include <inttypes.h>
#include <stdio.h>
#include <stdlib.h>
#include <string.h>
#include <time.h>

uint64_t chance_state;

void seed_chance(uint64_t seed)
{
    chance_state = seed;
}

void seed_part(uint64_t seed, uint64_t part)
{
    chance_state = seed;
    chance_state = any64() + part;
    chance_state = any64();
}

bool read_number(const char *text, uint64_t *n)
{
    char *end;
    errno = 0;
    *n = strtoull(text, &end, 0);
    return *text >= '0' && *text <= '9' && *end == '\0' && errno == 0;
}

bool read_seed(const char *text, uint64_t *seed)
{
    if (strcmp(text, "fresh") != 0)
        return read_number(text, seed);
    *seed = (uint64_t)time(NULL);
    return true;
}

static bool read_run(int argc, char **argv, uint64_t *seed, uint64_t *calls)
{
    for (int i = 1; i < argc; i += 2) {
        const char *value = i + 1 < argc ? argv[i + 1] : "";
        bool counts = strcmp(argv[i], "--calls") == 0 && read_number(value, calls);
        if (!counts && !(strcmp(argv[i], "--seed") == 0 && read_seed(value, seed)))
            return false;
    }
    return true;
}

bool begin_run(int argc, char **argv, const char *name, const char *what, uint64_t *calls)
{
    uint64_t seed = SEED;
    bool read = read_run(argc, argv, &seed, calls);
    if (!read)
        fprintf(stderr, "usage: %s [--calls N] [--seed S | --seed fresh]\n", name);
    else
        printf("%s: %s, %" PRIu64 " by chance, seed 0x%" PRIX64 "\n", name, what, *calls, seed);
    seed_chance(seed);
    return read;
}

uint64_t any_bit(void)
{
    return ADK_BIT(below(64));
}

uint64_t any_width(void)
{
    uint64_t n = any64();
    return n >> below(64);
}

static const uint64_t EDGES[] = {
    0, 1, 2, 3, 4, 7, 8, 9, 10, 15, 16, 17, 63, 64, 127, 128, 255, 256, 2046, 2047, 2048, 2049, 4095, 4096, 32767,
    32768, 65535, 65536, 0x7FFFFFFF, 0x80000000, 0xFFFFFFFF, 0x100000000, 0x100000001, 0x7FFFFFFFFFFFFFFF,
    0x8000000000000000, 0x8000000000000001, 0xFFFFFFFFFFFFFFF8, 0xFFFFFFFFFFFFFFFE, 0xFFFFFFFFFFFFFFFF
};

uint64_t any_number(void)
{
    if (percent(60))
        return EDGES[below(sizeof EDGES / sizeof EDGES[0])];
    return any_width();
}

uint64_t alias(uint64_t n, unsigned place)
{
    return n + (UINT64_C(1) << (place + below(64 - place)));
}

/* The least significant byte first, on every machine; one store where that is its order. */
static void put_bytes(uint8_t *p, uint64_t v)
{
    p[0] = (uint8_t)v;
    p[1] = (uint8_t)(v >> 8);
    p[2] = (uint8_t)(v >> 16);
    p[3] = (uint8_t)(v >> 24);
    p[4] = (uint8_t)(v >> 32);
    p[5] = (uint8_t)(v >> 40);
    p[6] = (uint8_t)(v >> 48);
    p[7] = (uint8_t)(v >> 56);
}

/* The bytes could be those of the state, as far as the compiler knows: so it is kept apart from them. */
void any_bytes(uint8_t *p, size_t n)
{
    uint64_t state = chance_state;
    for (; n >= 8; p += 8, n -= 8)
        put_bytes(p, mixed(state += CHANCE_STEP));
    for (; n > 0; n--)
        *p++ = (uint8_t)mixed(state += CHANCE_STEP);
    chance_state = state;
}

void flip_bit(uint8_t *p, unsigned n)
{
    p += below(n);
    *p ^= (uint8_t)(1u << below(8));
}
