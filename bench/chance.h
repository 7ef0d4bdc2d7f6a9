/*
 * chance.h: numbers by chance, from a seed (splitmix64).
 *
 * A seed gives the same numbers everywhere. C leaves open which of two operands or arguments is computed first, so no
 * expression asks for chance twice, unless it does not matter which came first.
 */
#ifndef CHANCE_H
#define CHANCE_H

#include <stdbool.h>
#include <stddef.h>
#include <stdint.h>

#define SEED UINT64_C(0xADDE24207) /* where none is asked for */

void seed_chance(uint64_t seed);

/* Numbers of their own for each part of what a seed makes, so that a part can be made without those before it. */
void seed_part(uint64_t seed, uint64_t part);

/* Reads a number, or as a seed also the word fresh: one that differs from run to run. */
bool read_number(const char *text, uint64_t *n);
bool read_seed(const char *text, uint64_t *seed);

/* Begins the run of a program: reads its options --calls and --seed, says what it does and how often, and seeds chance.
   False, after a line of usage, where the options cannot be read. */
bool begin_run(int argc, char **argv, const char *name, const char *what, uint64_t *calls);

/* In line, since a night asks for hundreds of numbers for each call, mostly below one that is known here. */
extern uint64_t chance_state;

#define CHANCE_STEP UINT64_C(0x9E3779B97F4A7C15)

static inline uint64_t mixed(uint64_t z)
{
    z = (z ^ z >> 30) * UINT64_C(0xBF58476D1CE4E5B9);
    z = (z ^ z >> 27) * UINT64_C(0x94D049BB133111EB);
    return z ^ z >> 31;
}

static inline uint64_t any64(void)
{
    return mixed(chance_state += CHANCE_STEP);
}

/* A number under n; n is far below 2^64, so the remainder's bias does not matter. */
static inline unsigned below(unsigned n)
{
    return (unsigned)(any64() % n);
}

static inline bool percent(unsigned p)
{
    return below(100) < p;
}

uint64_t any_bit(void);

/* A number of any width up to 64 bits. */
uint64_t any_width(void);

/* One of the numbers around which a rule may change. */
uint64_t any_number(void);

/* The number with one bit more at or above this place: the same number where only the low bits are kept. */
uint64_t alias(uint64_t n, unsigned place);

void any_bytes(uint8_t *p, size_t n);
void flip_bit(uint8_t *p, unsigned n);

#endif
