/*
 * pieces.c: copies standard input to standard output in pieces of sizes by chance, from 1 to 70,000 bytes, so that a
 * program that reads it through a pipe meets pieces that end anywhere.
 *
 *     make target/bench/pieces
 *     pieces [SEED]
 */
#include "chance.h"

#include <stdio.h>

enum { PIECE_MAX = 70000, WIDTHS = 18 };

/* Short ones are as frequent as long ones. */
static size_t any_size(void)
{
    unsigned most = 1u << below(WIDTHS);
    return 1 + below(most < PIECE_MAX ? most : PIECE_MAX);
}

int main(int argc, char **argv)
{
    static char bytes[PIECE_MAX];
    uint64_t seed = SEED;
    size_t n;
    if (argc > 2 || (argc == 2 && !read_seed(argv[1], &seed))) {
        fprintf(stderr, "usage: pieces [SEED], a number or the word fresh\n");
        return 2;
    }
    seed_chance(seed);
    setvbuf(stdout, NULL, _IONBF, 0); /* a piece is one write */
    while ((n = fread(bytes, 1, any_size(), stdin)) > 0)
        if (fwrite(bytes, 1, n, stdout) != n)
            return 1;
    return 0;
}
