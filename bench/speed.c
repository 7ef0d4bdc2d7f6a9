/*
 * speed.c: times the library against the model on the cases of cases.c.
 *
 *     make target/bench/speed
 *     speed [--rounds N]
 *
 * It prints a line for each case: 'ratio  library ns  model ns  case'. Each round times both sides on the same work,
 * one straight after the other and in changing order, so that both meet the same machine. The ratio is the median of
 * the rounds' ratios, library over model; the times are medians too, of one call.
 *
 * The result is 0 whatever the ratios are: it is a measurement. It is 1 if the sides do not give the answer that the
 * case names, or differ in the store or a buffer afterwards.
 */
#define _POSIX_C_SOURCE 199309L

#include "cases.h"

#include <stdio.h>
#include <stdlib.h>
#include <string.h>
#include <time.h>

enum { ROUNDS_MAX = 100000, BATCH_NS = 400000 };

static double now(void)
{
    struct timespec t;
    clock_gettime(CLOCK_MONOTONIC, &t);
    return 1e9 * (double)t.tv_sec + (double)t.tv_nsec;
}

/* The time of one call, from so many. */
static double time_call(struct party *s, const struct work *w, unsigned calls)
{
    double start = now();
    for (unsigned i = 0; i < calls; i++)
        w->call(s);
    return (now() - start) / calls;
}

/* So many calls that the clock's own steps do not matter. */
static unsigned batch_size(const struct work *w)
{
    unsigned calls = 1;
    while (calls < 1u << 24 && calls * time_call(&model, w, calls) < BATCH_NS)
        calls *= 2;
    return calls;
}

static int by_size(const void *a, const void *b)
{
    double x = *(const double *)a, y = *(const double *)b;
    return (x > y) - (x < y);
}

static double median(double *v, size_t n)
{
    qsort(v, n, sizeof v[0], by_size);
    return n % 2 != 0 ? v[n / 2] : (v[n / 2 - 1] + v[n / 2]) / 2;
}

static void measure(const struct measured *m, unsigned rounds)
{
    static double ratio[ROUNDS_MAX], lib[ROUNDS_MAX], mdl[ROUNDS_MAX];
    const struct work *w = m->work;
    unsigned calls = batch_size(w);
    for (unsigned i = 0; i < rounds; i++) {
        if (i % 2 != 0)
            mdl[i] = time_call(&model, w, calls);
        lib[i] = time_call(&library, w, calls);
        if (i % 2 == 0)
            mdl[i] = time_call(&model, w, calls);
        ratio[i] = lib[i] / mdl[i];
    }
    printf("%5.2f  %10.1f  %8.1f  %s\n", median(ratio, rounds), median(lib, rounds), median(mdl, rounds), m->name);
}

static int usage(void)
{
    fprintf(stderr, "usage: speed [--rounds N], N from 1 to %d\n", ROUNDS_MAX);
    return 2;
}

int main(int argc, char **argv)
{
    long rounds = 201;
    char *end = "";
    if (argc == 3 && strcmp(argv[1], "--rounds") == 0)
        rounds = strtol(argv[2], &end, 10);
    else if (argc != 1)
        return usage();
    if (*end != '\0' || rounds < 1 || rounds > ROUNDS_MAX)
        return usage();
    printf("speed: %ld rounds\nratio  library ns  model ns  case\n", rounds);
    for (size_t i = 0; i < case_count(); i++) {
        struct measured m = case_of(i);
        bool same = prepare(&m) && agree(m.work);
        measure(&m, (unsigned)rounds);
        if (!same || !agree(m.work)) {
            printf("failed speed: library and model differ, or did other work, in: %s\n", m.name);
            return 1;
        }
    }
    return 0;
}
