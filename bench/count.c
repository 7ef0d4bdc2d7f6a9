/*
 * count.c: makes calls of one case of cases.c on one side, and prints nothing. counts.sh runs it under valgrind.
 *
 *     make target/bench/count
 *     count                                the names of the cases, a line each
 *     count library|model CASE CALLS       CASE from 1
 *
 * The result is 1 if the sides do not give the answer that the case names, or differ in the store or a buffer
 * afterwards: then the calls did other work.
 */
#include "cases.h"

#include <stdio.h>
#include <stdlib.h>
#include <string.h>

enum { CALLS_MAX = 1000000 };

static int usage(void)
{
    fprintf(stderr, "usage: count [library|model CASE CALLS], CASE from 1 to %zu, CALLS from 1 to %d\n", case_count(),
            CALLS_MAX);
    return 2;
}

/* A number from 1 to most, or 0. */
static size_t number(const char *text, size_t most)
{
    char *end;
    long n = strtol(text, &end, 10);
    return *end == '\0' && n >= 1 && (size_t)n <= most ? (size_t)n : 0;
}

static int list(void)
{
    for (size_t i = 0; i < case_count(); i++)
        puts(case_of(i).name);
    return 0;
}

static int repeat(struct party *s, const struct measured *m, size_t calls)
{
    bool same = prepare(m) && agree(m->work);
    for (size_t i = 0; i < calls; i++)
        m->work->call(s);
    if (!same || !agree(m->work)) {
        fprintf(stderr, "count: library and model differ, or did other work, in: %s\n", m->name);
        return 1;
    }
    return 0;
}

int main(int argc, char **argv)
{
    if (argc == 1)
        return list();
    if (argc != 4)
        return usage();
    struct party *s = strcmp(argv[1], "library") == 0 ? &library : strcmp(argv[1], "model") == 0 ? &model : NULL;
    size_t which = number(argv[2], case_count()), calls = number(argv[3], CALLS_MAX);
    if (s == NULL || which == 0 || calls == 0)
        return usage();
    struct measured m = case_of(which - 1);
    return repeat(s, &m, calls);
}
