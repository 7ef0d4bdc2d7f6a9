/*
 * figures.h: the figures of a night: how many calls agreed, each kind of disagreement, what was covered, and which vCPUs
 * were touched.
 *
 * A kind of disagreement is a call and what differs; where answers differ, the pair of both R3. The figures of parts of
 * a night add up to those of the whole, whoever makes the parts and when.
 */
#ifndef FIGURES_H
#define FIGURES_H

#include "cover.h"
#include "judge.h"
#include "touched.h"

/* A vendor's R3 that is no answer of any call counts as NO_ANSWER. */
enum { NO_ANSWER = ANSWERS, PAIRS = ANSWERS * (ANSWERS + 1), SORTS = WHATS + PAIRS, KIND_TEXT = 96 };

/* How many calls are told in full, and how much of each. */
enum { TOLD_MOST = 64, TOLD_SIZE = 16384 };

struct seen {
    uint64_t calls, first; /* how many, and the number of the first */
};

struct told {
    uint64_t number;
    char text[TOLD_SIZE];
};

/* Where outputs are judged: the runs that both sides accepted, those whose output is not the library's byte for byte,
   and of these the ones refused (judge.h). */
struct outputs {
    uint64_t all, other, refused;
};

struct figures {
    uint64_t made, agreed;
    uint64_t skipped;                     /* calls that were not made, since the part was left before */
    struct outputs outputs;
    struct seen seen[KIND_COUNT][SORTS]; /* by call; first what differs but answers, then the pairs */
    struct cover cover;
    struct touched touched;
    unsigned told_count;
    struct told told[TOLD_MOST]; /* the first of each kind, by number */
};

/* Counts a call that was made on both sides; true if it is the first of some kind. And an output of its own. */
bool count_call(struct figures *f, const struct made *m);
void count_output(struct figures *f, const struct made *m);

/* Room for the text of a call that is to be told, or NULL if there are too many. */
struct told *tell_next(struct figures *f, uint64_t number);

/* Adds up what n jobs made, from nothing. */
void add_figures(struct figures *to, const struct figures *from, size_t n);

/* ---- Kinds, one by one ---- */

/* A kind that was seen. */
struct sight {
    size_t call, sort;
    const struct seen *seen;
};

/* Fills in the kinds that were seen, by the number of their first call; gives back how many there are. */
enum { SIGHTS_MOST = KIND_COUNT * SORTS };
size_t list_sights(const struct figures *f, struct sight *sights);

/* What differs, as 'answer 7 -> 6' or 'store'; and the same behind the name of the call. */
void name_sort(size_t sort, char text[KIND_TEXT]);
void name_sight(const struct sight *s, char text[KIND_TEXT]);

/* The R3 of both sides, of a kind in which answers differ. */
bool is_pair(size_t sort, unsigned *ours, unsigned *theirs);

/* The text of a call that was told, or NULL. */
const char *told_of(const struct figures *f, uint64_t number);

#endif
