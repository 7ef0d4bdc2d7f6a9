/* result.h: what a night comes to: the verdict, and what the text, the rows and the page say beside the figures. */
#ifndef RESULT_H
#define RESULT_H

#include "figures.h"
#include "order.h"
#include "sha256.h"

#include <time.h>

/* In this order they are also the exit statuses, but that 2 is for what is no night at all. */
enum verdict { PASSED = 0, FAILED = 1, UNFIT = 2, WORTH_NOTHING = 3, STOPPED = 4 };

enum { SENTENCE = 256 };

struct result {
    const struct order *order;
    const struct figures *figures;
    enum verdict verdict;
    char sentence[SENTENCE]; /* the verdict's reason */
    char sha256[SHA256_TEXT]; /* of the vendor's library */
    time_t start;
    double seconds;
};

/* In a word. */
const char *verdict_name(enum verdict v);

/* Judges the figures; the verdict and its sentence are filled in. */
void judge_night(struct result *r, bool stopped);

/* The score as text, as rows of four fields (section, subject, measure, number), and as a page. */
void print_score(FILE *to, const struct result *r);
void csv_score(FILE *to, const struct result *r);
void page_score(FILE *to, const struct result *r);

#endif
