/* order.h: what the score is asked for: its options. */
#ifndef ORDER_H
#define ORDER_H

#include "night.h"

#include <stdio.h>

enum { JOBS_MOST = 64, USUAL_SECONDS = 5 };

struct order {
    const char *program;    /* this one's name */
    const char *vendor;     /* the vendor's library */
    bool model;             /* no vendor is named, so the model stands for one */
    uint64_t seed, calls;
    uint64_t only;          /* the number of the one call that is told, or 0 */
    uint64_t jobs;
    uint64_t seconds;       /* how long a call may take */
    struct manner manner;
    bool judge_outputs;     /* a run's output is judged and not compared byte for byte (judge.h) */
    bool csv;
    const char *report;     /* the page's file, or NULL */
    const char *record;     /* the file of the calls' records, or NULL */
    const char *answers;    /* the file of the answers to these calls, or NULL */
    bool help, version;
};

/* Reads the options. Where one cannot be read, says why on standard error, with its value and the rule. */
bool read_order(struct order *o, int argc, char **argv);

void print_usage(FILE *to);

/* A command that makes the call of this number again, or the whole night if it is 0, as one types it. */
void print_command(FILE *to, const struct order *o, uint64_t number);

#endif
