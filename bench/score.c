/*
 * score.c: makes a night of calls on the library and on a vendor's library, and tells the vendor's score.
 *
 *     make score VENDOR=./vendor.so
 *     score [--vendor FILE] [--opaque] [--large] [--report FILE] [--calls N] [--seed S] [--jobs N] [--only N] [--csv]
 *           [--nops] [--record FILE] [--answers FILE] [--judge-outputs]
 *
 * The vendor's library is a shared object that exports the functions of adderknot.h. It runs in a process of its own.
 * Each call is made on both sides with the same numbers and bytes; the answer, each lent byte and the bytes beside them
 * are compared. The library is the measure. After a disagreement its memory is copied to the vendor's side, so that one
 * mistake does not drown the rest. With --opaque the vendor keeps its own state instead: it changes by calls only, and
 * after a disagreement in what is kept the next episode begins; with --judge-outputs the output of a run is judged
 * (judge.h). With --large the store is the large one, and small ones are converted; a vendor that does not export
 * adk_convert is scored without that.
 *
 * The first disagreement of each kind is told in full. Then follow how often each call gave each answer, which elements
 * the night covered, by guests with the whole list and by POWER9 guests, how often the latter were refused what they
 * lack, how many accepted buffers held nothing but NOPs, how many vCPUs were handed over, how full the store was, in a
 * night by calls the tally of each vCPU that is there at its end, and the lines that sum it up.
 */
#define _GNU_SOURCE

#include "parts.h"
#include "result.h"

#include <errno.h>
#include <fcntl.h>
#include <inttypes.h>
#include <stdlib.h>
#include <string.h>
#include <sys/prctl.h>
#include <unistd.h>

/* ---- Output ---- */

/* Where a standard descriptor is closed, the next file would take its number and get what is printed. */
static void keep_descriptors(void)
{
    for (int fd = STDIN_FILENO; fd <= STDERR_FILENO; fd++)
        if (fcntl(fd, F_GETFD) < 0)
            open("/dev/null", O_RDONLY); /* writing to it fails, as to the closed one */
}

/* Whether all that was written has arrived. */
static bool arrived(FILE *file, const char *name)
{
    if (fflush(file) == 0 && !ferror(file))
        return true;
    fprintf(stderr, "score: cannot write %s: %s\n", name, strerror(errno));
    return false;
}

/* The page's file is opened before the night, so that a wrong name is told at once. */
static bool open_page(const struct order *o, FILE **page)
{
    *page = NULL;
    if (o->report == NULL)
        return true;
    *page = fopen(o->report, "w");
    if (*page == NULL)
        fprintf(stderr, "score: cannot write %s: %s\n", o->report, strerror(errno));
    return *page != NULL;
}

static bool write_page(FILE *page, const struct result *r)
{
    if (page == NULL)
        return true;
    page_score(page, r);
    bool well = arrived(page, r->order->report);
    return fclose(page) == 0 && well;
}

/* ---- The night ---- */

/* Whether the vendor's library can be used; where not, it was said why. What it cannot do is not asked for. */
static bool fit_vendor(struct order *o, struct result *r)
{
    struct vendor vendor = { .path = o->vendor, .seconds = (unsigned)o->seconds };
    if (o->model && access(o->vendor, R_OK) != 0) {
        fprintf(stderr, "score: no vendor is named, and the model is not at %s; see score --help\n", o->vendor);
        return false;
    }
    if (!open_vendor(&vendor))
        return false;
    o->manner.no_conversion = !vendor.converts;
    close_vendor(&vendor);
    if (sha256_file(o->vendor, r->sha256))
        return true;
    fprintf(stderr, "score: cannot read %s: %s\n", o->vendor, strerror(errno));
    return false;
}

static void announce(const struct order *o)
{
    if (o->csv || o->only != 0)
        return;
    if (o->model)
        printf("score: no vendor is named, so the model stands for one\n");
    if (o->manner.large && o->manner.no_conversion)
        printf("score: the vendor does not export adk_convert, so conversion is not scored\n");
    printf("score: vendor %s, %" PRIu64 " calls, seed 0x%" PRIX64 "%s%s%s\n\n", o->vendor, o->calls, o->seed,
           o->manner.opaque ? ", opaque" : "", o->manner.large ? ", large store" : "",
           o->judge_outputs ? ", outputs judged" : "");
}

static double seconds_since(const struct timespec *begun)
{
    struct timespec now;
    clock_gettime(CLOCK_MONOTONIC, &now);
    return (double)(now.tv_sec - begun->tv_sec) + 1e-9 * (double)(now.tv_nsec - begun->tv_nsec);
}

/* The status after --only. */
static int told_one(const struct result *r, const struct figures *figures)
{
    if (figures->made != 0)
        return figures->agreed != 0 ? PASSED : FAILED;
    if (r->verdict == STOPPED)
        return STOPPED;
    fprintf(stderr, "score: call %" PRIu64 " is not made: a disagreement before it ends its part\n", r->order->only);
    return UNFIT;
}

static int make_score(struct result *r, struct figures *figures, struct recording *recording, FILE *page)
{
    struct timespec begun;
    r->start = time(NULL);
    clock_gettime(CLOCK_MONOTONIC, &begun);
    enum night_end end = make_night(r->order, recording, figures);
    r->seconds = seconds_since(&begun);
    if (end == NIGHT_LOST) {
        fprintf(stderr, "score: a part of the night was lost\n");
        return UNFIT;
    }
    judge_night(r, end == NIGHT_STOPPED);
    if (r->order->only != 0)
        return told_one(r, figures);
    if (r->order->csv)
        csv_score(stdout, r);
    else
        print_score(stdout, r);
    bool told = arrived(stdout, "standard output"); /* first, so that no message stands amid the score */
    return write_page(page, r) && told ? (int)r->verdict : UNFIT;
}

int main(int argc, char **argv)
{
    static struct figures figures;
    struct order order;
    struct result result = { .order = &order, .figures = &figures };
    struct recording recording;
    FILE *page;
    keep_descriptors();
    if (!read_order(&order, argc, argv))
        return UNFIT;
    if (order.help || order.version) {
        if (order.help)
            print_usage(stdout);
        else
            printf("score " ADK_VERSION "\n");
        return arrived(stdout, "standard output") ? PASSED : UNFIT;
    }
    prctl(PR_SET_DUMPABLE, 0); /* so that the vendor's process, which has the same user, cannot look into this one */
    if (!fit_vendor(&order, &result) || !open_page(&order, &page) || !open_recording(&recording, &order))
        return UNFIT;
    announce(&order);
    return make_score(&result, &figures, &recording, page);
}
