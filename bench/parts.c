/* parts.c: see parts.h. */
#define _GNU_SOURCE

#include "parts.h"

#include "account.h"
#include "chance.h"

#include <errno.h>
#include <inttypes.h>
#include <signal.h>
#include <stdio.h>
#include <string.h>
#include <sys/mman.h>
#include <sys/prctl.h>
#include <sys/wait.h>
#include <time.h>
#include <unistd.h>

/* What the jobs and the score share; no vendor's process has it. */
struct shared {
    volatile int stop;
    struct figures jobs[];
};

struct job {
    const struct order *order;
    struct figures *figures;
    struct vendor vendor;
    const volatile int *stop;
    struct recording *recording;
};

/* ---- A part ---- */

static void tell(FILE *to, const struct job *j, const struct made *m, bool all)
{
    if (m->deed.returned)
        take_theirs(&j->vendor, &m->call);
    tell_made(to, j->order, m, all);
}

static void tell_first(struct job *j, const struct made *m)
{
    struct told *told = tell_next(j->figures, m->number);
    FILE *to = told == NULL ? NULL : fmemopen(told->text, TOLD_SIZE - 1, "w");
    if (to == NULL)
        return;
    tell(to, j, m, false);
    fclose(to);
}

/* Counts the call, and tells it if it is the first of a kind; with --only just the one that is asked for. */
static void note_made(struct job *j, const struct made *m)
{
    if (has_own_output(m, &j->vendor))
        count_output(j->figures, m);
    if (j->order->only == 0) {
        if (count_call(j->figures, m))
            tell_first(j, m);
    } else if (m->number == j->order->only) {
        count_call(j->figures, m);
        tell(stdout, j, m, true);
    }
}

/* Whether the vendor must make the call, so that the ones to be told or counted are right. */
static bool concerns_vendor(const struct job *j, uint64_t number)
{
    return j->order->only == 0 || j->order->only == number || j->order->manner.opaque;
}

/* One call; false if it is the last one of the part that can be made. */
static bool make_one(struct job *j, struct made *m, unsigned *ends)
{
    char why[DESK_TEXT];
    if (!concerns_vendor(j, m->number)) {
        make_ours(m);
        settle(m);
        share_all();
        return true;
    }
    m->deed.made = false;
    if (!start_vendor(&j->vendor, why))
        return false;
    make_both(m, &j->vendor);
    if (!m->deed.made)
        return false;
    note_made(j, m);
    record_call(j->recording, m);
    settle(m);
    *ends += j->vendor.pid == 0;
    return *ends < ENDS_MOST && !(j->order->manner.opaque && !agrees(m) && keeps_something_else(m));
}

static void make_part(struct job *j, uint64_t part)
{
    uint64_t first = part * PART + 1, last = first + PART - 1;
    unsigned ends = 0;
    struct made m = { 0 };
    if (last > j->order->calls)
        last = j->order->calls;
    seed_part(j->order->seed, part);
    fill_memory();
    begin_night(j->order->manner);
    begin_tally(j->order->manner.opaque);
    for (m.number = first; m.number <= last && !*j->stop; m.number++) {
        m.call = next_call(m.number - first + 1);
        if (make_one(j, &m, &ends))
            continue;
        if (!*j->stop)
            j->figures->skipped += last - m.number + (m.deed.made ? 0 : 1);
        break;
    }
    if (m.number > first)
        end_tally(&j->figures->touched, part + 1);
}

/* ---- A job ---- */

/* Makes each part whose number leaves this remainder. */
static int make_parts(struct job *j, uint64_t remainder)
{
    uint64_t parts = (j->order->calls + PART - 1) / PART;
    uint64_t first = j->order->only == 0 ? remainder : (j->order->only - 1) / PART;
    make_memory();
    if (!open_vendor(&j->vendor))
        return 1;
    for (uint64_t part = first; part < parts && !*j->stop; part += j->order->jobs)
        make_part(j, part);
    close_vendor(&j->vendor);
    free_memory();
    if (!end_recording(j->recording, j->order))
        return 1;
    if (j->order->only == 0 || (fflush(stdout) == 0 && !ferror(stdout)))
        return 0;
    fprintf(stderr, "score: cannot write standard output: %s\n", strerror(errno));
    return 1;
}

/* A job heeds the score alone, which is told to stop with it. */
static _Noreturn void be_job(const struct order *o, struct recording *r, struct shared *shared, uint64_t number,
                             pid_t score)
{
    static const int not_heeded[] = { SIGINT, SIGTERM, SIGHUP };
    struct job j = { .order = o, .figures = &shared->jobs[number], .stop = &shared->stop, .recording = r };
    j.vendor = (struct vendor){ .path = o->vendor, .keeps_store = o->manner.opaque,
                                .orders_outputs = o->judge_outputs, .stop = &shared->stop,
                                .seconds = (unsigned)o->seconds };
    prctl(PR_SET_PDEATHSIG, SIGKILL);
    if (getppid() != score)
        _exit(1);
    for (size_t i = 0; i < COUNT(not_heeded); i++)
        signal(not_heeded[i], SIG_IGN);
    _exit(make_parts(&j, number));
}

/* ---- The night ---- */

static volatile int *stop_word;

static void stop(int number)
{
    (void)number;
    *stop_word = 1;
}

static void heed_stop(struct shared *shared)
{
    static const int heeded[] = { SIGINT, SIGTERM, SIGHUP };
    struct sigaction before;
    stop_word = &shared->stop;
    for (size_t i = 0; i < COUNT(heeded); i++) {
        sigaction(heeded[i], &(struct sigaction){ .sa_handler = stop }, &before);
        if (heeded[i] == SIGHUP && before.sa_handler == SIG_IGN)
            signal(SIGHUP, SIG_IGN); /* as nohup asks for */
    }
}

static void show_progress(const struct order *o, const struct shared *shared)
{
    uint64_t made = 0, agreed = 0, skipped = 0;
    for (uint64_t i = 0; i < o->jobs; i++) {
        made += shared->jobs[i].made;
        agreed += shared->jobs[i].agreed;
        skipped += shared->jobs[i].skipped;
    }
    fprintf(stderr, "\r%3" PRIu64 " %% of %" PRIu64 " calls, %" PRIu64 " disagreed\033[K",
            100 * (made + skipped) / o->calls, o->calls, made - agreed);
}

/* Waits until all jobs have ended; false if one did not end well. */
static bool await_jobs(const struct order *o, const struct shared *shared)
{
    bool watched = isatty(STDERR_FILENO) && o->only == 0, well = true;
    uint64_t running = o->jobs;
    while (running > 0) {
        int status;
        pid_t ended = waitpid(-1, &status, watched ? WNOHANG : 0);
        if (ended > 0) {
            running--;
            well = well && WIFEXITED(status) && WEXITSTATUS(status) == 0;
            if (WIFSIGNALED(status) && WTERMSIG(status) == SIGPIPE)
                raise(SIGPIPE); /* nobody reads what --only tells, so it ends as if it had been told here */
        } else if (watched) {
            show_progress(o, shared);
            nanosleep(&(struct timespec){ 0, 100000000 }, NULL);
        }
    }
    if (watched)
        fprintf(stderr, "\r\033[K");
    return well;
}

static bool start_jobs(const struct order *o, struct recording *r, struct shared *shared)
{
    pid_t score = getpid();
    fflush(stdout);
    for (uint64_t i = 0; i < o->jobs; i++) {
        pid_t pid = fork();
        if (pid == 0)
            be_job(o, r, shared, i, score);
        if (pid < 0) {
            shared->stop = 1;
            return false;
        }
    }
    return true;
}

enum night_end make_night(const struct order *o, struct recording *recording, struct figures *figures)
{
    size_t size = sizeof(struct shared) + o->jobs * sizeof(struct figures);
    struct shared *shared = mmap(NULL, size, PROT_READ | PROT_WRITE, MAP_SHARED | MAP_ANONYMOUS, -1, 0);
    if (shared == MAP_FAILED)
        return NIGHT_LOST;
    heed_stop(shared);
    bool well = start_jobs(o, recording, shared) && await_jobs(o, shared);
    add_figures(figures, shared->jobs, o->jobs);
    return !well ? NIGHT_LOST : shared->stop ? NIGHT_STOPPED : NIGHT_MADE; /* a late signal still finds its word */
}
