/* vendor.c: see vendor.h. */
#define _GNU_SOURCE

#include "vendor.h"

#include "watch.h"

#include <errno.h>
#include <fcntl.h>
#include <poll.h>
#include <signal.h>
#include <stdio.h>
#include <string.h>
#include <sys/prctl.h>
#include <sys/resource.h>
#include <time.h>
#include <unistd.h>

/* ---- The process ---- */

/* What is printed goes to the score, nothing is read, and no other descriptor stays but the window's. Those that are
   put into place are first brought out of each other's way. */
static void leave_descriptors(const struct window *w, int output)
{
    int nowhere = fcntl(open("/dev/null", O_RDWR), F_DUPFD, WINDOW_FILE + 1);
    int file = fcntl(w->file, F_DUPFD, WINDOW_FILE + 1);
    output = fcntl(output, F_DUPFD, WINDOW_FILE + 1);
    dup2(nowhere, STDIN_FILENO);
    dup2(output, STDOUT_FILENO);
    dup2(nowhere, STDERR_FILENO);
    dup2(file, WINDOW_FILE);
    close_range(WINDOW_FILE + 1, ~0U, 0);
}

static void limit_resources(void)
{
    static const struct rlimit no_core = { 0, 0 }, memory_of_its_own = { UINT64_C(2) << 30, UINT64_C(2) << 30 };
    setrlimit(RLIMIT_CORE, &no_core);
    setrlimit(RLIMIT_DATA, &memory_of_its_own);
}

/* The program that is the vendor's process, in the folder of this one. */
static const char *host_program(void)
{
    static char path[4096];
    static const char name[] = "score-vendor";
    ssize_t n = readlink("/proc/self/exe", path, sizeof path - sizeof name);
    path[n < 0 ? 0 : n] = '\0';
    char *slash = strrchr(path, '/');
    strcpy(slash == NULL ? path : slash + 1, name);
    return path;
}

static _Noreturn void be_vendor(struct vendor *v, pid_t score, int output)
{
    static const int usual[] = { SIGINT, SIGTERM, SIGHUP };
    prctl(PR_SET_PDEATHSIG, SIGKILL);
    if (getppid() != score)
        _exit(0);
    setsid();
    for (size_t i = 0; i < COUNT(usual); i++)
        signal(usual[i], SIG_DFL);
    leave_descriptors(&v->window, output);
    limit_resources();
    execl(host_program(), host_program(), v->path, (char *)NULL);
    _exit(127);
}

/* Ends the process and what it started. */
static void end_process(struct vendor *v)
{
    if (v->pid == 0)
        return;
    kill(-v->pid, SIGKILL);
    kill(v->pid, SIGKILL);
    reap(v->pid);
    v->pid = 0;
    close(v->output);
}

/* ---- Waiting ---- */

static uint64_t milliseconds_now(void)
{
    struct timespec now;
    clock_gettime(CLOCK_MONOTONIC, &now);
    return (uint64_t)now.tv_sec * 1000 + (uint64_t)now.tv_nsec / 1000000;
}

static unsigned note_hang(struct vendor *v, unsigned limit, char *note)
{
    v->hung++;
    snprintf(note, NOTE_SIZE, "did not return within %u.%02u seconds", limit / 1000, limit % 1000 / 10);
    return A(HUNG);
}

/* What is printed while the library is loaded is no call's, and is dropped: as much as a pipe holds, since it may have
   no end. */
static void drop_output(const struct vendor *v)
{
    struct pollfd output = { .fd = v->output, .events = POLLIN };
    char text[4096];
    for (int i = 0; i < 16 && poll(&output, 1, 0) == 1 && output.revents & POLLIN; i++)
        if (read(v->output, text, sizeof text) <= 0)
            return;
}

/* Sleeps in short pieces: a wake-up may be lost, since the vendor can write over the desk. Without a call it is the
   loading that is waited for. */
static void await_slowly(struct vendor *v, const struct call *c, struct deed *deed)
{
    unsigned limit = 1000 * v->seconds / (v->hung < PATIENCE ? 1 : IMPATIENCE);
    uint64_t begun = milliseconds_now();
    struct turn *done = &v->window.desk->done;
    for (;;) {
        deed->what = note_event(v, c, deed->note);
        if (deed->what == 0 && atomic_load(&done->number) == v->turn) {
            deed->returned = true;
            return;
        }
        if (deed->what == 0 && c == NULL)
            drop_output(v);
        else if (deed->what == 0)
            deed->what = note_output(v, deed->note);
        deed->made = v->stop == NULL || !*v->stop;
        if (deed->what != 0 || !deed->made)
            return;
        if (milliseconds_now() - begun > limit) {
            deed->what = note_hang(v, limit, deed->note);
            return;
        }
        sleep_for_turn(done, v->turn, 2);
    }
}

static struct deed await(struct vendor *v, const struct call *c)
{
    struct deed deed = { .made = true };
    deed.returned = spin_for_turn(&v->window.desk->done, v->turn);
    if (!deed.returned)
        await_slowly(v, c, &deed);
    if (deed.returned)
        deed.what |= note_output(v, deed.note);
    if (deed.made && !desk_intact(&v->window)) {
        deed.what |= A(OVERWROTE);
        snprintf(deed.note, NOTE_SIZE, "wrote over memory that is shared and was not lent");
    }
    if (deed.what != 0 || !deed.made)
        end_process(v);
    return deed;
}

static void next_turn(struct vendor *v)
{
    tell_turn(&v->window.desk->posted, ++v->turn);
}

/* ---- Starting ---- */

static void no_action(int number)
{
    (void)number;
}

/* A change of the process ends a sleep. */
static void heed_changes(void)
{
    sigaction(SIGCHLD, &(struct sigaction){ .sa_handler = no_action }, NULL);
}

static bool fork_vendor(struct vendor *v)
{
    int output[2];
    pid_t score = getpid();
    if (pipe2(output, O_CLOEXEC) != 0)
        return false;
    v->pid = fork();
    if (v->pid == 0)
        be_vendor(v, score, output[1]);
    close(output[1]);
    v->output = output[0];
    if (v->pid > 0)
        return true;
    v->pid = 0;
    close(output[0]);
    return false;
}

bool start_vendor(struct vendor *v, char why[DESK_TEXT])
{
    struct desk *d = v->window.desk;
    if (v->pid != 0)
        return true;
    memset(d, 0, sizeof *d);
    d->front = d->back = DESK_MARK;
    v->turn = 0;
    if (!fork_vendor(v)) {
        snprintf(why, DESK_TEXT, "no process for it can be made: %s", strerror(errno));
        return false;
    }
    watch(v);
    next_turn(v);
    struct deed deed = { .made = true };
    await_slowly(v, NULL, &deed);
    if (deed.returned && d->unfit[0] == '\0') {
        v->converts = !d->lacks_conversion;
        drop_output(v);
        return true;
    }
    end_process(v);
    if (deed.returned)
        snprintf(why, DESK_TEXT, "%.*s", DESK_TEXT - 1, d->unfit);
    else
        snprintf(why, DESK_TEXT, "while it was loaded it %s", deed.note);
    make_printable(why, strlen(why));
    return false;
}

bool open_vendor(struct vendor *v)
{
    char why[DESK_TEXT];
    heed_changes();
    if (access(host_program(), X_OK) != 0) {
        fprintf(stderr, "score: cannot start %s: %s\n", host_program(), strerror(errno));
        return false;
    }
    if (!make_window(&v->window)) {
        fprintf(stderr, "score: no memory to share with the vendor's library: %s\n", strerror(errno));
        return false;
    }
    if (start_vendor(v, why))
        return true;
    fprintf(stderr, "score: cannot use the vendor's library %s: %s\n", v->path, why);
    free_window(&v->window);
    return false;
}

void close_vendor(struct vendor *v)
{
    end_process(v);
    free_window(&v->window);
}

/* ---- A call ---- */

void post_call(struct vendor *v, const struct call *c)
{
    put_call(&v->window, c, v->keeps_store);
    next_turn(v);
}

struct deed await_call(struct vendor *v, const struct call *c, adk_found *found)
{
    struct deed deed = await(v, c);
    *found = deed.returned ? v->window.desk->found : (adk_found){ 0 };
    return deed;
}

bool left_ours(const struct vendor *v, const struct call *c)
{
    return holds_ours(&v->window, c, v->keeps_store);
}

void take_theirs(const struct vendor *v, const struct call *c)
{
    take_bytes(&v->window, c, v->keeps_store);
}
