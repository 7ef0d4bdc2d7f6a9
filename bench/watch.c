/* watch.c: see watch.h. */
#define _GNU_SOURCE

#include "watch.h"

#include <ctype.h>
#include <errno.h>
#include <poll.h>
#include <signal.h>
#include <stdio.h>
#include <string.h>
#include <sys/ptrace.h>
#include <sys/wait.h>
#include <unistd.h>

const char *const WHAT_NAME[WHATS] = { "store",     "buffer", "output",  "outside", "printed", "closed",
                                       "overwrote", "exited", "crashed", "signal",  "forked",  "hung" };

/* A process that is traced also tells its stops. */
void reap(pid_t pid)
{
    int status = 0;
    for (;;) {
        pid_t told = waitpid(pid, &status, __WALL);
        if (told == pid ? WIFEXITED(status) || WIFSIGNALED(status) : errno != EINTR)
            return;
    }
}

/* The process is first to be the other program, which can be traced; the score itself lets nobody look into it. The
   library is loaded after this, so what the desk says is still the host's word. */
void watch(struct vendor *v)
{
    struct turn *ready = &v->window.desk->ready;
    for (int i = 0; i < 1000 && !spin_for_turn(ready, 1); i++)
        sleep_for_turn(ready, 1, 1);
    v->base = v->window.desk->base;
    ptrace(PTRACE_SEIZE, v->pid, NULL,
           (void *)(long)(PTRACE_O_EXITKILL | PTRACE_O_TRACEFORK | PTRACE_O_TRACEVFORK | PTRACE_O_TRACEEXEC));
}

void make_printable(char *text, size_t n)
{
    for (size_t i = 0; i < n; i++)
        if (!isprint((unsigned char)text[i]))
            text[i] = ' ';
}

static bool is_fault(int number)
{
    return number == SIGSEGV || number == SIGBUS || number == SIGFPE || number == SIGILL;
}

/* A fault at an address, a piece of lent memory if it is close to one. */
static unsigned note_fault(const struct vendor *v, const struct call *c, const siginfo_t *info, char *note)
{
    long at;
    enum piece p = c == NULL ? PIECES : piece_at(&v->window, c, v->base, info->si_addr, &at);
    if (info->si_signo == SIGSEGV && p != PIECES) {
        snprintf(note, NOTE_SIZE, "touched byte %ld of the %s, of which %zu bytes are lent", at, PIECE_NAME[p],
                 c->len[p]);
        return A(OUTSIDE);
    }
    snprintf(note, NOTE_SIZE, "crashed: signal %d (%s), address %p", info->si_signo, strsignal(info->si_signo),
             info->si_addr);
    return A(CRASHED);
}

/* A signal that is about to reach the process. Those that do nothing by themselves are let through. */
static unsigned note_signal(const struct vendor *v, const struct call *c, int number, char *note)
{
    siginfo_t info;
    if (number == SIGCHLD || number == SIGCONT || number == SIGURG || number == SIGWINCH) {
        ptrace(PTRACE_CONT, v->pid, NULL, (void *)(long)number);
        return 0;
    }
    if (is_fault(number) && ptrace(PTRACE_GETSIGINFO, v->pid, NULL, &info) == 0 && info.si_code > 0)
        return note_fault(v, c, &info, note);
    snprintf(note, NOTE_SIZE, "%s signal %d (%s)", number == SIGABRT ? "crashed:" : "raised", number,
             strsignal(number));
    return A(number == SIGABRT ? CRASHED : SIGNALLED);
}

/* The copy is stopped like the process itself, and has done nothing yet. */
static unsigned note_fork(const struct vendor *v, char *note)
{
    unsigned long copy = 0;
    snprintf(note, NOTE_SIZE, "forked");
    if (ptrace(PTRACE_GETEVENTMSG, v->pid, NULL, &copy) == 0 && copy != 0) {
        kill((pid_t)copy, SIGKILL);
        reap((pid_t)copy);
    }
    return A(FORKED);
}

static unsigned note_stop(const struct vendor *v, const struct call *c, int status, char *note)
{
    switch (status >> 16) {
    case 0: return note_signal(v, c, WSTOPSIG(status), note);
    case PTRACE_EVENT_FORK:
    case PTRACE_EVENT_VFORK: return note_fork(v, note);
    case PTRACE_EVENT_EXEC:
        snprintf(note, NOTE_SIZE, "ran another program");
        return A(EXITED);
    default:
        snprintf(note, NOTE_SIZE, "raised signal %d (%s)", WSTOPSIG(status), strsignal(WSTOPSIG(status)));
        return A(SIGNALLED);
    }
}

unsigned note_event(struct vendor *v, const struct call *c, char *note)
{
    int status;
    if (waitpid(v->pid, &status, WNOHANG | __WALL) != v->pid)
        return 0;
    if (WIFSTOPPED(status))
        return note_stop(v, c, status, note);
    kill(-v->pid, SIGKILL);
    v->pid = 0;
    close(v->output);
    if (WIFEXITED(status)) {
        snprintf(note, NOTE_SIZE, "exited with status %d", WEXITSTATUS(status));
        return A(EXITED);
    }
    snprintf(note, NOTE_SIZE, "crashed: signal %d (%s)", WTERMSIG(status), strsignal(WTERMSIG(status)));
    return A(CRASHED);
}

unsigned note_output(const struct vendor *v, char *note)
{
    struct pollfd output = { .fd = v->output, .events = POLLIN };
    char text[48];
    if (v->pid == 0 || poll(&output, 1, 0) != 1)
        return 0;
    ssize_t n = output.revents & POLLIN ? read(v->output, text, sizeof text) : 0;
    if (n <= 0) {
        snprintf(note, NOTE_SIZE, "closed its standard output");
        return A(CLOSED);
    }
    make_printable(text, (size_t)n);
    snprintf(note, NOTE_SIZE, "wrote on standard output: %.*s", (int)n, text);
    return A(PRINTED);
}
