/* depth.c: see depth.h. */
#define _GNU_SOURCE

#include "depth.h"

#include <signal.h>
#include <string.h>
#include <sys/mman.h>
#include <ucontext.h>
#include <unistd.h>

enum { PUSHED = 8 * (ARGUMENTS - 6), PAINT = 0xA5, TRAP_FLAG = 0x100 };

static uint8_t *shallow_stack; /* its lowest byte */
static size_t page;
static volatile uintptr_t lowest; /* where the stack pointer was seen */
static bool stepping;
static unsigned room = DEPTH;

/* Calls a function on the stack whose arguments end at top. The flags are set by way of the place that the return
   address then takes, and cleared on the ordinary stack. */
__attribute__((naked)) static void enter(void (*function)(void), const uint64_t *words, void *top, uint64_t flags)
{
    (void)function;
    (void)words;
    (void)top;
    (void)flags;
    __asm__("push %rbp\n\t"
            "mov %rsp, %rbp\n\t"
            "mov %rdi, %rax\n\t"
            "mov %rsi, %r10\n\t"
            "mov %rcx, %r11\n\t"
            "mov %rdx, %rsp\n\t"
            "pushq 120(%r10)\n\t"
            "pushq 112(%r10)\n\t"
            "pushq 104(%r10)\n\t"
            "pushq 96(%r10)\n\t"
            "pushq 88(%r10)\n\t"
            "pushq 80(%r10)\n\t"
            "pushq 72(%r10)\n\t"
            "pushq 64(%r10)\n\t"
            "pushq 56(%r10)\n\t"
            "pushq 48(%r10)\n\t"
            "mov (%r10), %rdi\n\t"
            "mov 8(%r10), %rsi\n\t"
            "mov 16(%r10), %rdx\n\t"
            "mov 24(%r10), %rcx\n\t"
            "mov 32(%r10), %r8\n\t"
            "mov 40(%r10), %r9\n\t"
            "pushfq\n\t"
            "orq %r11, (%rsp)\n\t"
            "popfq\n\t"
            "call *%rax\n\t"
            "mov %rbp, %rsp\n\t"
            "pushfq\n\t"
            "andq $-257, (%rsp)\n\t"
            "popfq\n\t"
            "pop %rbp\n\t"
            "ret");
}

/* The steps before and after the call are on the ordinary stack, and do not count. */
static void note_step(int number, siginfo_t *info, void *context)
{
    const ucontext_t *stopped = context;
    uintptr_t at = (uintptr_t)stopped->uc_mcontext.gregs[REG_RSP];
    (void)number;
    (void)info;
    if (at < lowest && at >= (uintptr_t)shallow_stack - page)
        lowest = at;
}

/* The signal of a step has a stack of its own. */
static bool heed_steps(void)
{
    static uint8_t steps[1 << 16];
    stack_t other = { .ss_sp = steps, .ss_size = sizeof steps };
    struct sigaction action = { .sa_sigaction = note_step, .sa_flags = SA_SIGINFO | SA_ONSTACK };
    return sigaltstack(&other, NULL) == 0 && sigaction(SIGTRAP, &action, NULL) == 0;
}

bool make_stack(void)
{
    page = (size_t)sysconf(_SC_PAGESIZE);
    uint8_t *p = mmap(NULL, 2 * page, PROT_READ | PROT_WRITE, MAP_PRIVATE | MAP_ANONYMOUS, -1, 0);
    if (p == MAP_FAILED || mprotect(p, page, PROT_NONE) != 0)
        return false;
    shallow_stack = p + page;
    return heed_steps();
}

void step_calls(bool stepped)
{
    stepping = stepped;
}

void set_room(unsigned bytes)
{
    room = bytes;
}

unsigned call_shallow(void (*function)(void), const uint64_t *words)
{
    uint8_t *top = shallow_stack + room;
    unsigned clean = 0;
    memset(shallow_stack, PAINT, room);
    lowest = (uintptr_t)top;
    enter(function, words, top + PUSHED, stepping ? TRAP_FLAG : 0);
    while (clean < room && shallow_stack[clean] == PAINT)
        clean++;
    unsigned written = room - clean, reserved = (unsigned)((uintptr_t)top - lowest);
    return written > reserved ? written : reserved;
}
