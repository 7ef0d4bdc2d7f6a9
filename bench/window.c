/* window.c: see window.h. */
#define _GNU_SOURCE

#include "window.h"

#include <fcntl.h>
#include <linux/futex.h>
#include <string.h>
#include <sys/mman.h>
#include <sys/syscall.h>
#include <time.h>
#include <unistd.h>

/* What may not be touched is wide, so that a stride over the end does not land in another piece. */
enum { PAGE = 4096, APART = 1 << 20 };

static size_t pages(size_t n)
{
    return (n + PAGE - 1) / PAGE * PAGE;
}

/* Opens the next n bytes, behind which there are some again that may not be touched. */
static uint8_t *open_pages(uint8_t **next, size_t n)
{
    uint8_t *at = *next;
    *next += pages(n) + APART;
    return mprotect(at, pages(n), PROT_READ | PROT_WRITE) == 0 ? at : NULL;
}

static size_t window_size(void)
{
    size_t size = APART + pages(sizeof(struct desk)) + APART;
    for (int p = 0; p < PIECES; p++)
        size += pages(GUARD + CAPACITY[p]) + APART;
    return size;
}

bool open_window(struct window *w, int file)
{
    w->file = file;
    w->size = window_size();
    w->all = mmap(NULL, w->size, PROT_NONE, MAP_SHARED, file, 0);
    if (w->all == MAP_FAILED)
        return false;
    uint8_t *next = w->all + APART;
    w->desk = (struct desk *)open_pages(&next, sizeof *w->desk);
    bool opened = w->desk != NULL;
    for (int p = 0; p < PIECES; p++) {
        opened = open_pages(&next, GUARD + CAPACITY[p]) != NULL && opened;
        w->end[p] = next - APART;
    }
    if (!opened)
        munmap(w->all, w->size);
    return opened;
}

/* The size is sealed: memory that a vendor could cut off would end whoever reads it. */
bool make_window(struct window *w)
{
    int file = memfd_create("window", MFD_CLOEXEC | MFD_ALLOW_SEALING);
    if (file < 0)
        return false;
    if (ftruncate(file, (off_t)window_size()) == 0 &&
        fcntl(file, F_ADD_SEALS, F_SEAL_SHRINK | F_SEAL_GROW | F_SEAL_SEAL) == 0 && open_window(w, file))
        return true;
    close(file);
    return false;
}

void free_window(struct window *w)
{
    munmap(w->all, w->size);
    close(w->file);
}

uint8_t *lent_at(const struct window *w, enum piece p, size_t len)
{
    return w->end[p] - len;
}

static bool is_shared(const struct call *c, enum piece p, bool keeps_store)
{
    return c->kind->use[p] != NOT_LENT && (!is_store(p) || !keeps_store);
}

void put_call(struct window *w, const struct call *c, bool keeps_store)
{
    struct desk *d = w->desk;
    d->front = d->back = DESK_MARK;
    d->call.kind = (size_t)(c->kind - KINDS);
    memcpy(d->call.len, c->len, sizeof c->len);
    memcpy(d->call.n, c->n, sizeof c->n);
    if (c->was_target && keeps_store)
        memcpy(lent_at(w, STORE, ADK_LARGE_STORE_SIZE), lent_at(w, TARGET, ADK_LARGE_STORE_SIZE), ADK_LARGE_STORE_SIZE);
    for (int p = 0; p < PIECES; p++)
        if (is_shared(c, p, keeps_store))
            memcpy(lent_at(w, p, c->len[p]) - GUARD, memory[BEFORE][p] - GUARD, GUARD + c->len[p]);
}

bool holds_ours(const struct window *w, const struct call *c, bool keeps_store)
{
    bool ours = true;
    for (int p = 0; p < PIECES && ours; p++)
        if (is_shared(c, p, keeps_store))
            ours = memcmp(lent_at(w, p, c->len[p]) - GUARD, memory[LIBRARY][p] - GUARD, GUARD + c->len[p]) == 0;
    return ours;
}

void take_bytes(const struct window *w, const struct call *c, bool keeps_store)
{
    renew(OTHER);
    for (int p = 0; p < PIECES; p++)
        if (c->kind->use[p] != NOT_LENT) {
            const uint8_t *from = is_shared(c, p, keeps_store) ? lent_at(w, p, c->len[p]) : memory[LIBRARY][p];
            memcpy(memory[OTHER][p] - GUARD, from - GUARD, GUARD + c->len[p]);
        }
}

bool desk_intact(const struct window *w)
{
    return w->desk->front == DESK_MARK && w->desk->back == DESK_MARK;
}

enum piece piece_at(const struct window *w, const struct call *c, const uint8_t *base, const uint8_t *address,
                    long *at)
{
    const uint8_t *a = w->all + (address - base);
    for (int p = 0; p < PIECES; p++)
        if (c->kind->use[p] != NOT_LENT && a >= w->end[p] - CAPACITY[p] - APART && a < w->end[p] + APART) {
            *at = (long)(a - lent_at(w, p, c->len[p]));
            return p;
        }
    return PIECES;
}

/* ---- Turns ---- */

static void futex(_Atomic uint32_t *word, int operation, uint32_t value, const struct timespec *limit)
{
    syscall(SYS_futex, word, operation, value, limit, NULL, 0);
}

void tell_turn(struct turn *t, uint32_t number)
{
    atomic_store(&t->number, number);
    if (atomic_load(&t->awaited) != 0)
        futex(&t->number, FUTEX_WAKE, 1, NULL);
}

/* The other side mostly needs a few microseconds, if it has a processor of its own. Where it has none, looking for it
   keeps it from this one: after a few waits in vain one only looks now and then, until it was worth while again. */
bool spin_for_turn(struct turn *t, uint32_t number)
{
    enum { LOOKS = 200000, IN_VAIN = 2, NOW_AND_THEN = 256 };
    static unsigned waits, in_vain;
    waits++;
    if (in_vain >= IN_VAIN && waits % NOW_AND_THEN != 0)
        return atomic_load(&t->number) == number;
    for (unsigned i = 0; i < LOOKS; i++)
        if (atomic_load_explicit(&t->number, memory_order_acquire) == number) {
            in_vain = 0;
            return true;
        }
    in_vain++;
    return false;
}

void sleep_for_turn(struct turn *t, uint32_t number, unsigned milliseconds)
{
    struct timespec limit = { milliseconds / 1000, milliseconds % 1000 * 1000000L };
    atomic_store(&t->awaited, 1);
    uint32_t seen = atomic_load(&t->number);
    if (seen != number)
        futex(&t->number, FUTEX_WAIT, seen, milliseconds == 0 ? NULL : &limit);
    atomic_store(&t->awaited, 0);
}
