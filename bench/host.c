/*
 * host.c: the program that runs as a vendor's process: it loads the vendor's library and makes the calls that the score
 * puts on the desk.
 *
 *     score-vendor FILE
 *
 * The score starts it, with the window's file as descriptor WINDOW_FILE. Nothing that the score counts or prints is
 * here, and nothing of Adderknot's library: a vendor finds no right answer to copy.
 */
#define _POSIX_C_SOURCE 200809L

#include "window.h"

#include <dlfcn.h>
#include <stdio.h>
#include <string.h>
#include <unistd.h>

#define ENTRY(name) { "adk_" #name, offsetof(struct l0, name) },

static const struct entry {
    const char *name;
    size_t at;
} ENTRIES[] = { L0_ENTRIES(ENTRY) };

/* Puts each entry into its place, and names those that are missing: but a vendor may have no conversion. */
static void find_entries(void *handle, struct l0 *vendor, struct desk *desk)
{
    const char *before = "it does not export ";
    char *unfit = desk->unfit;
    size_t told = 0;
    for (size_t i = 0; i < COUNT(ENTRIES); i++) {
        void *found = dlsym(handle, ENTRIES[i].name);
        memcpy((char *)vendor + ENTRIES[i].at, &found, sizeof found);
        if (ENTRIES[i].at == offsetof(struct l0, convert))
            desk->lacks_conversion = found == NULL;
        else if (found == NULL && told < DESK_TEXT) {
            told += (size_t)snprintf(unfit + told, DESK_TEXT - told, "%s%s", before, ENTRIES[i].name);
            before = ", ";
        }
    }
}

/* A name without a slash is that of a file here: dlopen would look for it among the system's libraries. */
static void *open_library(const char *path)
{
    char here[4096];
    if (strchr(path, '/') != NULL || snprintf(here, sizeof here, "./%s", path) >= (int)sizeof here)
        return dlopen(path, RTLD_NOW | RTLD_LOCAL);
    return dlopen(here, RTLD_NOW | RTLD_LOCAL);
}

static void await_turn(struct turn *t, uint32_t number)
{
    while (!spin_for_turn(t, number))
        sleep_for_turn(t, number, 0);
}

/* A call as it lies on the desk. The vendor may have written over it: that is its own affair, if only within KINDS. */
static adk_found make_call(const struct window *w, const struct l0 *vendor)
{
    const struct posted_call *posted = &w->desk->call;
    struct call c = { .kind = &KINDS[posted->kind % KIND_COUNT] };
    uint8_t *lent[PIECES];
    memcpy(c.len, posted->len, sizeof c.len);
    memcpy(c.n, posted->n, sizeof c.n);
    for (int p = 0; p < PIECES; p++)
        lent[p] = lent_at(w, p, c.len[p]);
    return c.kind->make(vendor, &c, lent);
}

/* Turn 1 is the loading; each turn after it is a call. */
static _Noreturn void host_vendor(const struct window *w, const char *path)
{
    struct desk *desk = w->desk;
    struct l0 vendor;
    uint32_t number = 1;
    pid_t own = getpid();
    await_turn(&desk->posted, number);
    void *handle = open_library(path);
    if (handle == NULL)
        snprintf(desk->unfit, DESK_TEXT, "%s", dlerror());
    else
        find_entries(handle, &vendor, desk);
    for (;;) {
        tell_turn(&desk->done, number);
        await_turn(&desk->posted, ++number);
        desk->found = make_call(w, &vendor);
        if (getpid() != own)
            _exit(0); /* the call forked and nobody watched: the copy makes no calls */
    }
}

int main(int argc, char **argv)
{
    struct window w;
    if (argc != 2 || !open_window(&w, WINDOW_FILE)) {
        fprintf(stderr, "score-vendor: it is started by score\n");
        return 2;
    }
    close(WINDOW_FILE);
    setvbuf(stdout, NULL, _IONBF, 0); /* what a call prints is told at that call */
    w.desk->base = w.all;
    tell_turn(&w.desk->ready, 1);
    host_vendor(&w, argv[1]);
}
