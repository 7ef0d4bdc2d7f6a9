/*
 * watch.h: what becomes of a vendor's process besides that its calls return: each thing is found, told as a bit of enum
 * what, and put into words.
 */
#ifndef WATCH_H
#define WATCH_H

#include "vendor.h"

/* Begins to trace the process, where that is allowed. */
void watch(struct vendor *v);

/* What became of the process in this call, or while its library was loaded (NULL), since it was last looked at; 0 where
   it runs. */
unsigned note_event(struct vendor *v, const struct call *c, char *note);

/* What it did to its standard output, if it runs. */
unsigned note_output(const struct vendor *v, char *note);

/* Takes out of a vendor's words what would move a terminal's cursor or worse. */
void make_printable(char *text, size_t n);

/* Waits until a process that was killed is gone. */
void reap(pid_t pid);

#endif
