/*
 * parts.h: a night made in parts. A part is a thousand calls from a fresh store, fixed by the seed and its number, so
 * jobs make parts side by side and the figures are those of one job; and a call is named by the seed and its number,
 * whoever the vendor is.
 *
 * With a vendor that keeps its own state a part is an episode: it ends where what is kept may differ. A part also ends
 * where the vendor's process had to be started anew too often. What is left of it is not made.
 */
#ifndef PARTS_H
#define PARTS_H

#include "figures.h"
#include "order.h"
#include "recording.h"

enum { PART = 1000, ENDS_MOST = 16 };

enum night_end { NIGHT_MADE, NIGHT_STOPPED, NIGHT_LOST };

/* Makes the night, records it and adds up its figures. It is stopped by INT, TERM and HUP, and lost if a job ends
   before its time. With --only the call is told on standard output. */
enum night_end make_night(const struct order *o, struct recording *recording, struct figures *figures);

#endif
