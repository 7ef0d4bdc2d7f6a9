/*
 * pairs.h: guest state buffers to be joined (02, L8): the first in the piece BUFFER, the second in INPUT, the result in
 * OUTPUT (lent.h).
 */
#ifndef PAIRS_H
#define PAIRS_H

#include "lent.h"

#define FIRST BUFFER
#define SECOND INPUT
#define RESULT OUTPUT

struct pair {
    const char *first, *second; /* what is special in them */
    size_t len[PIECES];         /* how much is lent */
    size_t joined;              /* the joined length, where both buffers are good */
    adk_answer answer;          /* what the request says */
};

/* Tries a pair. BEFORE and both sides hold what is lent, and do so again afterwards. */
typedef void try_pair(const struct pair *p);

/* Tries each buffer at an edge with each, good and bad ones, and with results at each edge. longest: buffers of up to
   65,537 bytes are among them. */
void each_pair(bool longest, try_pair *try);

/* The join of a pair, as it is lent to a side. */
typedef __typeof__(adk_join) join_entry;
adk_answer join_pair(join_entry *join, enum side s, const struct pair *p);

/* Whether both sides hold the same; and whether no byte beside what was lent changed. */
bool same_pieces(const struct pair *p);
bool only_lent_changed(const struct pair *p);

/* Two buffers by chance, most of them good and some with counts that lie, and a result; its answer is left open. */
struct pair any_pair(void);

#endif
