/*
 * lent.h: the memory that is lent to both sides of a comparison.
 *
 * Each piece is there three times: lent to the library, lent to the other side (the model, or a vendor's library), and
 * as it was before the call. Between two calls the three are equal, with what lies beside them, so that BEFORE also
 * tells the guard bytes. A vendor has its memory elsewhere (window.h): there OTHER is what it left, where that differs or
 * is told, and is of no use else.
 */
#ifndef LENT_H
#define LENT_H

#include "store.h"

#define COUNT(a) (sizeof(a) / sizeof((a)[0]))

enum side { LIBRARY, OTHER, BEFORE, SIDES };
enum piece { STORE, BUFFER, INPUT, OUTPUT, EFFECT, TARGET, PIECES }; /* TARGET is a conversion's */

/* A store is also lent 65,536 bytes too long, which a length kept in 16 bits would not see. */
enum { GUARD = 61, STORE_CAPACITY = ADK_LARGE_STORE_SIZE + 65536, BUFFER_CAPACITY = ADK_BUFFER_MAX + 4096 };

/* Whether the piece is a store. */
static inline bool is_store(enum piece p)
{
    return p == STORE || p == TARGET;
}

extern const char *const PIECE_NAME[PIECES];
extern const size_t CAPACITY[PIECES];
extern uint8_t *memory[SIDES][PIECES];

/* All pieces are made and filled by chance; filled again; and given back. */
void make_memory(void);
void fill_memory(void);
void free_memory(void);

/* Gives both sides the bytes that were written to BEFORE; or all that there is; or all to one side. */
void share(enum piece p, size_t at, size_t n);
void share_all(void);
void renew(enum side s);

bool same_bytes(enum piece p, enum side a, enum side b, size_t n);

/* What a call on both sides broke in a piece of which n bytes count, or NULL: "guards", what lies beside them;
   "unchanged", bytes that it may not write; "agreement" of what both wrote. */
const char *broken(enum piece p, size_t n, bool may_write);

/* Whether what lies beside the first n bytes is as it was. */
bool guards_intact(enum piece p, enum side s, size_t n);

#endif
