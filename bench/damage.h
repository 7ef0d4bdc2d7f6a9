/*
 * damage.h: what happens between the calls of a night to a store that is lent: its header is damaged for a few calls and
 * then put back, values are stirred, and vCPUs become taken.
 */
#ifndef DAMAGE_H
#define DAMAGE_H

/* Before a call. */
void touch_store(void);

/* The store is another, so that there is nothing to put back. */
void forget_damage(void);

#endif
