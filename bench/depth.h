/*
 * depth.h: a stack of 512 bytes with a page behind it that may not be touched, and how deep a function goes on it.
 *
 * The stack is painted before each call, so that what was written tells how deep it went. What a frame reserves and
 * never writes shows while calls are stepped: then the processor stops after each instruction (its trap flag), and the
 * lowest stack pointer counts too. What a caller pushes as arguments lies above the 512 bytes: it is the caller's.
 */
#ifndef DEPTH_H
#define DEPTH_H

#include <stdbool.h>
#include <stdint.h>

/* The words of a call: where its answer goes, then the arguments. Six travel in registers, the others on the stack. */
enum { DEPTH = 512, ARGUMENTS = 16 };

bool make_stack(void);

/* How many bytes the next calls have, DEPTH if not told. */
void set_room(unsigned bytes);

/* Calls are stepped from now on, or no longer. A step takes some microseconds. */
void step_calls(bool stepped);

/* Makes the call, and returns how deep it went: return address and all below it. */
unsigned call_shallow(void (*function)(void), const uint64_t *words);

#endif
