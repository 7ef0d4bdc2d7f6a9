/*
 * both.h: 02, L6: after a conversion "any list of the eight calls and the clock gives the same answers and buffers on
 * both, up to the first create that the small one answers with 9".
 */
#ifndef BOTH_H
#define BOTH_H

#include <stdbool.h>
#include <stdint.h>

/* Makes so many calls on small stores and on their conversions, all on the library. Where something differs, it is
   said. */
bool same_on_both(uint64_t calls);

#endif
