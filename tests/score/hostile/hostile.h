/*
 * hostile.h: the model as a vendor's library, but that the fifth call of get capabilities in a process does something
 * else first. Each file of this folder includes it and says what, in misbehave.
 */
#ifndef HOSTILE_H
#define HOSTILE_H

#define _GNU_SOURCE
#include <fcntl.h>
#include <signal.h>
#include <stdio.h>
#include <stdlib.h>
#include <string.h>
#include <sys/types.h>
#include <unistd.h>

#include "rename.h"
#undef mdl_get_capabilities
#define mdl_get_capabilities right_get_capabilities
#include "model.c"

static void misbehave(const uint8_t *store, size_t store_len);

adk_answer adk_get_capabilities(const uint8_t *store, size_t store_len, uint64_t flags)
{
    static unsigned calls;
    if (++calls == 5)
        misbehave(store, store_len);
    return right_get_capabilities(store, store_len, flags);
}

#endif
