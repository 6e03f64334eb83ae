/* A stack that is painted before a function runs on it, so that one can tell afterwards what was written there. */
#ifndef PAINTED_H
#define PAINTED_H

#include <stdlib.h>
#include <string.h>
#include <ucontext.h>

#include "kes.h"

enum { PAINT = 0xa5, ROOM = 16 * KES_STACK };

static uint8_t room[ROOM];
static uint8_t *caller; /* the frame of the function that made the call, which it sets by HERE */

#define HERE() (caller = (uint8_t *)__builtin_frame_address(0))

/* Runs a function on the stack from low to low + len. */
static void run_on(uint8_t *low, size_t len, void (*function)(void))
{
    static ucontext_t here, there;
    if (getcontext(&there) != 0)
        exit(2);
    there.uc_stack.ss_sp = low;
    there.uc_stack.ss_size = len;
    there.uc_link = &here;
    makecontext(&there, function, 0);
    if (swapcontext(&here, &there) != 0)
        exit(2);
}

/* Runs a function on the painted stack, and answers the lowest byte that was written. */
static uint8_t *lowest(void (*function)(void))
{
    uint8_t *at = room;
    memset(room, PAINT, sizeof room);
    run_on(room, sizeof room, function);
    while (*at == PAINT)
        at++;
    return at;
}

#endif
