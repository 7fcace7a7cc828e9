/*
 * What the drivers share that measure a call: how much stack it takes, and how long.
 * It is included after the definition of _XOPEN_SOURCE that it needs.
 */
#ifndef MEASURE_H
#define MEASURE_H

#include "calls.h"

#include <time.h>
#include <ucontext.h>

enum { STACK_BYTES = 1 << 22 };

/* How much of a painted stack a call uses. */
static size_t stack_used(void (*call)(void))
{
    static unsigned char stack[STACK_BYTES];
    static ucontext_t here, there;
    size_t untouched = 0;
    memset(stack, GUARD_BYTE, sizeof stack);
    if (getcontext(&there) != 0)
        stop("no context");
    there.uc_stack.ss_sp = stack;
    there.uc_stack.ss_size = sizeof stack;
    there.uc_link = &here;
    makecontext(&there, call, 0);
    if (swapcontext(&here, &there) != 0)
        stop("no context");
    while (untouched < sizeof stack && stack[untouched] == GUARD_BYTE)
        untouched++;
    return sizeof stack - untouched;
}

/* The seconds of processor time that the program has taken so far. */
static double seconds(void)
{
    struct timespec now;
    clock_gettime(CLOCK_PROCESS_CPUTIME_ID, &now);
    return (double)now.tv_sec + (double)now.tv_nsec / 1e9;
}

#endif
