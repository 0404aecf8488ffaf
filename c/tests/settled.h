/* Counts that callbacks raise. */
#ifndef SETTLED_H
#define SETTLED_H

#include "check.h"

/* Waits until the count is this one; then that it stays so for a while. */
static inline LONG settled(LONG *count, LONG wanted)
{
    for (int i = 0; i < 60000 && ReadAcquire(count) < wanted; i++)
        Sleep(1);
    Sleep(10);
    return ReadAcquire(count);
}

/* The count some time later. */
static inline LONG later(LONG *count)
{
    Sleep(20);
    return ReadAcquire(count);
}

#endif
