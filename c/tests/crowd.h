/* Threads that a test starts together, and what it waits for. For tests that include <windows.h>. */
#ifndef CROWD_H
#define CROWD_H

#include "check.h"

#include <pthread.h>
#include <sched.h>
#include <stdbool.h>

enum { THREADS = 4 };

static pthread_t STARTED[16];
static int STARTS;

static inline void start(void *(*run)(void *), void *argument)
{
    must(pthread_create(&STARTED[STARTS++], NULL, run, argument) == 0);
}

static inline void join_all(void)
{
    while (STARTS > 0)
        must(pthread_join(STARTED[--STARTS], NULL) == 0);
}

/* Waits until it holds. */
#define AWAIT(holds) \
    while (!(holds)) \
    sched_yield()

static inline uint64_t ms_since(DWORD then)
{
    return timeGetTime() - then;
}

/* What a critical section's fields tell. */
#define SECTION_IS(section, lock_count, recursion_count, owner) \
    do { \
        IS((section).LockCount, lock_count); \
        IS((section).RecursionCount, recursion_count); \
        IS((ULONG_PTR)(section).OwningThread, owner); \
    } while (0)

/* What may be had of an SRW lock. */
static inline void tries(PSRWLOCK lock, BOOLEAN shared, BOOLEAN exclusive)
{
    ANSWERS(TryAcquireSRWLockShared(lock), shared, UNTOUCHED);
    if (shared)
        ReleaseSRWLockShared(lock);
    ANSWERS(TryAcquireSRWLockExclusive(lock), exclusive, UNTOUCHED);
    if (exclusive)
        ReleaseSRWLockExclusive(lock);
}

#endif
