/* For pairs (pairs.h) of what lies in the program's memory: one page, which is taken away when the program frees it; and a thread that waits
 * meanwhile. */
#ifndef SHARED_PAGE_H
#define SHARED_PAGE_H

#define LOOKS_AT_LOCK 1
#define LOOKS_AT_WORD 1
#define WAITS_PER_TRY 4096
#include "step.h"

#include "../ntwin.c"

#include "pairs.h"

/* What the pairs work on. */
static struct shared {
    SRWLOCK lock;
    CONDITION_VARIABLE variable;
    CRITICAL_SECTION section;
    SYNCHRONIZATION_BARRIER barrier;
    INIT_ONCE once;
    volatile LONG word;
} *shared;

static inline void free_shared(void)
{
    must(mprotect(shared, PAGE, PROT_NONE) == 0);
}

static void renew_memory(void)
{
    must(mprotect(shared, PAGE, PROT_READ | PROT_WRITE) == 0);
    memset(shared, 0, PAGE);
}

static bool give_back_page(char *at)
{
    return at >= (char *)shared && at < (char *)shared + PAGE && mprotect(shared, PAGE, PROT_READ | PROT_WRITE) == 0;
}

/* ---- A thread that waits as the pair begins. */

static pthread_t waiter;

static void *run_act(void *at)
{
    (*(act **)at)();
    return NULL;
}

/* How many threads sleep for a lock. */
static inline int count_sleepers(void)
{
    int count = 0;
    take_latch(&sleepers.latch);
    for (const struct sleeper *at = sleepers.first; at != NULL; at = at->later)
        count++;
    give_latch(&sleepers.latch);
    return count;
}

/* Begins it, and waits until it sleeps for a lock. */
static inline void begin_waiter(act *const *does)
{
    must(pthread_create(&waiter, NULL, run_act, (void *)(uintptr_t)does) == 0);
    while (count_sleepers() == 0)
        sched_yield();
    usleep(100);
}

static inline void end_waiter(void)
{
    must(pthread_join(waiter, NULL) == 0);
}

static inline void nothing(void)
{
}

/* As the test begins. */
static void begin_pairs(void)
{
    shared = (struct shared *)(void *)begin_pairs_in(PAGE, PROT_READ | PROT_WRITE);
}

#endif
