/* For pairs (pairs.h) of what the library allocates: each piece has a page of its own, which is taken away for good when it is freed. And the system
 * has no thread more, where the test says so. */
#ifndef OWN_PAGES_H
#define OWN_PAGES_H

#define LOOKS_AT_LOCK 1
#define LOOKS_AT_WORD 1
#define WAITS_PER_TRY 4096
#define RETRY_MS 100 /* (longer than MS_UNTIL_A_LOOK: so who tries again is seen to sleep, and not stepped for good) */
#include "step.h"

#define NTWIN_ONE_UNIT /* (as ntwin.c has it) */
#include "../ntwin/inside.h"

static void *take_page(size_t size);
static void give_page(void *at);
static _Atomic bool is_full; /* the system has no thread more */

#define malloc(size) UNSTEPPED(take_page(size))
#define calloc(count, size) UNSTEPPED(take_page((count) * (size)))
#define free(at) (clear_trap_flag(), give_page(at), step_on())
#define pthread_create(thread, attributes, start, argument) \
    UNSTEPPED(is_full ? EAGAIN : (pthread_create)(thread, attributes, start, argument))
#include "../ntwin.c"
#undef malloc
#undef calloc
#undef free
#undef pthread_create

#include "pairs.h"

static const size_t MOST_PAGES = 1 << 20;

static char *pages;
static _Atomic size_t taken;
static void *_Atomic to_be_freed; /* what the test waits for; null once it was */

static void *take_page(size_t size)
{
    char *at = pages + atomic_fetch_add(&taken, 1) * PAGE;
    must(size <= PAGE && at < pages + MOST_PAGES * PAGE && mprotect(at, PAGE, PROT_READ | PROT_WRITE) == 0);
    return at;
}

static bool is_in_pages(const char *at)
{
    return at >= pages && at < pages + MOST_PAGES * PAGE;
}

static void give_page(void *at)
{
    /* (Nothing is freed, too: by a thread that ends, which may be held up here until the next try waits for its piece.) */
    if (at != NULL && at == to_be_freed)
        to_be_freed = NULL;
    if (is_in_pages(at))
        must(mprotect(at, PAGE, PROT_NONE) == 0);
    else
        free(at);
}

static bool give_back_page(char *at)
{
    return is_in_pages(at) && mprotect((void *)((uintptr_t)at & ~(uintptr_t)(PAGE - 1)), PAGE, PROT_READ | PROT_WRITE) == 0;
}

/* (Each piece is new.) */
static void renew_memory(void)
{
}

/* As the test begins. */
static void begin_pairs(void)
{
    pages = begin_pairs_in(MOST_PAGES * PAGE, PROT_NONE);
}

#endif
