/* SPDX-License-Identifier: MIT OR Apache-2.0 */
/* ---- Sleep sets (Godefroid, 1996): of two steps that touch nothing in common one order is enough. A thread that was tried at a choice rests while
 * others go first from there, until a step touches what that thread's step has touched. A run in which each thread that can go on rests is left off:
 * it is one that was made, but for the order of such steps.
 *
 * A step is what a thread does from one point to its next. It touches what its call says (`may_switch_at`, calls.c), what it takes, gives back,
 * sleeps on or wakes, and memory with points; else it may touch anything, as it does where it yields, looks at the time, or ends the run. */
#include "../win32/internal.h"
#include "internal.h"

/* The address as it is noted, with whether it is written. */
static uintptr_t noted_as(const volatile void *what, bool writes)
{
    return (uintptr_t)what << 1 | writes;
}

NTW_INTERNAL void touch(const volatile void *what, bool writes)
{
    struct touched *it = &schedule.touched;
    if (!notes_touches || what == NULL || me == NULL || is_apart())
        return;
    uint32_t count = __atomic_load_n(&it->count, __ATOMIC_RELAXED);
    for (uint32_t i = 0; i < count; i++)
        if (it->what[i] >> 1 == noted_as(what, false) >> 1) {
            it->what[i] |= writes;
            return;
        }
    if (count < MOST_TOUCHED)
        it->what[count] = noted_as(what, writes);
    /* (A signal's handler may have noted something meanwhile, in this very place.) */
    if (count == MOST_TOUCHED || !__atomic_compare_exchange_n(&it->count, &count, count + 1, false, __ATOMIC_RELAXED, __ATOMIC_RELAXED))
        it->is_all = true;
}

NTW_INTERNAL void touch_all(void)
{
    if (notes_touches && me != NULL && !is_apart())
        schedule.touched.is_all = true;
}

/* The call of the dispatcher that the caller came to says from here on what it touches. (Where races are followed, each comes before the next.) */
NTW_INTERNAL void begin_touching(void)
{
    schedule.is_unsaid = false;
    if (follows_races())
        touch(&waiting.lock, true);
}

/* What the caller came to its last point for, where it goes on from there or from a sleep. */
NTW_INTERNAL void touch_own(void)
{
    if (me->touches_all)
        touch_all();
    touch(me->object, true);
}

/* This word is taken or given back (words.c). (Who sleeps for a lock is noted for reports alone.) */
NTW_INTERNAL void touch_word(void *word)
{
    if (word != &sleepers.latch)
        touch(word, true);
}

/* From here on runs are left off where they may be. False where the library was built to tell a sanitizer alone. */
NTW_INTERNAL bool begin_leaving_off(void)
{
#ifdef TELLS_SCHEDULER
    notes_touches = true;
    observer = touch_word;
#endif
    return notes_touches;
}

/* ---- Who rests. */

static bool are_apart(const struct touched *one, const struct touched *other)
{
    if (one->is_all || other->is_all)
        return false;
    for (uint32_t i = 0; i < one->count; i++)
        for (uint32_t j = 0; j < other->count; j++)
            if ((one->what[i] ^ other->what[j]) <= 1 && ((one->what[i] | other->what[j]) & 1) != 0)
                return false;
    return true;
}

/* The caller's step has ended at such a point. */
NTW_INTERNAL void end_step(enum point point)
{
    if (!notes_touches)
        return;
    schedule.touched.is_all |= schedule.is_unsaid || point == AT_YIELD;
    if (schedule.step != NULL)
        *schedule.step = schedule.touched;
    for (uint32_t i = 0; i < schedule.threads_count; i++)
        if (schedule.threads[i]->rests && !are_apart(&schedule.threads[i]->tried, &schedule.touched))
            schedule.threads[i]->rests = false;
    schedule.touched = (struct touched){ .count = 0 };
    schedule.is_unsaid = false;
    schedule.step = NULL;
}

/* A deadline comes, which may let anybody go on. */
NTW_INTERNAL void stop_resting(void)
{
    for (uint32_t i = 0; notes_touches && i < schedule.threads_count; i++)
        schedule.threads[i]->rests = false;
}

/* What this thread does next was tried, and touched this. */
NTW_INTERNAL void let_rest(uint32_t thread, const struct touched *touched)
{
    schedule.threads[thread]->rests = true;
    schedule.threads[thread]->tried = *touched;
}

NTW_INTERNAL bool does_rest(uint32_t thread)
{
    return notes_touches && thread < schedule.threads_count && schedule.threads[thread]->rests;
}

/* Each thread that can go on rests. */
__attribute__((noreturn)) NTW_INTERNAL void leave_run_off(void)
{
    schedule.shared->verdict = LEFT_OFF;
    _exit(0);
}
