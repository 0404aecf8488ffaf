/* SPDX-License-Identifier: MIT OR Apache-2.0 */
/* ---- When timers are due for a thread. It wakes for those by itself: for the timers that its wait names as they stand when it begins, and, where
 * its wait is alertable, for those that it has set with a routine. Nobody else can bring the latter forward, so it minds them alone: nobody
 * has to tell it of them, and it wakes for nobody else's. It minds a few; a thread that sets more of them at once is a watcher. */
#include "internal.h"

/* When the timer that is this object is due, under the lock: NEVER where it is not set. */
NTW_INTERNAL uint64_t ntw_due_of(uint32_t object)
{
    struct nt_object timer;
    return nt_object(&waiting.dispatcher, object, &timer) == 0 && timer.armed ? timer.due : NEVER;
}

/* When the first of the timers that the thread minds is due, under the lock; NEVER where none is. Those that are no longer set, or by another
 * thread, it minds no longer. */
NTW_INTERNAL uint64_t first_minded(struct seat *seat)
{
    uint64_t first = NEVER;
    uint32_t minded = 0;
    for (uint32_t i = 0; i < seat->minded; i++) {
        const uint32_t object = seat->timers[i];
        const uint64_t due = waiting.minders[object] == seat->number + 1 ? ntw_due_of(object) : NEVER;
        if (due == NEVER)
            continue;
        seat->timers[minded++] = object;
        first = due < first ? due : first;
    }
    seat->minded = minded;
    return first;
}

/* The thread minds this timer from now on, under the lock. */
static void mind(struct seat *seat, uint32_t object)
{
    for (uint32_t i = 0; i < seat->minded; i++)
        if (seat->timers[i] == object)
            return;
    if (seat->minded == MINDED_AT_MOST)
        first_minded(seat);
    if (seat->minded < MINDED_AT_MOST)
        seat->timers[seat->minded++] = object;
    else
        seat->has_more_routines = true;
}

/* The caller has set the timer with this number, under the lock: the routine, if it has one, is the caller's. */
NTW_INTERNAL void note_routine(struct seat *seat, uint32_t timer, bool has_routine)
{
    struct nt_opened opened;
    if (nt_opened(&waiting.dispatcher, timer, &opened) != 0)
        return;
    waiting.minders[opened.object] = has_routine ? (uint16_t)(seat->number + 1) : 0;
    if (has_routine)
        mind(seat, opened.object);
}
