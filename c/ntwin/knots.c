/* SPDX-License-Identifier: MIT OR Apache-2.0 */
/* ---- Which threads hold each other, as the dispatcher tells it (nt_why), under the lock. */
#include "internal.h"

NTW_INTERNAL bool tells_knots; /* written before main */

/* Marks those that make no further call, or have made none yet. */
NTW_INTERNAL void mark_those_over(bool over[NT_MANY_THREADS])
{
    for (uint32_t i = 0; i < waiting.places; i++)
        over[i] = i >= waiting.seated || waiting.seats[i].is_gone;
    for (const struct seat *seat = waiting.spare; seat != NULL; seat = seat->next)
        over[seat->number] = true;
}

/* Whether this object is held by these threads: it is a mutex that another of them owns, or one of them. */
static bool is_held_by(uint32_t number, uint32_t waiter, const bool *holders)
{
    struct nt_object object;
    if (nt_object(&waiting.dispatcher, number, &object) != 0)
        return false;
    if (object.kind == NT_THREAD)
        return holders[number];
    return object.kind == NT_MUTEX && object.owned && object.owner != waiter && holders[object.owner];
}

/* Whether the thread waits for what these threads hold: for each object, or for one where it waits for all. */
static bool waits_for_those(uint32_t thread, const bool *holders)
{
    struct nt_pending_wait wait;
    uint32_t number;
    size_t held = 0;
    if (nt_waits_for(&waiting.dispatcher, thread, &wait) != 0)
        return false;
    for (size_t i = 0; i < wait.count && nt_waited_object(&waiting.dispatcher, thread, i, &number) == 0; i++)
        held += is_held_by(number, thread, holders);
    return held > 0 && (wait.all || held == wait.count);
}

/* Whether this object is the one that stands for the process. */
static bool stands_for_process(uint32_t number)
{
    struct nt_opened opened;
    const uint32_t handle = waiting.process_handle;
    return handle != NO_HANDLE && nt_opened(&waiting.dispatcher, handle, &opened) == 0 && opened.object == number;
}

/* Whether the thread sleeps without end, or waits for its own process to end, which it does on purpose. */
static bool is_asleep_for_good(uint32_t thread)
{
    struct nt_pending_wait wait;
    uint32_t number;
    if (nt_waits_for(&waiting.dispatcher, thread, &wait) != 0)
        return false;
    return wait.count == 0 || (wait.count == 1 && nt_waited_object(&waiting.dispatcher, thread, 0, &number) == 0 && stands_for_process(number));
}

/* Threads that only wait for a knot that was reported are no new knot, and neither is one that sleeps on purpose. Answers
 * whether any is left. All these were reported then. */
static bool is_new_knot(const bool *knot)
{
    static bool told[NT_MANY_THREADS];
    bool is_new = false;
    for (bool again = true; again;) {
        again = false;
        for (uint32_t i = 0; i < waiting.places; i++)
            if (knot[i] && !told[i] && waits_for_those(i, told))
                told[i] = again = true;
    }
    for (uint32_t i = 0; i < waiting.places; i++)
        if (knot[i] && !told[i] && !is_asleep_for_good(i))
            told[i] = is_new = true;
    return is_new;
}

/* Has the caller tell of a knot that its call has tied, as it gives the lock back. (It wakes itself where it wakes nobody, and so comes to
 * `unlock_and_wake_all`.) */
NTW_INTERNAL void look_for_knot(void)
{
    bool over[NT_MANY_THREADS], knot[NT_MANY_THREADS];
    struct nt_why why;
    struct seat *caller = own.seat;
    mark_those_over(over);
    if (caller == NULL || nt_why(&waiting.dispatcher, over, waiting.places, 0, &why, knot, waiting.places) != 0)
        return;
    for (uint32_t i = 0; i < waiting.places; i++)
        knot[i] &= !over[i];
    if (!is_new_knot(knot) || caller->tells)
        return;
    caller->tells = true;
    if (waiting.wakes == 0)
        caller->woken[waiting.wakes++] = caller->number;
}
