/* SPDX-License-Identifier: MIT OR Apache-2.0 */
/* ---- What a call of the dispatcher touches, noted under the lock before it is made (looked.c). Of two calls that touch nothing in common both
 * orders lead to the same state, with the same answers, and with the same waits ended by each. An object stands for its state, its queue, and the
 * handles that name it; the word of a seat for the wait of its thread. */
#include "internal.h"

enum { MOST_MUTEXES = 64, NO_OBJECT = NT_MAXIMUM_HANDLES };

/* The mutexes that calls of this run have named, by their own numbers: who ends may own some. (There may be more than are listed.) */
static struct {
    uint32_t count;
    uint32_t numbers[MOST_MUTEXES];
} named_mutexes;

static void note_mutex(uint32_t number)
{
    for (uint32_t i = 0; i < named_mutexes.count && i < MOST_MUTEXES; i++)
        if (named_mutexes.numbers[i] == number)
            return;
    if (named_mutexes.count++ < MOST_MUTEXES)
        named_mutexes.numbers[named_mutexes.count - 1] = number;
}

NTW_INTERNAL void touch_object(uint32_t number)
{
    touch(&waiting.called[number], true);
}

/* Which numbers are free: of handles, objects and threads. */
NTW_INTERNAL void touch_numbers(void)
{
    touch(&waiting.spare, true);
}

static void touch_apcs_of(uint32_t thread)
{
    touch(waiting.seats[thread].timers, true);
}

/* A call. (While a timer is set, or may end a wait, any call may decide who looks at the time.) */
static void touch_by_call(void)
{
    begin_touching();
    if (waiting.timers_due != NEVER || waiting.watchers > 0)
        touch_all();
}

/* What the handle names. Answers its number; NO_OBJECT where it names nothing, unless a creation gives it before. */
static uint32_t touch_named(uint32_t handle)
{
    struct nt_opened opened;
    struct nt_object object;
    if (nt_opened(&waiting.dispatcher, handle, &opened) != 0 || nt_object(&waiting.dispatcher, opened.object, &object) != 0) {
        touch_numbers();
        return NO_OBJECT;
    }
    if (object.kind == NT_MUTEX)
        note_mutex(opened.object);
    if (object.kind == NT_TIMER)
        touch_all();
    touch_object(opened.object);
    return opened.object;
}

/* The wait of this thread may end: it takes of the objects that it names, and leaves their queues. */
static void touch_wait_of(uint32_t thread, const struct nt_pending_wait *wait)
{
    uint32_t number;
    touch(&waiting.seats[thread].word, true);
    for (size_t i = 0; i < wait->count && nt_waited_object(&waiting.dispatcher, thread, i, &number) == 0; i++)
        touch_object(number);
}

static bool names_object(uint32_t thread, const struct nt_pending_wait *wait, uint32_t object)
{
    uint32_t number;
    for (size_t i = 0; i < wait->count && nt_waited_object(&waiting.dispatcher, thread, i, &number) == 0; i++)
        if (number == object)
            return true;
    return false;
}

/* The object may become signaled, and end each wait that names it. */
static void touch_served(uint32_t object)
{
    struct nt_pending_wait wait;
    touch_object(object);
    for (uint32_t thread = 0; waiting.pending != 0 && thread < waiting.seated; thread++)
        if (nt_waits_for(&waiting.dispatcher, thread, &wait) == 0 && names_object(thread, &wait, object))
            touch_wait_of(thread, &wait);
}

/* ---- By kinds of calls. */

/* A call that changes only what this handle names. */
NTW_INTERNAL void touch_by_handle(uint32_t handle)
{
    if (!notes_touches)
        return;
    touch_by_call();
    touch_named(handle);
}

/* One that may signal it. */
NTW_INTERNAL void touch_by_signal(uint32_t handle)
{
    if (!notes_touches)
        return;
    touch_by_call();
    const uint32_t object = touch_named(handle);
    if (object != NO_OBJECT)
        touch_served(object);
}

/* One that gives or takes a handle. */
NTW_INTERNAL void touch_by_creation(void)
{
    if (!notes_touches)
        return;
    touch_by_call();
    touch_numbers();
}

/* A wait of this thread for what these handles name. */
NTW_INTERNAL void touch_by_wait(uint32_t who, const uint32_t *handles, size_t count, bool alertable)
{
    if (!notes_touches)
        return;
    touch_by_call();
    for (size_t i = 0; i < count; i++)
        touch_named(handles[i]);
    if (alertable)
        touch_apcs_of(who);
}

/* An APC for the thread that this handle names, whose wait it may end. (Thread t has the number t among the objects.) */
NTW_INTERNAL void touch_by_apc(uint32_t handle)
{
    struct nt_pending_wait wait;
    if (!notes_touches)
        return;
    touch_by_call();
    const uint32_t thread = touch_named(handle);
    if (thread >= waiting.seated)
        return;
    touch_apcs_of(thread);
    if (nt_waits_for(&waiting.dispatcher, thread, &wait) == 0 && wait.alertable)
        touch_wait_of(thread, &wait);
}

/* The thread ends, which signals it and the mutexes that it owns. */
NTW_INTERNAL void touch_by_exit(uint32_t who)
{
    struct nt_object object;
    if (!notes_touches)
        return;
    touch_by_creation();
    touch_apcs_of(who);
    touch_served(who);
    if (named_mutexes.count > MOST_MUTEXES)
        touch_all();
    for (uint32_t i = 0; i < named_mutexes.count && i < MOST_MUTEXES; i++)
        if (nt_object(&waiting.dispatcher, named_mutexes.numbers[i], &object) == 0 && object.owned && object.owner == who)
            touch_served(named_mutexes.numbers[i]);
}

/* Time passes: that touches nothing where nothing is due. */
NTW_INTERNAL void touch_by_tick(uint64_t moment)
{
    uint64_t due;
    if (notes_touches && nt_due(&waiting.dispatcher, moment, &due) == 0)
        touch_all();
}
