/* SPDX-License-Identifier: MIT OR Apache-2.0 */
/* ---- What was done last to an object, as a report tells it, under the lock: as it is noted (noted.c). */
#include "internal.h"

/* How long ago that was, by the coarse clock. */
static void write_time_since(struct report *to, uint64_t when)
{
    const uint64_t now = coarsely(), since = now > when ? now - when : 0;
    if (since < MOMENTS_PER_SECOND)
        ntw_add(to, "%u ms ago", (unsigned)(since / (MOMENTS_PER_SECOND / 1000)));
    else
        ntw_add(to, "%llu.%u s ago", (unsigned long long)(since / MOMENTS_PER_SECOND),
                (unsigned)(since % MOMENTS_PER_SECOND / (MOMENTS_PER_SECOND / 10)));
}

/* Where and when what is noted was called. */
static void write_call(struct report *to, const struct noted *it)
{
    write_place(to, " at ", it->place);
    add_text(to, ", ");
    write_time_since(to, it->when);
}

/* Who did what is noted, where, and when. (The thread's place may be another's by now.) */
static void write_doer(struct report *to, const char *deed, const struct noted *it)
{
    const struct seat *seat = &waiting.seats[it->thread];
    add_text(to, deed);
    if (seat->life.began != it->began)
        add_text(to, "a thread that has ended");
    else
        write_thread(to, it->thread);
    write_call(to, it);
}

/* Which waits the call that is noted has ended. */
static void write_ended(struct report *to, const struct noted *it)
{
    if (it->ended > 0)
        ntw_add(to, ", which ended %u wait%s", it->ended, it->ended == 1 ? "" : "s");
    else
        add_text(to, it->was_awaited ? ", which ended no wait" : ", when nobody waited");
}

/* Where its owner took the mutex. */
static void write_taking(struct report *to, const struct noted *it)
{
    add_text(to, it->deed == WAS_TAKEN ? "; taken" : "; owned since it was created");
    if (it->deed == WAS_TAKEN)
        write_call(to, it);
}

/* What was done last to the event or semaphore. */
static void write_signal(struct report *to, uint32_t kind, const struct noted *it)
{
    switch (it->deed) {
    case NOTHING_DONE:
        add_text(to, kind == NT_EVENT ? "; nobody has set or pulsed it since it was created" : "; nobody has released it since it was created");
        return;
    case WAS_RESET:
        write_doer(to, "; reset by ", it);
        return;
    case WAS_RELEASED:
        write_doer(to, "; released by ", it);
        ntw_add(to, ", by %d", it->count);
        break;
    default:
        write_doer(to, it->deed == WAS_SET ? "; set by " : "; pulsed by ", it);
    }
    write_ended(to, it);
}

/* What was done last to the object, where that is noted. */
NTW_INTERNAL void write_deed(struct report *to, uint32_t number, const struct nt_object *object)
{
    if (noted == NULL)
        return;
    if (object->kind == NT_MUTEX && object->owned)
        write_taking(to, &noted[number]);
    if (object->kind == NT_EVENT || object->kind == NT_SEMAPHORE)
        write_signal(to, object->kind, &noted[number]);
}
