/* SPDX-License-Identifier: MIT OR Apache-2.0 */
/* What always holds of `waiting` (inside.h), for the tests: whenever the lock is given back. */
#ifndef CHECKS_WAITING
#define CHECKS_WAITING
#endif
#include "internal.h"

static void holds(bool it, const char *what)
{
    if (it)
        return;
    (void)!write(2, what, __builtin_strlen(what));
    (void)!write(2, " does not hold\n", 15);
    abort();
}

static uint64_t earlier_of(uint64_t one, uint64_t other)
{
    return one < other ? one : other;
}

/* What was found of the threads whose waits pend. */
struct found {
    uint32_t pending, watchers;
    uint64_t deadline, moment; /* the earliest, or NEVER */
};

/* Whether the thread sleeps no longer than to the first of the timers that it minds. */
static bool sleeps_to_what_it_minds(const struct seat *seat)
{
    struct nt_object timer;
    for (uint32_t i = 0; i < seat->minded; i++)
        if (waiting.minders[seat->timers[i]] == seat->number + 1 && nt_object(&waiting.dispatcher, seat->timers[i], &timer) == 0
            && timer.armed && timer.due < seat->moment)
            return false;
    return true;
}

/* What holds of a thread whose wait pends. (One that was canceled as it waited never wakes.) */
static void check_pending(const struct seat *seat, const struct nt_pending_wait *wait, struct found *found)
{
    const uint64_t deadline = wait->timed ? wait->deadline : NEVER;
    holds(atomic_load_explicit(&seat->word, memory_order_relaxed) != IS_GRANTED, "a thread whose wait pends is not granted");
    holds(seat->moment <= deadline || seat->is_gone, "a thread sleeps no longer than to its deadline");
    holds(!seat->minds || sleeps_to_what_it_minds(seat), "who minds timers sleeps no longer than to the first");
    found->pending++;
    found->watchers += seat->watches;
    found->deadline = earlier_of(found->deadline, deadline);
    found->moment = earlier_of(found->moment, seat->moment);
}

/* Whether some thread has the lock. */
static bool is_taken(void)
{
    const uint32_t seen = atomic_load_explicit(&waiting.lock, memory_order_relaxed);
    return seen < FAVOURS ? seen != FREE : atomic_load_explicit(&waiting.seats[seen - FAVOURS].inside, memory_order_relaxed) != 0;
}

NTW_INTERNAL void check_waiting(void)
{
    struct found found = { 0, 0, NEVER, NEVER };
    uint64_t next = NEVER;
    if (!waiting.dispatcher.live)
        return;
    holds(is_taken(), "the lock is taken");
    holds(waiting.wakes == 0, "nobody is left to be woken");
    for (uint32_t i = 0; i < waiting.seated; i++) {
        struct nt_pending_wait wait;
        if (nt_waits_for(&waiting.dispatcher, i, &wait) == 0)
            check_pending(&waiting.seats[i], &wait, &found);
        else
            holds(!waiting.seats[i].watches && !waiting.seats[i].minds, "the wait of who watches or minds pends");
    }
    holds(found.pending == waiting.pending, "the count of waits");
    holds(found.watchers == waiting.watchers, "the count of watchers");
    holds(waiting.kept_to == NEVER || found.moment <= waiting.kept_to, "some thread sleeps no longer than to what is kept");
    (void)nt_due(&waiting.dispatcher, NT_GREATEST_MOMENT, &next);
    holds(found.watchers == 0 || found.moment <= next, "some thread sleeps no longer than to what is due next");
    holds(next >= found.deadline || waiting.timers_due <= next, "no timer is due before that");
}

/* Whether the last call named nobody. */
NTW_INTERNAL void check_told_nobody(void)
{
    struct nt_told told;
    holds((nt_told)(&waiting.dispatcher, 0, &told) != 0, "a wait that ended at once has ended no other, and called nobody");
}

/* Whether no handle of the program names the thread of this seat. */
NTW_INTERNAL void check_unnamed(const struct seat *seat)
{
    struct nt_opened opened;
    for (uint32_t number = 0; number < NT_MAXIMUM_HANDLES; number++)
        holds(number == seat->handle || waiting.kinds[number] != KIND_THREAD || waiting.threads[number] != seat->number
                  || nt_opened(&waiting.dispatcher, number, &opened) != 0,
              "a seat that is given back has no name");
}
