/* SPDX-License-Identifier: MIT OR Apache-2.0 */
/* ---- Those whose waits pend. Each sleeps to its own deadline, and then lets time pass, so that no timeout waits for another thread to
 * run. Those whose waits a timer may end are the watchers. To which moment each sleeps the dispatcher tells (nt_pend), and also whom to
 * call if nobody sleeps short enough for the watchers (nt_told). While there is no watcher nobody can see that a timer is overdue, but by a
 * call, and so the next call lets time pass first. (`nt_protocols` has laws of the word on which a thread sleeps: its specs/Word.antt names the
 * functions below.) */
#include "by_pointer.h"
#include "../win32/internal.h"

/* The next moment at which anything is due, under the lock, or NEVER. */
static uint64_t next_due(void)
{
    uint64_t due;
    return nt_due(&waiting.dispatcher, NT_GREATEST_MOMENT, &due) == 0 ? due : NEVER;
}

/* Timers may be due later than was known, under the lock: one is no longer set. */
NTW_INTERNAL void look_for_timers(void)
{
    if (waiting.timers_due == NEVER)
        return;
    const uint64_t due = next_due();
    if (due > waiting.timers_due)
        waiting.timers_due = due;
}

/* Tells a thread, under the lock, how its wait stands. The caller wakes it later, where it sleeps. */
static void tell(struct seat *caller, struct seat *seat, uint32_t how)
{
    comes_before(&seat->word);
    const uint32_t was = atomic_exchange_explicit(&seat->word, how, memory_order_release);
    STEP(word, &seat->word, how == IS_GRANTED ? Grants : Calls, seat->number, was == IS_ASLEEP);
    if (was != IS_ASLEEP)
        return;
    if (waiting.wakes < WOKEN_LATER) {
        caller->woken[waiting.wakes++] = seat->number;
    } else {
        TO_WAKE(word, &seat->word, Wakes, Wakes, seat->number);
        wake_one(&seat->word);
    }
}

/* Sets to which moment the thread sleeps by itself, under the lock. It is awake when its own timer is due, whoever keeps the time till then. */
static void set_moment(struct seat *seat)
{
    if (nt_pend(&waiting.dispatcher, seat->number, seat->watches, &seat->moment) != 0)
        seat->moment = NEVER;
    if (seat->timer_due < seat->moment)
        seat->moment = seat->timer_due;
    if (seat->minds && seat->moment < waiting.kept_to)
        waiting.kept_to = seat->moment;
}

/* The caller's wait pends from now on, under the lock. */
static void fall_asleep(struct seat *seat, struct dues dues)
{
    atomic_store_explicit(&seat->word, IS_AWAKE, memory_order_relaxed);
    STEP(word, &seat->word, Begins);
    waiting.pending++;
    waiting.watchers += dues.watches;
    seat->watches = dues.watches;
    seat->minds = dues.minds;
    seat->timer_due = dues.first;
    set_moment(seat);
}

/* The thread is no longer a watcher, under the lock, and minds no timer. */
NTW_INTERNAL void stop_watching(struct seat *seat)
{
    waiting.watchers -= seat->watches;
    seat->watches = false;
    if (seat->minds)
        waiting.kept_to = NEVER;
    seat->minds = false;
}

/* The thread's wait has ended, under the lock, with this status. */
static void wake_up(struct seat *caller, struct seat *seat, uint32_t status)
{
    waiting.pending--;
    stop_watching(seat);
    seat->status = status;
    tell(caller, seat, IS_GRANTED);
}

/* The thread keeps the time from now on, under the lock. It is to look at it, unless it wakes soon enough by itself. */
static void call_up(struct seat *caller, struct seat *seat)
{
    const uint64_t before = seat->moment;
    set_moment(seat);
    if (before <= seat->moment) {
        seat->moment = before;
        return;
    }
    seat->moment = 0;
    tell(caller, seat, IS_CALLED);
}

/* The same as `ntw_note`, where there is somebody to tell: the first is in the caller's seat. Once no wait pends there is nobody left to ask for. */
__attribute__((noinline)) static void note_all(struct seat *caller)
{
    size_t index = 0;
    do {
        struct seat *seat = &waiting.seats[caller->told.thread];
        if (caller->told.called)
            call_up(caller, seat);
        else
            wake_up(caller, seat, caller->told.status);
    } while (waiting.pending != 0 && nt_told(&waiting.dispatcher, ++index, &caller->told) == 0);
}

/* Tells, under the lock, those whose waits the last call or tick ended, and who is called: none where none pends. No thread's wait ends
 * twice before the lock is given back. */
NTW_INLINE void ntw_note(struct seat *caller)
{
    if (waiting.pending != 0 && nt_told(&waiting.dispatcher, 0, &caller->told) == 0)
        note_all(caller);
}

/* Lets time pass up to now, under the lock. Answers what moment that is. */
NTW_INTERNAL uint64_t pass_time(struct seat *caller)
{
    const uint64_t now = present();
    nt_tick(&waiting.dispatcher, now);
    if (waiting.timers_due <= now)
        waiting.timers_due = next_due();
    ntw_note(caller);
    return now;
}

/* Whether this moment is still to come for more than a second. (The coarse clock takes a third of the time; it is late, by some ms.) */
static bool is_far(uint64_t moment)
{
    return process.start + moment > coarsely() + MOMENTS_PER_SECOND;
}

/* Lets time pass, under the lock, where a timer may be overdue. */
__attribute__((noinline)) NTW_INTERNAL void catch_up(struct seat *caller)
{
    if (!is_far(waiting.timers_due) && waiting.timers_due <= present())
        pass_time(caller);
}

/* The same, but where a thread that minds its timers sleeps short enough. */
__attribute__((noinline)) static void catch_up_unless_kept(struct seat *caller)
{
    if (waiting.kept_to > waiting.timers_due)
        catch_up(caller);
}

/* What is overdue happens, under the lock, where nobody watches. */
NTW_INLINE void see_to_the_overdue(struct seat *caller)
{
    if (waiting.timers_due != NEVER && waiting.watchers == 0)
        catch_up_unless_kept(caller);
}

/* Takes the lock. Where nobody watches, what is overdue happens first. False as `take_lock_for` has it. */
NTW_ALWAYS_INLINE bool lock(struct seat *caller)
{
    if (!take_lock_for(caller))
        return false;
    STEP_OF(caller, word, NULL, Enters);
    see_to_the_overdue(caller);
    return true;
}

/* How many sleeping threads the caller's call has to wake, under the lock. From now on the caller wakes them. */
static uint32_t wakes_left(void)
{
    const uint32_t wakes = waiting.wakes;
    waiting.wakes = 0;
    return wakes;
}

/* Wakes those whose words the caller's call has written. */
__attribute__((noinline)) static void wake_all(const uint32_t *woken, uint32_t wakes)
{
    for (uint32_t i = 0; i < wakes; i++) {
        TO_WAKE(word, &waiting.seats[woken[i]].word, Wakes, Wakes, woken[i]);
        wake_one(&waiting.seats[woken[i]].word);
    }
}

/* The same, once the lock is given back; and tells of the knot that the caller's call has tied, as all stands before that. */
__attribute__((noinline)) static void unlock_and_wake_all(struct seat *caller)
{
    char *text = caller->tells ? text_of_knot() : NULL;
    const bool tells = caller->tells;
    const uint32_t wakes = wakes_left();
    uint32_t woken[WOKEN_LATER]; /* (A handler of signals may call once the lock is given back.) */
    memcpy(woken, caller->woken, wakes * sizeof *woken);
    give_lock_for(caller);
    wake_all(woken, wakes);
    if (tells)
        tell_knot(caller, text);
    may_switch_at(NULL);
}

/* Gives the lock back, and wakes those whose words the call has written. */
NTW_ALWAYS_INLINE void unlock_and_wake(struct seat *caller)
{
    if (waiting.wakes > 0)
        unlock_and_wake_all(caller);
    else
        give_lock_for(caller);
    STEP(word, NULL, Returns);
}

/* The thread has ended, for the dispatcher, under the lock: gives that back, and wakes those whom this granted. */
NTW_INTERNAL void unlock_and_leave(struct seat *seat)
{
    const uint32_t wakes = wakes_left();
    uint32_t woken[WOKEN_LATER]; /* (The seat may be another thread's once the lock is given back.) */
    memcpy(woken, seat->woken, wakes * sizeof *woken);
    renew_seats_to(seat);
    give_lock();
    wake_all(woken, wakes);
    STEP(word, NULL, Returns);
}

/* As `note_and_unlock`, where there may be somebody. */
__attribute__((noinline)) static void note_and_unlock_all(struct seat *caller)
{
    ntw_note(caller);
    unlock_and_wake(caller);
}

/* As `ntw_note`, and then as `unlock_and_wake`: where no wait pended before the call, one look tells that there is nobody to tell or to wake. */
NTW_INLINE void note_and_unlock(struct seat *caller)
{
    if ((waiting.pending | waiting.wakes) == 0) {
        give_lock_for(caller);
        STEP(word, NULL, Returns);
    } else {
        note_and_unlock_all(caller);
    }
}

/* A timer was set at this moment, under the lock, to be due at that one. */
NTW_INTERNAL void note_timer(uint64_t now, uint64_t due)
{
    if (due <= now)
        due = next_due();
    if (due < waiting.timers_due)
        waiting.timers_due = due;
}

/* How often the caller looks at its word before it sleeps: not at all where the moment to which it sleeps at the longest is near. */
static uint32_t looks_before(const struct seat *seat)
{
    const bool tries = process.looks && waiting.begun++ % WAITS_PER_TRY < TRIES;
    if (seat->moment != NEVER && seat->moment < present() + MOMENTS_OF_LOOKS)
        return 0;
    return tries ? LOOKS_AT_WORD : seat->looks;
}

/* Looks at the caller's word so often, before it sleeps; the next time half as often where it was in vain. */
static void look(struct seat *seat, uint32_t looks)
{
    for (uint32_t i = 0; i < looks; i++) {
        if (atomic_load_explicit(&seat->word, memory_order_acquire) != IS_AWAKE) {
            seat->looks = LOOKS_AT_WORD;
            return;
        }
        rest();
    }
    seat->looks /= 2;
}

/* Sleeps to this moment at the longest, until the caller's word is written. Answers whether its wait was granted. */
static bool sleep_to(struct seat *seat, uint64_t moment)
{
    const struct timespec until = in_timespec(process.start + moment);
    uint32_t seen = IS_AWAKE;
    const bool is_marked =
        atomic_compare_exchange_strong_explicit(&seat->word, &seen, IS_ASLEEP, memory_order_acquire, memory_order_acquire);
    STEP(word, &seat->word, Marks);
    if (is_marked)
        do {
            if (moment != NEVER && present() >= moment) {
                STEP(word, NULL, FindsItLate);
                return false;
            }
            TO_SLEEP(word, &seat->word, FallsAsleep, FallsAsleep, Stirs, Restarts, 0);
            sleep_on(&seat->word, IS_ASLEEP, moment == NEVER ? NULL : &until);
            seen = atomic_load_explicit(&seat->word, memory_order_acquire);
            STEP(word, &seat->word, Reads);
        } while (seen == IS_ASLEEP);
    return seen == IS_GRANTED;
}

/* The caller, which is awake, has slept to its moment or was called: it lets time pass. Answers to which moment it sleeps on. */
static uint64_t look_at_time(struct seat *seat)
{
    uint64_t moment = NEVER;
    take_lock_for(seat);
    if (atomic_load_explicit(&seat->word, memory_order_relaxed) != IS_GRANTED) {
        atomic_store_explicit(&seat->word, IS_AWAKE, memory_order_relaxed);
        STEP(word, &seat->word, LooksAtTime);
        if (pass_time(seat) >= seat->timer_due)
            seat->timer_due = seat->minds ? first_minded(seat) : NEVER;
    } else {
        STEP(word, &seat->word, LooksAtTime);
    }
    if (atomic_load_explicit(&seat->word, memory_order_relaxed) != IS_GRANTED) {
        atomic_store_explicit(&seat->word, IS_AWAKE, memory_order_relaxed);
        if (seat->minds)
            waiting.kept_to = NEVER;
        set_moment(seat);
        moment = seat->moment;
    }
    STEP(word, &seat->word, Rearms);
    STEP_AS(word, Returns, TurnsToSleep);
    unlock_and_wake(seat);
    return moment;
}

/* Gives the lock back, sleeps until the caller's pending wait is granted, and answers its status. */
__attribute__((noinline)) NTW_INTERNAL DWORD sleep_until_granted(struct seat *seat, struct dues dues)
{
    fall_asleep(seat, dues);
    uint64_t moment = seat->moment;
    const uint32_t looks = looks_before(seat);
    if (own.port != NULL)
        rest_beside_wait(seat);
    STEP_AS(word, Returns, TurnsToSleep);
    unlock_and_wake(seat);
    if (looks > 0)
        look(seat, looks);
    while (!sleep_to(seat, moment))
        moment = look_at_time(seat);
    comes_after(&seat->word);
    STEP(word, NULL, Returns);
    if (own.rests)
        go_on_with_packet();
    return seat->status;
}
