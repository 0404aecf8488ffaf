/* SPDX-License-Identifier: MIT OR Apache-2.0 */
/* ---- The lock, and the thread that it favours, which takes it by a plain store and a load.
 *
 * `waiting.lock` is FREE, TAKEN, WANTED (taken, and threads may sleep on it), or FAVOURS + n. The thread of seat n says by `inside`, which nobody else
 * writes, that it has the lock as the favoured one, or looks whether it has.
 *
 * To take it. The favoured thread sets `inside`, and then loads the lock: it has it if that still favours it. If not, it clears `inside` and does as
 * all others: they make it TAKEN from FREE, or exchange it for WANTED once they are to sleep. Who changes FAVOURS + n so revokes it: membarrier(2) has
 * each other thread pass a barrier, and who revokes has the lock once it finds `inside` of seat n clear after that.
 * To give it back. Who is inside clears `inside`, by an exchange, and then loads the lock: if that favours it no longer, it wakes who sleeps on `inside`.
 * All others make the lock FREE, and wake one thread if it was WANTED.
 * To be favoured. Who has taken it `patience` times, with nobody else between, sets `inside` and makes it FAVOURS + n from TAKEN.
 *
 * Why no two have it. One thread at most has made the lock TAKEN or WANTED, from FREE or from a favour, and not given it back since: it has the lock, or
 * still revokes. (Who exchanges TAKEN for WANTED takes nothing by that.) The lock comes to favour thread n by that one alone: by n while it has the lock,
 * or by who has revoked and puts the favour back (`try_lock`). The barrier of who revokes stands somewhere among the steps of thread n. If thread n found
 * the favour before the barrier, it had set `inside` before that, too: who revokes sees it, and waits. After the barrier, thread n finds that the lock
 * does not favour it, until who revokes has the lock and gives it back, or puts it back.
 * Why nobody sleeps in vain. Who sleeps on `inside` has revoked. If thread n clears `inside` before the barrier, who revokes sees that; if not, thread n
 * loads the lock after the barrier, and wakes who sleeps. If threads sleep on the lock while it is not WANTED, one of them was woken: it makes it
 * WANTED, be it FREE, TAKEN or FAVOURS + n. (`nt_protocols` has all this as laws of every run: its specs/Lock.antt names the functions below.)
 *
 * To revoke costs a call of the system. So `patience` doubles if a favour was too short to pay for that, and else halves. The lock favours nobody if
 * the system has no such barriers, nor beside ThreadSanitizer and helgrind, which know none. If the system refuses one later, who revokes rests until
 * each store has long arrived, and nobody is favoured any longer. */
#include "internal.h"

/* Whether the process has one thread, so that what it does with the lock need not be one step. */
NTW_INLINE bool is_alone(void)
{
#ifdef TELLS_WHETHER_ALONE
    return TELLS_WHETHER_ALONE && __libc_single_threaded;
#else
    return false;
#endif
}

/* ---- The favoured thread. */

/* Wakes who has revoked the favour and sleeps until this thread is not inside. */
__attribute__((noinline, cold)) static void wake_who_revoked(struct seat *seat)
{
    TO_WAKE(lock, &seat->inside, WakesRevoker, WakesNoRevoker);
    wake_one(&seat->inside);
}

static inline bool lock_is(uint32_t value)
{
    return atomic_load_explicit(&waiting.lock, memory_order_acquire) == value;
}

/* What `inside` is: 0, or how the lock is that favours this thread. */
static inline uint32_t inside_of(const struct seat *seat)
{
    return atomic_load_explicit(&seat->inside, memory_order_relaxed);
}

/* The caller, which was inside, is no longer. Beside other threads by an exchange and not a store, so that a call is a full barrier (on x86), as one of
 * Windows is: programs write that they are to sleep, call, and then look once more whether there is work. */
__attribute__((always_inline)) static inline void step_out(struct seat *seat, uint32_t inside)
{
    if (is_alone())
        atomic_store_explicit(&seat->inside, 0, memory_order_relaxed);
    else
        atomic_exchange_explicit(&seat->inside, 0, memory_order_seq_cst);
    STEP(lock, &seat->inside, StepsOut);
    if (!lock_is(inside)) {
        STEP(lock, &waiting.lock, FindsRevoked);
        wake_who_revoked(seat);
    } else {
        STEP(lock, &waiting.lock, KeepsFavour);
    }
}

/* The same where the lock has come to favour it no longer. Answers false. */
__attribute__((noinline, cold)) static bool step_back(struct seat *seat, uint32_t inside)
{
    STEP(lock, &waiting.lock, MissesFavour);
    step_out(seat, inside);
    return false;
}

/* Takes the lock if it favours the caller. (Who is inside was interrupted there by a signal, and does as the others.) */
__attribute__((always_inline)) static inline bool step_in(struct seat *seat)
{
    const uint32_t mine = FAVOURS + seat->number;
    if (!lock_is(mine) || inside_of(seat) != 0)
        return false;
    STEP_OF(seat, lock, &waiting.lock, SeesFavour);
    atomic_store_explicit(&seat->inside, mine, memory_order_relaxed);
    STEP(lock, &seat->inside, StoresInside);
    atomic_signal_fence(memory_order_seq_cst);
    if (!lock_is(mine))
        return step_back(seat, mine);
    STEP(lock, &waiting.lock, Enters);
    seat->turns++;
    return true;
}

/* Whether the thread of this seat takes the lock as all do, or has it so. Its handlers of signals read that. */
static inline bool takes_lock(const struct seat *seat)
{
    return atomic_load_explicit(&seat->takes, memory_order_relaxed);
}

NTW_INLINE void set_takes_lock(struct seat *seat, bool takes)
{
    atomic_signal_fence(memory_order_seq_cst);
    atomic_store_explicit(&seat->takes, takes, memory_order_relaxed);
    atomic_signal_fence(memory_order_seq_cst);
}

/* Has the calls of the caller's handlers of signals be refused, or no longer, where it has the lock and is in no call. Answers whether they were
 * before. (Where it has no seat, its handler would take one.) */
static bool set_refuses_handlers(bool refuses)
{
    struct seat *seat = own.seat;
    const bool refused = seat != NULL ? takes_lock(seat) : own.joins;
    if (seat == NULL)
        own.joins = refuses;
    else
        set_takes_lock(seat, refuses);
    atomic_signal_fence(memory_order_seq_cst);
    return refused;
}

/* The lock favours the caller from now on, which has it, unless it is wanted. */
__attribute__((noinline, cold)) static void favour(struct seat *seat)
{
    const uint32_t mine = FAVOURS + seat->number;
    uint32_t seen = TAKEN;
    waiting.turns_left = waiting.patience;
    if (!process.has_barriers)
        return;
    seat->turns = 0;
    atomic_store_explicit(&seat->inside, mine, memory_order_relaxed);
    STEP(lock, &seat->inside, StoresFirst);
    if (atomic_compare_exchange_strong_explicit(&waiting.lock, &seen, mine, memory_order_acq_rel, memory_order_relaxed)) {
        STEP(lock, &waiting.lock, GainsFavour);
        set_takes_lock(seat, false);
    } else {
        STEP(lock, &waiting.lock, MissesTaken);
        atomic_store_explicit(&seat->inside, 0, memory_order_relaxed);
        STEP(lock, &seat->inside, UnstoresInside);
    }
}

/* The caller has taken the lock as all do. */
static void count_turn(struct seat *seat)
{
    if (waiting.turn != seat->number) {
        waiting.turn = seat->number;
        waiting.turns_left = waiting.patience;
    } else if (--waiting.turns_left == 0) {
        favour(seat);
    }
}

/* ---- To revoke that. */

static bool ask_system(int command)
{
    const int error = errno;
    const bool is_done = syscall(SYS_membarrier, command, 0, 0, NULL, NULL, 0) == 0;
    errno = error;
    return is_done;
}

/* As the process begins, and in a child that was forked. */
NTW_INTERNAL void ask_for_barriers(void)
{
    process.has_barriers = !is_scheduled && knows_barriers() && ask_system(MEMBARRIER_CMD_REGISTER_PRIVATE_EXPEDITED);
}

/* Has each other thread pass a barrier, under the lock. */
static void pass_barriers(void)
{
    static _Atomic uint32_t nobody;
    if (ask_system(MEMBARRIER_CMD_PRIVATE_EXPEDITED))
        return;
    process.has_barriers = false;
    const uint64_t end = monotonic() + MOMENTS_PER_SECOND / 10;
    const struct timespec until = in_timespec(end);
    while (monotonic() < end)
        sleep_on(&nobody, 0, &until);
}

/* A favour has ended that lasted for this number of turns, under the lock. */
static void set_patience(uint32_t turns)
{
    const bool has_paid = turns >= TURNS_THAT_PAY;
    if (has_paid && waiting.patience > LEAST_PATIENCE)
        waiting.patience /= 2;
    else if (!has_paid && waiting.patience < MOST_PATIENCE)
        waiting.patience *= 2;
}

/* Waits until this thread is not inside. */
static void wait_until_outside(struct seat *seat)
{
    for (uint32_t i = 0; process.looks && i < LOOKS_AT_LOCK; i++) {
        if (atomic_load_explicit(&seat->inside, memory_order_acquire) == 0) {
            STEP(lock, &seat->inside, FindsOutside, seat->number);
            return;
        }
        rest();
    }
    for (uint32_t seen; (seen = atomic_load_explicit(&seat->inside, memory_order_acquire)) != 0;) {
        STEP(lock, &seat->inside, FindsInside, seat->number);
        TO_SLEEP(lock, &seat->inside, FallsAsleepOn, FindsLeft, StirsOn, RestartsOn, seat->number);
        sleep_on(&seat->inside, seen, NULL);
    }
    STEP(lock, &seat->inside, FindsOutside, seat->number);
}

/* The caller has made the lock, which was found so, TAKEN or WANTED: now it takes it from whom it favoured, if it did. */
static void take_from(uint32_t found)
{
    if (found == FREE)
        return;
    struct seat *seat = &waiting.seats[found - FAVOURS];
    if (seat != own.seat)
        pass_barriers();
    STEP_BEYOND(lock, PassesBarrier, seat->number);
    wait_until_outside(seat);
    if (seat != own.seat)
        set_patience(seat->turns);
}

/* ---- All threads. */

/* Makes the lock TAKEN if it is as it was seen. */
static inline bool take_as_seen(uint32_t seen)
{
    return atomic_compare_exchange_strong_explicit(&waiting.lock, &seen, TAKEN, memory_order_acquire, memory_order_relaxed);
}

/* Sleeps on the lock. Meanwhile the caller's handlers of signals may call. And where the caller is such a handler, it may have interrupted the
 * favoured thread after that was inside, and before it woke who sleeps until it is not. */
static void sleep_on_lock(void)
{
    struct seat *seat = own.seat;
    const bool takes = seat != NULL && takes_lock(seat);
    STEP(lock, &waiting.lock, MarksHeld);
    TO_WAKE(lock, seat == NULL ? NULL : &seat->inside, PaysOne, PaysNobody);
    if (seat != NULL) {
        set_takes_lock(seat, false);
        wake_one(&seat->inside);
    }
    TO_SLEEP(lock, &waiting.lock, FallsAsleep, FindsUnwanted, Stirs, Restarts, 0);
    sleep_on(&waiting.lock, WANTED, NULL);
    if (seat != NULL)
        set_takes_lock(seat, takes);
}

/* Takes the lock if it was not free at once: looks at it for a while, and then sleeps on it. */
__attribute__((noinline, cold)) static void wait_for_lock(void)
{
    uint32_t seen;
    for (uint32_t i = 0; process.looks && i < LOOKS_AT_LOCK; i++) {
        seen = atomic_load_explicit(&waiting.lock, memory_order_relaxed);
        if (seen == WANTED)
            break;
        if (seen != TAKEN && take_as_seen(seen)) {
            STEP(lock, &waiting.lock, seen == FREE ? TakesFree : Revokes, seen);
            take_from(seen);
            return;
        }
        rest();
    }
    STEP(lock, NULL, StopsLooking);
    while ((seen = atomic_exchange_explicit(&waiting.lock, WANTED, memory_order_acquire)) == TAKEN || seen == WANTED)
        sleep_on_lock();
    STEP(lock, &waiting.lock, seen == FREE ? MarksFree : MarksFavoured, seen);
    take_from(seen);
}

/* What a sanitizer learns of the lock. (These are functions so that a call keeps no register for them where there is none.) */
__attribute__((noinline, cold)) static void tell_of_taking(void)
{
    comes_after(&waiting.lock);
}

__attribute__((noinline, cold)) static void tell_of_giving(void)
{
    comes_before(&waiting.lock);
}

/* Wakes one thread that sleeps on the lock. */
__attribute__((noinline, cold)) static void wake_who_wants_lock(void)
{
    TO_WAKE(lock, &waiting.lock, WakesOne, WakesNobody);
    wake_one(&waiting.lock);
}

/* Takes the lock in one step, or waits for it. */
static inline void take_in_a_step(void)
{
    STEP(lock, NULL, Asks);
    if (!take_as_seen(FREE))
        wait_for_lock();
    else
        STEP(lock, &waiting.lock, TakesFree);
    if (has_sanitizer())
        tell_of_taking();
}

/* Takes the lock as the process' only thread. */
static inline bool take_alone(void)
{
    if (!is_alone() || atomic_load_explicit(&waiting.lock, memory_order_relaxed) != FREE)
        return false;
    atomic_store_explicit(&waiting.lock, TAKEN, memory_order_relaxed);
    return true;
}

/* Takes the lock for a caller that may have no seat, or give back its seat. It is not favoured then. */
NTW_INLINE void take_lock(void)
{
    if (!take_alone())
        take_in_a_step();
}

/* The same, where the thread of this seat calls. False, with the last error set, where that is a handler of signals which has interrupted a call
 * of its thread that has the lock or takes it. */
__attribute__((noinline)) static bool take_in_turn(struct seat *caller)
{
    may_switch_before_call();
    if (inside_of(caller) != 0 || takes_lock(caller)) {
        own.last_error = ERROR_POSSIBLE_DEADLOCK;
        return false;
    }
    set_takes_lock(caller, true);
    STEP_NEXT(caller);
    take_lock();
    count_turn(caller);
    return true;
}

/* Takes the lock for the thread of this seat, which calls. False, with the last error set, where it can't (`take_in_turn`). */
NTW_ALWAYS_INLINE bool take_lock_for(struct seat *caller)
{
    return step_in(caller) || take_in_turn(caller);
}

/* Makes the lock free. Answers whether threads may sleep on it. */
__attribute__((always_inline)) static inline bool let_go(void)
{
    check_waiting();
    if (is_alone()) {
        atomic_store_explicit(&waiting.lock, FREE, memory_order_relaxed);
        return false;
    }
    if (has_sanitizer())
        tell_of_giving();
    const bool is_wanted = atomic_exchange_explicit(&waiting.lock, FREE, memory_order_release) == WANTED;
    STEP(lock, &waiting.lock, GivesBack);
    return is_wanted;
}

/* Gives back what `take_lock` took. */
NTW_ALWAYS_INLINE void give_lock(void)
{
    if (let_go())
        wake_who_wants_lock();
}

/* Gives back what either of them took. */
NTW_ALWAYS_INLINE void give_lock_for(struct seat *caller)
{
    const uint32_t inside = inside_of(caller);
    if (inside == 0) {
        const bool is_wanted = let_go();
        set_takes_lock(caller, false);
        if (is_wanted)
            wake_who_wants_lock();
    } else {
        check_waiting();
        step_out(caller, inside);
    }
}

/* Takes the lock if nobody has it. */
static bool try_lock(void)
{
    const uint32_t seen = atomic_load_explicit(&waiting.lock, memory_order_relaxed);
    if (seen == TAKEN || seen == WANTED || !take_as_seen(seen))
        return false;
    STEP(lock, &waiting.lock, seen == FREE ? TriesFree : TriesFavoured, seen);
    if (seen == FREE)
        return true;
    const struct seat *seat = &waiting.seats[seen - FAVOURS];
    if (seat != own.seat)
        pass_barriers();
    STEP_BEYOND(lock, PassesBarrierOnce, seat->number);
    if (atomic_load_explicit(&seat->inside, memory_order_acquire) == 0) {
        STEP(lock, &seat->inside, FindsOutsideOnce, seat->number);
        return true;
    }
    STEP(lock, &seat->inside, Declines, seat->number);
    /* The lock favours that thread as before, which has it. */
    const bool is_wanted = atomic_exchange_explicit(&waiting.lock, seen, memory_order_release) == WANTED;
    STEP(lock, &waiting.lock, PutsBack, seat->number);
    if (is_wanted)
        wake_who_wants_lock();
    return false;
}

/* Takes the lock, where the caller is in no call. Answers what is to be given back with it. */
NTW_INTERNAL bool take_lock_beside_calls(void)
{
    const bool refused = set_refuses_handlers(true);
    take_lock();
    return refused;
}

NTW_INTERNAL void give_lock_beside_calls(bool refused)
{
    give_lock();
    set_refuses_handlers(refused);
}

/* The same, where it is free within a tenth of a second. Answers whether it is. */
NTW_INTERNAL bool take_lock_at_last(bool *refused)
{
    const struct timespec pause = { .tv_nsec = 1000000 };
    for (int i = 0; i < 100; i++) {
        *refused = set_refuses_handlers(true);
        if (try_lock()) {
            comes_after(&waiting.lock);
            return true;
        }
        set_refuses_handlers(*refused);
        nanosleep(&pause, NULL);
    }
    return false;
}

/* In a child that was forked, by its only thread: whether nobody has the lock. It favours nobody from now on. */
NTW_INTERNAL bool is_free_in_child(void)
{
    ask_for_barriers();
    if (own.seat != NULL && lock_is(FAVOURS + own.seat->number) && inside_of(own.seat) == 0)
        atomic_store_explicit(&waiting.lock, FREE, memory_order_relaxed);
    return atomic_load_explicit(&waiting.lock, memory_order_relaxed) == FREE;
}
