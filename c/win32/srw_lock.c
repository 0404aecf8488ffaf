/* SPDX-License-Identifier: MIT OR Apache-2.0 */
/* ---- SRW locks: a word of who has it and who wants it, on which those sleep who want it. While a thread waits that wants it alone, or any that
 * shares, no new thread may share. */
#include "internal.h"

_Static_assert(sizeof(struct srw) == sizeof(SRWLOCK), "an SRW lock is one pointer");

/* Among those who sleep on the state. */
enum { WANT_IT_ALONE = 1, WANT_TO_SHARE = 2 };

NTW_INTERNAL struct srw *ntw_srw_of(PSRWLOCK lock)
{
    return (struct srw *)(void *)lock;
}

static PSRWLOCK lock_of(struct srw *srw)
{
    return (PSRWLOCK)(void *)srw;
}

static inline bool may_share(uint32_t state)
{
    return (state & SHARERS) < SHARERS - 1 && (state & (SHARERS_WAIT | ALONE_WAITERS)) == 0;
}

static inline bool is_nobodys(uint32_t state)
{
    return (state & SHARERS) == 0;
}

/* Sets the state to `value` where it still is `seen`, which is what it is afterwards where it was not. */
static inline bool swap_state(struct srw *srw, uint32_t *seen, uint32_t value)
{
    return atomic_compare_exchange_strong_explicit(&srw->state, seen, value, memory_order_acquire, memory_order_relaxed);
}

NTW_INLINE uint32_t state_of(struct srw *srw)
{
    return atomic_load_explicit(&srw->state, memory_order_relaxed);
}

/* Gives it back, which was seen in this state and of which the caller has this part. Whoever takes it in between may free it. So the step that gives it
 * back tells all that is to be known of those who wait: one that wants it alone is called, or else all that share; and then nothing is done with the
 * lock, but for a wake by its address. */
__attribute__((noinline)) static void give_wanted(struct srw *srw, uint32_t state, uint32_t part)
{
    uint32_t after;
    do {
        after = state - part;
        if (after == SHARERS_WAIT)
            after = 0;
    } while (!atomic_compare_exchange_weak_explicit(&srw->state, &state, after, memory_order_release, memory_order_relaxed));
    if (!is_nobodys(after))
        return;
    if ((state & ALONE_WAITERS) != 0)
        wake_among(&srw->state, 1, WANT_IT_ALONE);
    else if ((state & SHARERS_WAIT) != 0)
        wake_among(&srw->state, INT_MAX, WANT_TO_SHARE);
}

/* The same, where nobody seemed to wait. */
static inline void give(struct srw *srw, uint32_t state, uint32_t part)
{
    if (!atomic_compare_exchange_strong_explicit(&srw->state, &state, state - part, memory_order_release, memory_order_relaxed))
        give_wanted(srw, state, part);
}

/* Looks for a while until it is nobody's, or others wait too. */
static uint32_t look_at_lock(struct srw *srw, uint32_t waiters)
{
    uint32_t state = state_of(srw);
    for (uint32_t i = 0; i < LOOKS_AT_LOCK && !is_nobodys(state) && (state & waiters) == 0; i++) {
        rest();
        state = state_of(srw);
    }
    return state;
}

/* Counts the caller among those that wait, until it has it. */
__attribute__((noinline)) static void wait_alone(struct srw *srw)
{
    uint32_t state = look_at_lock(srw, ALONE_WAITERS);
    while (is_nobodys(state))
        if (swap_state(srw, &state, state | ALONE))
            return;
    struct sleeper sleeper = { .lock = lock_of(srw) };
    note_sleeper(&sleeper);
    atomic_fetch_add_explicit(&srw->state, ALONE_WAITER, memory_order_relaxed);
    for (;;) {
        state = state_of(srw);
        while (is_nobodys(state))
            if (swap_state(srw, &state, (state | ALONE) - ALONE_WAITER)) {
                forget_sleeper(&sleeper);
                return;
            }
        sleep_among(&srw->state, state, NULL, WANT_IT_ALONE);
    }
}

__attribute__((noinline)) static void wait_to_share(struct srw *srw)
{
    uint32_t state = look_at_lock(srw, SHARERS_WAIT | ALONE_WAITERS);
    for (;;) {
        if (may_share(state)) {
            if (swap_state(srw, &state, state + SHARER))
                return;
            continue;
        }
        if ((state & SHARERS_WAIT) == 0 && !swap_state(srw, &state, state | SHARERS_WAIT))
            continue;
        struct sleeper sleeper = { .lock = lock_of(srw), .shares = true };
        note_sleeper(&sleeper);
        sleep_among(&srw->state, state | SHARERS_WAIT, NULL, WANT_TO_SHARE);
        forget_sleeper(&sleeper);
        state = state_of(srw);
    }
}

void InitializeSRWLock(PSRWLOCK lock)
{
    lock->Ptr = NULL;
}

BOOLEAN TryAcquireSRWLockExclusive(PSRWLOCK lock)
{
    may_switch_at(lock);
    struct srw *srw = ntw_srw_of(lock);
    uint32_t state = state_of(srw);
    while (is_nobodys(state))
        if (swap_state(srw, &state, state | ALONE)) {
            comes_after(&srw->state);
            return TRUE;
        }
    return FALSE;
}

/* Where a scheduler comes first, or the lock is not free. (Apart, so that the quick way has no frame.) */
__attribute__((noinline)) static void acquire_slowly(PSRWLOCK lock)
{
    struct srw *srw = ntw_srw_of(lock);
    uint32_t state = 0;
    may_switch_at(lock);
    if (!by_schedule() || !swap_state(srw, &state, ALONE))
        wait_alone(srw);
    comes_after(&srw->state);
}

void AcquireSRWLockExclusive(PSRWLOCK lock)
{
    struct srw *srw = ntw_srw_of(lock);
    uint32_t state = 0;
    if (by_schedule() || !swap_state(srw, &state, ALONE))
        acquire_slowly(lock);
    else
        comes_after(&srw->state);
}

void ReleaseSRWLockExclusive(PSRWLOCK lock)
{
    struct srw *srw = ntw_srw_of(lock);
    comes_before(&srw->state);
    give(srw, ALONE, ALONE);
}

BOOLEAN TryAcquireSRWLockShared(PSRWLOCK lock)
{
    may_switch_at(lock);
    struct srw *srw = ntw_srw_of(lock);
    uint32_t state = state_of(srw);
    while (may_share(state))
        if (swap_state(srw, &state, state + SHARER)) {
            comes_after(&srw->state);
            return TRUE;
        }
    return FALSE;
}

void AcquireSRWLockShared(PSRWLOCK lock)
{
    may_switch_at(lock);
    struct srw *srw = ntw_srw_of(lock);
    uint32_t state = state_of(srw);
    if (!may_share(state) || !swap_state(srw, &state, state + SHARER))
        wait_to_share(srw);
    comes_after(&srw->state);
}

void ReleaseSRWLockShared(PSRWLOCK lock)
{
    struct srw *srw = ntw_srw_of(lock);
    comes_before(&srw->state);
    const uint32_t state = state_of(srw);
    if ((state & (SHARERS_WAIT | ALONE_WAITERS)) == 0)
        give(srw, state, SHARER);
    else
        give_wanted(srw, state, SHARER);
}
