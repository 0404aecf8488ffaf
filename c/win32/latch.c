/* SPDX-License-Identifier: MIT OR Apache-2.0 */
/* ---- A latch: a word that is free, taken, or taken and wanted, as the dispatcher's lock is. It is held for a few instructions. A handler of signals
 * that has interrupted them takes none, since its own thread may have it. */
#include "internal.h"

static inline bool takes_at_once(_Atomic uint32_t *latch)
{
    uint32_t seen = FREE;
    return atomic_compare_exchange_strong_explicit(latch, &seen, TAKEN, memory_order_acquire, memory_order_relaxed);
}

/* The caller has a latch, or waits for one, from now on. */
static inline void come_to_latch(void)
{
    own.latches++;
    atomic_signal_fence(memory_order_seq_cst);
}

static inline void go_from_latch(void)
{
    atomic_signal_fence(memory_order_seq_cst);
    own.latches--;
}

/* Whether the caller is a handler of signals that has interrupted its thread there; then the last error is set. The calls of pools and ports begin so. */
NTW_INLINE bool is_at_latch(void)
{
    if (own.latches == 0)
        return false;
    own.last_error = ERROR_POSSIBLE_DEADLOCK;
    return true;
}

NTW_INLINE bool try_latch(_Atomic uint32_t *latch)
{
    come_to_latch();
    const bool is_taken = takes_at_once(latch);
    if (!is_taken)
        go_from_latch();
    return is_taken;
}

__attribute__((noinline, cold)) static void wait_for_latch(_Atomic uint32_t *latch)
{
    for (uint32_t i = 0; i < LOOKS_AT_LOCK; i++) {
        if (atomic_load_explicit(latch, memory_order_relaxed) == FREE && takes_at_once(latch))
            return;
        rest();
    }
    while (atomic_exchange_explicit(latch, WANTED, memory_order_acquire) != FREE)
        sleep_on(latch, WANTED, NULL);
}

NTW_INLINE void take_latch(_Atomic uint32_t *latch)
{
    come_to_latch();
    if (!takes_at_once(latch))
        wait_for_latch(latch);
    comes_after(latch);
}

NTW_INLINE void give_latch(_Atomic uint32_t *latch)
{
    comes_before(latch);
    if (atomic_exchange_explicit(latch, FREE, memory_order_release) == WANTED)
        wake_one(latch);
    go_from_latch();
}

/* Wakes up to this number of those threads that sleep on the word among these. */
NTW_INTERNAL void wake_among(_Atomic uint32_t *word, int count, uint32_t bits)
{
    if (woke_by_schedule(word, count, bits))
        return;
    const int error = errno;
    syscall(SYS_futex, word, FUTEX_WAKE_BITSET_PRIVATE, count, NULL, NULL, bits);
    errno = error;
}
