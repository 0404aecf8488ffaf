/* SPDX-License-Identifier: MIT OR Apache-2.0 */
/* ---- Barriers. Who comes last opens it for those that wait, and for the next round. */
#include "internal.h"

_Static_assert(sizeof(struct barrier) == sizeof(SYNCHRONIZATION_BARRIER), "a barrier has its size");

enum { USUAL_BARRIER_LOOKS = 2000 };

BOOL InitializeSynchronizationBarrier(LPSYNCHRONIZATION_BARRIER barrier, LONG threads, LONG spins)
{
    struct barrier *it = (struct barrier *)(void *)barrier;
    if (threads <= 0 || spins < -1)
        return ntw_fail(ERROR_INVALID_PARAMETER);
    *it = (struct barrier){ .threads = (uint32_t)threads, .looks = spins == -1 ? USUAL_BARRIER_LOOKS : (uint32_t)spins };
    return TRUE;
}

/* Waits until the round is over that this one is. */
static void wait_for_round(struct barrier *it, uint64_t round, DWORD flags)
{
    const bool only_looks = (flags & SYNCHRONIZATION_BARRIER_FLAGS_SPIN_ONLY) != 0;
    const uint32_t looks = (flags & SYNCHRONIZATION_BARRIER_FLAGS_BLOCK_ONLY) != 0 || is_scheduled ? 0 : it->looks;
    for (uint32_t i = 0; atomic_load_explicit(&it->rounds, memory_order_acquire) == round; i++) {
        if (i < looks)
            rest();
        else if (only_looks)
            yield_to_others();
        else
            wait_on(&it->rounds, &round, sizeof round, INFINITE, AT_BARRIER);
    }
}

BOOL EnterSynchronizationBarrier(LPSYNCHRONIZATION_BARRIER barrier, DWORD flags)
{
    struct barrier *it = (struct barrier *)(void *)barrier;
    atomic_fetch_add_explicit(&it->inside, 1, memory_order_relaxed);
    /* (This round can't end before the caller has come.) */
    const uint64_t round = atomic_load_explicit(&it->rounds, memory_order_acquire);
    comes_before(&it->come);
    const bool is_last = atomic_fetch_add_explicit(&it->come, 1, memory_order_acq_rel) + 1 == it->threads;
    if (is_last) {
        atomic_store_explicit(&it->come, 0, memory_order_relaxed);
        atomic_fetch_add_explicit(&it->rounds, 1, memory_order_seq_cst);
        WakeByAddressAll((PVOID)&it->rounds);
    } else {
        wait_for_round(it, round, flags);
    }
    comes_after(&it->come);
    if (atomic_fetch_sub_explicit(&it->inside, 1, memory_order_release) == 1)
        WakeByAddressAll((PVOID)&it->inside);
    return is_last;
}

BOOL DeleteSynchronizationBarrier(LPSYNCHRONIZATION_BARRIER barrier)
{
    struct barrier *it = (struct barrier *)(void *)barrier;
    const DWORD error = own.last_error;
    uint32_t inside;
    comes_after(&it->come);
    while ((inside = atomic_load_explicit(&it->inside, memory_order_acquire)) != 0)
        wait_on(&it->inside, &inside, sizeof inside, 1, OF_LIBRARY);
    own.last_error = error;
    return TRUE;
}
