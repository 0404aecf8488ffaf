/* SPDX-License-Identifier: MIT OR Apache-2.0 */
/* ---- A child that was forked, and what is kept there of threads that slept beside the dispatcher and are not in it: the lists are emptied, and no latch
 * is taken. The caller stays in its list where it sleeps, too, and a handler of signals of its own has forked. */
#include "internal.h"

/* Nobody waits for this SRW lock. */
static void forget_waiters(struct srw *srw)
{
    atomic_fetch_and_explicit(&srw->state, SHARERS, memory_order_relaxed);
}

/* Leaves the caller alone, which has this id, among those who sleep for a lock. (A thread that was taking the latch leaves the list such that it can be
 * read from the first on.) */
static void forget_other_sleepers(DWORD caller)
{
    struct sleeper *mine = NULL;
    for (struct sleeper *at = sleepers.first; at != NULL; at = at->later)
        if (at->id == caller)
            mine = at;
    for (struct sleeper *at = sleepers.first; at != NULL; at = at->later)
        if (at->lock != NULL && (mine == NULL || at->lock != mine->lock))
            forget_waiters(ntw_srw_of(at->lock));
    if (mine != NULL)
        mine->earlier = mine->later = NULL;
    sleepers.first = mine;
    atomic_store_explicit(&sleepers.latch, FREE, memory_order_relaxed);
}

static void forget_others_parked(void)
{
    memset(parkings, 0, sizeof parkings);
    if (atomic_load_explicit(&own_place.word, memory_order_relaxed) != PARKED)
        return;
    struct parking *mine = parking_of(own_place.address);
    own_place.earlier = own_place.later = NULL;
    mine->first = mine->last = &own_place;
    atomic_store_explicit(&mine->count, 1, memory_order_relaxed);
}

NTW_INTERNAL void forget_other_threads(DWORD caller)
{
    forget_other_sleepers(caller);
    forget_others_parked();
    atomic_store_explicit(&ports_latch, FREE, memory_order_relaxed);
    atomic_store_explicit(&pools_latch, FREE, memory_order_relaxed);
    atomic_store_explicit(&handlers_latch, FREE, memory_order_relaxed);
    atomic_store_explicit(&storages.latch, FREE, memory_order_relaxed);
}
