/* SPDX-License-Identifier: MIT OR Apache-2.0 */
/* ---- Who sleeps for a lock, for those who ask why threads wait (told.c). It is noted just before a thread falls asleep, and no longer once it has
 * the lock, so a lock that is named is still there. */
#include "internal.h"

NTW_INTERNAL struct sleepers sleepers;

/* The caller's id. */
NTW_INLINE DWORD id_of_caller(void)
{
    const DWORD id = own.id;
    return id != 0 ? id : GetCurrentThreadId();
}

NTW_INTERNAL void note_sleeper(struct sleeper *it)
{
    rest_with_packet();
    it->id = id_of_caller();
    it->earlier = NULL;
    take_latch(&sleepers.latch);
    it->later = sleepers.first;
    if (it->later != NULL)
        it->later->earlier = it;
    atomic_signal_fence(memory_order_release); /* (A child that is forked here reads the list: forked.c.) */
    sleepers.first = it;
    give_latch(&sleepers.latch);
}

NTW_INTERNAL void forget_sleeper(struct sleeper *it)
{
    take_latch(&sleepers.latch);
    if (it->earlier != NULL)
        it->earlier->later = it->later;
    else
        sleepers.first = it->later;
    if (it->later != NULL)
        it->later->earlier = it->earlier;
    give_latch(&sleepers.latch);
    if (own.rests)
        go_on_with_packet();
}
