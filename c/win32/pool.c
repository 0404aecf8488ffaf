/* SPDX-License-Identifier: MIT OR Apache-2.0 */
/* ---- A pool of threads. What has callbacks is a task: it counts those that are to come and those that run. Tasks with callbacks to come stand in the
 * pool's queue, and its threads take them from there, one callback at a time. A thread that finds none for a minute ends, but the least that the
 * pool keeps; and so does one that is past the most, once its callback has returned. */
#include "internal.h"

/* One latch for all pools, and what lies in them. (Each object that is watched has a thread to itself; watch.c bounds how many are.) */
NTW_INTERNAL _Atomic uint32_t pools_latch;
NTW_INTERNAL struct _TP_POOL watching_pool = { .most = UINT32_MAX }, usual_pool = { .most = USUAL_MAXIMUM, .next = &watching_pool };
NTW_INTERNAL PTP_POOL pools = &usual_pool;
NTW_INTERNAL _Atomic uint32_t keeper_calls; /* how often the keeper of timers was called: the word that it sleeps on (timers.c) */

/* A callback of the caller's has ended by ExitThread. */
NTW_INTERNAL _Thread_local bool is_to_exit __attribute__((tls_model("initial-exec")));

NTW_INTERNAL uint32_t to_come(const struct task *task)
{
    return task->waiting[SIGNALED] + task->waiting[TIMED_OUT];
}

/* A pool that is closed and has no tasks lets its threads go; the last to go frees it. Under the latch: answers whether that is now, and then it is
 * none of all pools any longer. */
NTW_INTERNAL bool leave_pools(PTP_POOL pool)
{
    if (!pool->is_closed || pool->tasks > 0 || pool->threads > 0 || pool->starting > 0)
        return false;
    PTP_POOL *at = &pools;
    while (*at != pool)
        at = &(*at)->next;
    *at = pool->next;
    return true;
}

/* How many threads the system no longer refuses it, under the latch. (Of two that it gave one may hide another, while who started the one that has
 * begun is held up.) */
NTW_INTERNAL uint32_t known_threads(const struct _TP_POOL *pool)
{
    return pool->working + (pool->expected > 0 ? (uint32_t)pool->expected : 0);
}

/* Whether it is to have one thread more, under the latch. */
static bool wants_thread(const struct _TP_POOL *pool)
{
    return pool->threads < pool->most && (pool->waiting_callbacks > pool->idle || pool->threads < pool->least);
}

/* A thread more is to be started, under the latch. */
NTW_INTERNAL void count_new_thread(PTP_POOL pool)
{
    pool->threads++;
    pool->starting++;
}

/* Starts a thread that was counted. Answers whether that was done; else it is counted no longer, and the last error says why. (The pool may be gone
 * then.) */
NTW_INTERNAL bool start_in_pool(PTP_POOL pool)
{
    HANDLE thread = CreateThread(NULL, 0, work_in_pool, pool, 0, NULL);
    take_latch(&pools_latch);
    pool->starting--;
    pool->expected += thread != NULL;
    if (thread == NULL) {
        pool->threads--;
        pool->lacking += wants_thread(pool);
        atomic_fetch_add_explicit(&keeper_calls, 1, memory_order_relaxed);
    }
    const bool ends = leave_pools(pool);
    give_latch(&pools_latch);
    if (ends)
        free(pool);
    if (thread != NULL)
        return CloseHandle(thread);
    WakeByAddressAll((PVOID)&keeper_calls);
    return false;
}

/* Calls an idle thread, under the latch; not beside one that has yet to come, but where the caller is a handler of signals: it may have interrupted who
 * wakes that one. Answers the address of the word to wake it by, or null where none is to be woken. */
NTW_INTERNAL PVOID call_idle_thread(PTP_POOL pool)
{
    if (pool->idle == 0 || (pool->has_called && own.calls == 0))
        return NULL;
    pool->has_called = true;
    own.calls++;
    atomic_fetch_add_explicit(&pool->calls, 1, memory_order_relaxed);
    return (PVOID)&pool->calls;
}

/* Wakes it, once the latch is given back. */
NTW_INTERNAL void wake_called(PVOID calls)
{
    if (calls == NULL)
        return;
    WakeByAddressSingle(calls);
    own.calls--;
}

/* (Where the system may yet refuse each thread that the pool has, this is one more: that it is too many is seen later.) */
NTW_INTERNAL struct call call_for_thread(PTP_POOL pool)
{
    const struct call call = { pool, call_idle_thread(pool), wants_thread(pool) || known_threads(pool) == 0 };
    if (call.is_new)
        count_new_thread(pool);
    return call;
}

/* Answers whether the thread comes. */
NTW_INTERNAL bool bring_thread(struct call call)
{
    wake_called(call.calls);
    return !call.is_new || start_in_pool(call.pool);
}

/* Tries again to start a thread that the pool lacks, under the latch, which is given back meanwhile: the pool may be gone then. Answers false where
 * it is refused again. */
NTW_INTERNAL bool bring_lacking(PTP_POOL pool)
{
    if (!wants_thread(pool)) {
        pool->lacking = 0;
        return true;
    }
    pool->lacking--;
    count_new_thread(pool);
    give_latch(&pools_latch);
    const bool is_started = start_in_pool(pool);
    take_latch(&pools_latch);
    return is_started;
}
