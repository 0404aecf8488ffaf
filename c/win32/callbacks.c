/* SPDX-License-Identifier: MIT OR Apache-2.0 */
/* ---- Callbacks: how they come into the queue of a pool, run in its threads, and end; and how a task is gone. */
#include "internal.h"

/* Puts a task into the queue, under the latch. */
static void append_task(struct task *task)
{
    PTP_POOL pool = task->pool;
    task->is_queued = true;
    task->next = NULL;
    if (pool->first == NULL)
        pool->first = task;
    else
        pool->last->next = task;
    pool->last = task;
}

/* A callback more is to come, under the latch. */
static struct call put_callback(struct task *task, uint32_t outcome)
{
    task->waiting[outcome]++;
    task->pool->waiting_callbacks++;
    if (!task->is_queued)
        append_task(task);
    return call_for_thread(task->pool);
}

/* A callback more is to come. (The task may be gone by then.) */
NTW_INTERNAL void submit(struct task *task)
{
    const DWORD error = own.last_error;
    if (is_at_latch())
        return;
    take_latch(&pools_latch);
    const struct call call = put_callback(task, SIGNALED);
    give_latch(&pools_latch);
    bring_thread(call);
    own.last_error = error;
}

/* Takes a callback of the first task, under the latch; null where there is none. */
static struct task *take_callback(PTP_POOL pool, uint32_t *outcome)
{
    struct task *task = pool->first;
    if (task == NULL)
        return NULL;
    pool->first = task->next;
    task->is_queued = false;
    *outcome = task->waiting[SIGNALED] > 0 ? SIGNALED : TIMED_OUT;
    task->waiting[*outcome]--;
    task->running++;
    pool->waiting_callbacks--;
    if (to_come(task) > 0)
        append_task(task);
    return task;
}

/* Drops what has not begun, under the latch. Answers how many callbacks that were. */
static uint32_t drop_callbacks(struct task *task)
{
    const uint32_t dropped = to_come(task);
    PTP_POOL pool = task->pool;
    if (!task->is_queued)
        return 0;
    struct task *before = NULL, **at = &pool->first;
    for (; *at != task; at = &(*at)->next)
        before = *at;
    *at = task->next;
    if (pool->last == task)
        pool->last = before;
    task->is_queued = false;
    task->waiting[SIGNALED] = task->waiting[TIMED_OUT] = 0;
    pool->waiting_callbacks -= dropped;
    return dropped;
}

/* Takes it out of its group, under the latch. Answers the group, where that is over now. */
static PTP_CLEANUP_GROUP leave_group(struct task *task)
{
    PTP_CLEANUP_GROUP group = task->group;
    if (group == NULL)
        return NULL;
    if (task->earlier != NULL)
        task->earlier->later = task->later;
    else
        group->first = task->later;
    if (task->later != NULL)
        task->later->earlier = task->earlier;
    task->group = NULL;
    return group->is_closed && group->first == NULL ? group : NULL;
}

/* Takes its members out of a group, under the latch: a list of them, each with the next as its later one. */
NTW_INTERNAL struct task *take_members(PTP_CLEANUP_GROUP group)
{
    struct task *members = group->first;
    group->first = NULL;
    for (struct task *task = members; task != NULL; task = task->later)
        task->group = NULL;
    return members;
}

NTW_INTERNAL bool is_without_callback(const struct task *task)
{
    return task->running == 0 && to_come(task) == 0;
}

/* A task has no callback any longer, under the latch. Answers its group, where that had it until now, and has none more that has one. */
static PTP_CLEANUP_GROUP group_awaited_to(struct task *task)
{
    PTP_CLEANUP_GROUP group = task->group;
    if (!task->is_awaited)
        return NULL;
    task->is_awaited = false;
    return --group->awaited == 0 ? group : NULL;
}

/* The task may be idle, under the latch, which is given back: then those who wait go on, and one that is closed is gone. */
NTW_INTERNAL void settle_task(struct task *task)
{
    PTP_POOL pool = task->pool;
    const bool is_idle = is_without_callback(task), ends = is_idle && task->is_closed && task->holders == 0;
    HANDLE done = is_idle ? task->done : NULL;
    PTP_CLEANUP_GROUP group = ends ? leave_group(task) : is_idle ? group_awaited_to(task) : NULL;
    struct task *members = group != NULL ? take_members(group) : NULL;
    if (is_idle) {
        task->done = NULL; /* (It is the program's again once it is set.) */
        atomic_fetch_add_explicit(&task->ends, 1, memory_order_release);
    }
    pool->tasks -= ends;
    const bool pool_ends = ends && leave_pools(pool), pool_empties = ends && pool->is_closed && pool->tasks == 0;
    if (pool_empties)
        atomic_fetch_add_explicit(&pool->calls, 1, memory_order_relaxed);
    give_latch(&pools_latch);
    if (is_idle)
        WakeByAddressAll((PVOID)&task->ends);
    if (done != NULL)
        SetEvent(done);
    if (ends)
        task->end(task);
    let_go_of_members(members);
    if (group != NULL)
        end_group(group);
    if (pool_ends)
        free(pool);
    else if (pool_empties)
        WakeByAddressAll((PVOID)&pool->calls);
}

/* Does what the callback asked for. */
static void do_what_was_asked(PTP_CALLBACK_INSTANCE instance)
{
    if (instance->section != NULL)
        LeaveCriticalSection(instance->section);
    if (instance->mutex != NULL)
        ReleaseMutex(instance->mutex);
    if (instance->semaphore != NULL)
        ReleaseSemaphore(instance->semaphore, (LONG)instance->count, NULL);
    if (instance->event != NULL)
        SetEvent(instance->event);
}

/* Calls the program's callback. One that ends by ExitThread has ended as one that returns has, and then its thread leaves the pool. */
static void call_program(struct task *task, PTP_CALLBACK_INSTANCE instance, uint32_t outcome)
{
    jmp_buf end, *const before = own.end;
    own.end = &end;
    if (_setjmp(end) == 0)
        task->call(task, instance, outcome);
    else
        is_to_exit = true;
    own.end = before;
}

/* Runs one callback, which was taken, and takes the latch. Answers whether its task is idle then, and to be settled. */
static bool run_callback(struct task *task, uint32_t outcome)
{
    struct _TP_CALLBACK_INSTANCE instance = { .task = task, .pool = task->pool };
    call_program(task, &instance, outcome);
    /* (One from which the thread is apart may be gone.) */
    if (!instance.is_apart && task->after != NULL)
        task->after(task);
    do_what_was_asked(&instance);
    take_latch(&pools_latch);
    if (instance.is_apart)
        return false;
    task->running--;
    return is_without_callback(task);
}

/* A callback is to come, under the latch, which is given back: in a thread of the pool, or in the caller's. */
NTW_INTERNAL void call_back(struct task *task, uint32_t outcome, bool in_thread)
{
    struct call call = { 0 };
    if (in_thread)
        task->running++;
    else
        call = put_callback(task, outcome);
    give_latch(&pools_latch);
    if (!in_thread)
        bring_thread(call);
    else if (run_callback(task, outcome))
        settle_task(task);
    else
        give_latch(&pools_latch);
}

/* Whether a callback in the queue has no thread that could come to it, under the latch. (Each that watches an object needs one to itself.) */
static bool is_without_thread(const struct _TP_POOL *pool)
{
    const uint32_t threads = known_threads(pool);
    return pool == &watching_pool ? pool->tasks > threads : threads == 0;
}

/* A callback is to come, but not where there is no thread for it and none can be had. Under the latch, which is given back. Answers whether it
 * comes. (The task may be gone by then.) */
NTW_INTERNAL bool try_to_submit(struct task *task)
{
    const DWORD error = own.last_error;
    PTP_POOL pool = task->pool;
    const struct call call = put_callback(task, SIGNALED);
    /* (With one that runs the task stays until it is known whether the thread comes.) */
    task->running += call.is_new;
    give_latch(&pools_latch);
    const bool is_there = bring_thread(call);
    if (!call.is_new)
        return true;
    take_latch(&pools_latch);
    const bool is_refused = !is_there && is_without_thread(pool) && (drop_callbacks(task) > 0 || pool == &watching_pool);
    task->running--;
    settle_task(task);
    if (!is_refused)
        own.last_error = error;
    return !is_refused;
}

/* Whether the caller has to go, under the latch: its callback asked for that, or more are at work than the pool's maximum. (One that is only being
 * started does no work for which the caller could go.) */
static bool is_to_leave(const struct _TP_POOL *pool)
{
    return is_to_exit || pool->working > pool->most;
}

/* Waits for work, under the latch. Answers whether the thread goes on. */
static bool wait_for_work(PTP_POOL pool)
{
    uint32_t calls = atomic_load_explicit(&pool->calls, memory_order_relaxed);
    pool->idle++;
    give_latch(&pools_latch);
    const bool was_called = wait_on(&pool->calls, &calls, sizeof calls, IDLE_MS, OF_LIBRARY);
    take_latch(&pools_latch);
    pool->idle--;
    pool->has_called = false;
    return pool->first != NULL || (was_called ? !pool->is_closed || pool->tasks > 0 : pool->threads <= pool->least);
}

/* The caller is none of the pool's threads any longer, under the latch, which is given back. Another takes up what it was called for. */
static void leave_pool(PTP_POOL pool)
{
    struct call call = { 0 };
    pool->threads--;
    pool->working--;
    const bool is_missed = pool->first != NULL || (!pool->is_closed && pool->threads < pool->least), ends = leave_pools(pool);
    if (is_missed)
        call = call_for_thread(pool);
    give_latch(&pools_latch);
    if (is_missed)
        bring_thread(call);
    if (ends)
        free(pool);
}

NTW_INTERNAL DWORD WINAPI work_in_pool(LPVOID at)
{
    PTP_POOL pool = at;
    uint32_t outcome;
    take_latch(&pools_latch);
    pool->working++;
    pool->expected--;
    do {
        for (struct task *task; !is_to_leave(pool) && (task = take_callback(pool, &outcome)) != NULL;) {
            PVOID calls = pool->first != NULL ? call_idle_thread(pool) : NULL;
            give_latch(&pools_latch);
            wake_called(calls);
            if (run_callback(task, outcome)) {
                settle_task(task);
                take_latch(&pools_latch);
            }
        }
    } while ((!pool->is_closed || pool->tasks > 0) && !is_to_leave(pool) && wait_for_work(pool));
    leave_pool(pool);
    return is_to_exit ? own.seat->exit_code : 0;
}

/* Drops callbacks that have not begun. Answers whether there were any. (Others may wait for them, too.) */
NTW_INTERNAL bool cancel_callbacks(struct task *task)
{
    if (is_at_latch())
        return false;
    take_latch(&pools_latch);
    const bool is_any = drop_callbacks(task) > 0;
    if (is_any)
        settle_task(task);
    else
        give_latch(&pools_latch);
    return is_any;
}

/* Waits until the task has no callback, and tries meanwhile to have threads that were refused. (In a child that was forked beside others no callback
 * ends from then on, and none is waited for.) */
NTW_INTERNAL void wait_for_task(struct task *task)
{
    const DWORD error = own.last_error;
    bool is_refused = false;
    if (is_at_latch())
        return;
    take_latch(&pools_latch);
    while (!process.is_forked && !is_without_callback(task)) {
        if (!is_refused && task->pool->lacking > 0) {
            is_refused = !bring_lacking(task->pool);
            continue;
        }
        uint32_t ends = atomic_load_explicit(&task->ends, memory_order_relaxed);
        give_latch(&pools_latch);
        wait_on(&task->ends, &ends, sizeof ends, is_refused ? RETRY_MS : INFINITE, FOR_CALLBACKS);
        is_refused = false;
        take_latch(&pools_latch);
    }
    give_latch(&pools_latch);
    own.last_error = error;
}

/* ---- A task is closed. Its callbacks may yet run, and use it as before; but none comes by itself any longer, though one of them asks for that. */

NTW_INTERNAL bool is_ending(const struct task *task)
{
    return task->is_closed || task->holders > 0;
}

static void stop_task(struct task *task)
{
    if (task->stop != NULL)
        task->stop(task);
}

/* Who closes it and waits for its callbacks has it from now on, under the latch: one of them may close it, too. */
NTW_INTERNAL void hold_task(struct task *task)
{
    task->holders++;
    stop_task(task);
}

/* The same has it no longer, and so it is gone, unless another has it. */
static void let_go_of_task(struct task *task)
{
    take_latch(&pools_latch);
    task->holders--;
    task->is_closed = true;
    settle_task(task);
}

/* The same of all members that were taken out of a group. */
NTW_INTERNAL void let_go_of_members(struct task *members)
{
    for (struct task *task = members, *next; task != NULL; task = next) {
        next = task->later;
        let_go_of_task(task);
    }
}

/* The program needs it no longer: it is gone once its callbacks have ended, and its group has it until then. Answers whether that is now. */
NTW_INTERNAL bool close_task(struct task *task, HANDLE done)
{
    if (is_at_latch())
        return false;
    take_latch(&pools_latch);
    stop_task(task);
    task->is_closed = true;
    const bool is_idle = is_without_callback(task);
    task->done = done;
    settle_task(task);
    return is_idle;
}

/* As it is closed by a call with an event: null, one that is set once the callbacks have ended, or INVALID_HANDLE_VALUE to wait for them. */
NTW_INTERNAL BOOL end_task(struct task *task, HANDLE event)
{
    if (is_at_latch())
        return FALSE;
    if (event == INVALID_HANDLE_VALUE) {
        take_latch(&pools_latch);
        hold_task(task);
        give_latch(&pools_latch);
        wait_for_task(task);
        let_go_of_task(task);
        return TRUE;
    }
    return close_task(task, event) || ntw_fail(ERROR_IO_PENDING);
}
