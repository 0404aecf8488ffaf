/* SPDX-License-Identifier: MIT OR Apache-2.0 */
/* ---- Objects that are waited for on behalf of callbacks: each by a thread of a pool of its own. */
#include "internal.h"

static uint32_t watched; /* how many objects are waited for, under the latch: a watch that is stopped may have yet to end */

static void note_stop(struct watch *watch)
{
    watch->is_stopped = true;
    watched--;
}

/* The object is not waited for any longer, under the latch: what is signaled from now on stays so. */
static void drop_watch(struct task *told)
{
    struct watch *watch = told->watch;
    told->watch = NULL;
    if (watch != NULL) {
        note_stop(watch);
        SetEvent(watch->stop);
    }
}

/* The wait has ended so: a callback is to come. Answers whether the object is waited for once more. */
static bool tell_watched(struct watch *watch, uint32_t outcome)
{
    struct task *told = watch->told;
    take_latch(&pools_latch);
    if (watch->is_stopped) {
        give_latch(&pools_latch);
        return false;
    }
    const bool goes_on = !watch->is_once;
    watch->has_told = true;
    if (!goes_on) {
        told->watch = NULL;
        note_stop(watch);
    }
    call_back(told, outcome, watch->in_thread);
    return goes_on;
}

/* How long it has yet to wait, in ms. */
NTW_INTERNAL DWORD ms_to(uint64_t moment)
{
    const uint64_t now = monotonic(), grain = MOMENTS_PER_SECOND / 1000;
    if (moment == NEVER)
        return INFINITE;
    const uint64_t left = moment > now ? (moment - now + grain - 1) / grain : 0;
    return left < INFINITE ? (DWORD)left : INFINITE - 1;
}

/* Waits once. Answers whether it goes on. (Of two that are signaled the first ends the wait, so that one that is stopped takes no signal. A pseudo
 * handle stands in no list: what it names is not signaled while the thread that waits runs.) */
static bool watch_once(struct watch *watch)
{
    const HANDLE stop_first[] = { watch->stop, watch->object };
    const DWORD count = watch->object == CURRENT_PROCESS || watch->object == CURRENT_THREAD ? 1 : 2;
    const DWORD status = WaitForMultipleObjectsEx(count, stop_first, FALSE, ms_to(watch->moment), TRUE);
    if (status == WAIT_OBJECT_0 || status == WAIT_FAILED)
        return false;
    if (status == WAIT_IO_COMPLETION || (status == WAIT_TIMEOUT && ms_to(watch->moment) > 0))
        return true;
    const bool goes_on = tell_watched(watch, status == WAIT_TIMEOUT ? TIMED_OUT : SIGNALED);
    watch->moment = moment_after(watch->ms);
    return goes_on;
}

static void watch_object(struct task *task, PTP_CALLBACK_INSTANCE instance, uint32_t outcome)
{
    (void)instance;
    (void)outcome;
    while (watch_once((struct watch *)(void *)task))
        continue;
}

static void free_watch(struct task *task)
{
    struct watch *watch = (struct watch *)(void *)task;
    take_latch(&pools_latch);
    if (!watch->is_stopped) {
        watch->told->watch = NULL;
        note_stop(watch);
    }
    give_latch(&pools_latch);
    CloseHandle(watch->stop);
    free(watch);
}

/* Puts a watch into the queue, under the latch, which is given back. It is the only one of what it tells, which another thread may have given one
 * meanwhile. Answers 0, or why the object is not waited for. (What it tells may be gone once the latch is given back, and the watch is not: so it is
 * known whether it was stopped. One of which a callback came has the thread of another, which the keeper of timers tries to have.) */
static uint32_t put_watch(struct watch *watch)
{
    const DWORD error = own.last_error;
    watching_pool.tasks++;
    watched++;
    drop_watch(watch->told);
    watch->told->watch = watch;
    watch->task.holders++;
    const uint32_t refused = try_to_submit(&watch->task) ? 0 : own.last_error;
    take_latch(&pools_latch);
    const bool is_refused = refused != 0 && !watch->is_stopped && !watch->has_told;
    if (is_refused)
        drop_watch(watch->told);
    watch->task.holders--;
    settle_task(&watch->task);
    own.last_error = error;
    return is_refused ? refused : 0;
}

/* Has an object waited for, but not for what ends. Answers 0, or why not. */
static uint32_t begin_watch(struct task *told, const struct watch *how)
{
    const DWORD error = own.last_error;
    struct watch *watch = malloc(sizeof *watch);
    if (watch == NULL)
        return ERROR_NOT_ENOUGH_MEMORY;
    *watch = *how;
    watch->told = told;
    watch->task = (struct task){ .call = watch_object, .end = free_watch, .pool = &watching_pool, .is_closed = true };
    watch->stop = CreateEvent(NULL, TRUE, FALSE, NULL);
    if (watch->stop == NULL) {
        free(watch);
        return own.last_error;
    }
    own.last_error = error;
    take_latch(&pools_latch);
    const bool ends = is_ending(told);
    if (!ends && watched < WATCHES)
        return put_watch(watch);
    give_latch(&pools_latch);
    CloseHandle(watch->stop);
    free(watch);
    return ends ? 0 : ERROR_NO_SYSTEM_RESOURCES;
}

/* ---- Registered waits. */

struct registered {
    struct task task;
    WAITORTIMERCALLBACK callback;
};

static void call_registered(struct task *task, PTP_CALLBACK_INSTANCE instance, uint32_t outcome)
{
    (void)instance;
    ((struct registered *)(void *)task)->callback(task->context, outcome == TIMED_OUT);
}

/* Whether the handle names something to wait for: a list with it twice is refused then as such. */
static bool is_waitable(HANDLE object)
{
    const DWORD error = own.last_error;
    HANDLE twice[] = { object, object };
    WaitForMultipleObjects(2, twice, FALSE, 0);
    if (own.last_error != ERROR_INVALID_PARAMETER)
        return false;
    own.last_error = error;
    return true;
}

BOOL RegisterWaitForSingleObject(PHANDLE wait, HANDLE object, WAITORTIMERCALLBACK callback, PVOID context, ULONG ms, ULONG flags)
{
    if (callback != NULL && !is_waitable(object))
        return FALSE;
    struct registered *made = new_task(callback != NULL, sizeof *made);
    if (made == NULL)
        return FALSE;
    made->task.call = call_registered;
    made->task.end = free_task;
    made->task.stop = drop_watch;
    made->callback = callback;
    open_task(&made->task, context, NULL);
    *wait = (HANDLE)made;
    const uint32_t refused = begin_watch(&made->task, &(struct watch){ .object = object, .ms = ms, .moment = moment_after(ms),
                                                                       .is_once = (flags & WT_EXECUTEONLYONCE) != 0,
                                                                       .in_thread = (flags & WT_EXECUTEINWAITTHREAD) != 0 });
    if (refused == 0)
        return TRUE;
    *wait = NULL;
    close_task(&made->task, NULL);
    return ntw_fail(refused);
}

BOOL UnregisterWaitEx(HANDLE wait, HANDLE event)
{
    if (wait == NULL || wait == INVALID_HANDLE_VALUE)
        return ntw_fail(ERROR_INVALID_HANDLE);
    return end_task(&((struct registered *)wait)->task, event);
}

BOOL UnregisterWait(HANDLE wait)
{
    return UnregisterWaitEx(wait, NULL);
}

/* ---- Waits of the thread pool. */

struct _TP_WAIT {
    struct task task;
    PTP_WAIT_CALLBACK callback;
};

static void call_wait(struct task *task, PTP_CALLBACK_INSTANCE instance, uint32_t outcome)
{
    PTP_WAIT wait = (PTP_WAIT)(void *)task;
    wait->callback(instance, task->context, wait, outcome == TIMED_OUT ? WAIT_TIMEOUT : WAIT_OBJECT_0);
}

PTP_WAIT CreateThreadpoolWait(PTP_WAIT_CALLBACK callback, PVOID context, PTP_CALLBACK_ENVIRON environment)
{
    PTP_WAIT wait = new_task(callback != NULL, sizeof *wait);
    if (wait == NULL)
        return NULL;
    wait->task.call = call_wait;
    wait->task.end = free_task;
    wait->task.stop = drop_watch;
    wait->callback = callback;
    open_task(&wait->task, context, environment);
    return wait;
}

/* The moment of the monotonic clock that such a time means: negative from now on, else in UTC. */
NTW_INTERNAL uint64_t moment_of_time(const FILETIME *time)
{
    const uint64_t due = (uint64_t)time->dwHighDateTime << 32 | time->dwLowDateTime, now = monotonic();
    if ((int64_t)due <= 0)
        return now + (0 - due);
    const int64_t left = (int64_t)due - universal();
    return left > 0 ? now + (uint64_t)left : now;
}

void SetThreadpoolWait(PTP_WAIT wait, HANDLE object, PFILETIME timeout)
{
    if (is_at_latch())
        return;
    take_latch(&pools_latch);
    drop_watch(&wait->task);
    give_latch(&pools_latch);
    if (object != NULL)
        begin_watch(&wait->task, &(struct watch){ .object = object, .ms = INFINITE, .is_once = true,
                                                  .moment = timeout != NULL ? moment_of_time(timeout) : NEVER });
}

void WaitForThreadpoolWaitCallbacks(PTP_WAIT wait, BOOL cancels)
{
    if (cancels)
        cancel_callbacks(&wait->task);
    wait_for_task(&wait->task);
}

void CloseThreadpoolWait(PTP_WAIT wait)
{
    close_task(&wait->task, NULL);
}
