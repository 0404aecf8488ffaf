/* SPDX-License-Identifier: MIT OR Apache-2.0 */
/* ---- Timers with callbacks. They stand in a heap by the moment at which they are due; one thread sleeps to the first. */
#include "internal.h"

/* Under the latch of the pools, but for `is_kept`. */
static struct {
    PTP_TIMER *heap;                     /* from place 1 on */
    size_t count, made, room;            /* there is room for all that were made */
    _Atomic bool is_kept;                /* a thread was started that keeps the time, */
    bool has_keeper;                     /* and it has begun to */
} timers;

static void place_timer(PTP_TIMER timer, size_t place)
{
    timers.heap[place] = timer;
    timer->place = place;
}

/* Moves a timer up or down to where it belongs. */
static void sift_timer(PTP_TIMER timer)
{
    size_t at = timer->place;
    for (; at > 1 && timers.heap[at / 2]->due > timer->due; at /= 2)
        place_timer(timers.heap[at / 2], at);
    for (size_t next; (next = 2 * at) <= timers.count; at = next) {
        if (next < timers.count && timers.heap[next + 1]->due < timers.heap[next]->due)
            next++;
        if (timers.heap[next]->due >= timer->due)
            break;
        place_timer(timers.heap[next], at);
    }
    place_timer(timer, at);
}

/* It is no longer due. */
static void drop_timer(PTP_TIMER timer)
{
    const size_t place = timer->place;
    if (place == 0)
        return;
    PTP_TIMER last = timers.heap[timers.count--];
    timer->place = 0;
    if (last != timer) {
        place_timer(last, place);
        sift_timer(last);
    }
}

/* It is due at this moment. There is room for it. */
static void put_timer(PTP_TIMER timer, uint64_t due)
{
    drop_timer(timer);
    timer->due = due;
    place_timer(timer, ++timers.count);
    sift_timer(timer);
}

/* When a timer with a period that is due by now is due next: after that, however many periods have passed. */
static uint64_t next_due_of(const struct _TP_TIMER *timer, uint64_t now)
{
    const uint64_t period = timer->period * (uint64_t)(MOMENTS_PER_SECOND / 1000);
    return now + period - (now - timer->due) % period;
}

/* Calls the callbacks of those that are due, under the latch, which is given back meanwhile. */
static void call_those_due(void)
{
    const uint64_t now = monotonic();
    while (timers.count > 0 && timers.heap[1]->due <= now) {
        PTP_TIMER timer = timers.heap[1];
        timer->is_over = timer->period == 0;
        if (timer->is_over)
            drop_timer(timer);
        else
            put_timer(timer, next_due_of(timer, now));
        call_back(&timer->task, TIMED_OUT, timer->in_thread);
        take_latch(&pools_latch);
    }
}

/* Tries again to have the threads that pools lack, under the latch, which is given back meanwhile. Answers whether one is still refused. */
static bool bring_all_lacking(void)
{
    PTP_POOL pool = pools;
    while (pool != NULL) {
        if (pool->lacking == 0)
            pool = pool->next;
        else if (bring_lacking(pool))
            pool = pools;
        else
            return true;
    }
    return false;
}

/* Keeps the time, and what threads pools lack. (Of two that were started together the second ends.) */
static DWORD WINAPI keep_timers(LPVOID none)
{
    (void)none;
    take_latch(&pools_latch);
    const bool is_second = timers.has_keeper;
    timers.has_keeper = true;
    while (!is_second) {
        const bool is_refused = bring_all_lacking();
        /* (A callback below that is refused a thread calls this thread: it is not to sleep then.) */
        uint32_t calls = atomic_load_explicit(&keeper_calls, memory_order_relaxed);
        call_those_due();
        DWORD ms = ms_to(timers.count > 0 ? timers.heap[1]->due : NEVER);
        if (is_refused && ms > RETRY_MS)
            ms = RETRY_MS;
        give_latch(&pools_latch);
        if (ms > 0)
            wait_on(&keeper_calls, &calls, sizeof calls, ms, OF_LIBRARY);
        take_latch(&pools_latch);
    }
    give_latch(&pools_latch);
    return 0;
}

/* Makes room in the heap for one timer more. Answers whether there is. */
static bool make_room(void)
{
    take_latch(&pools_latch);
    bool is_room = timers.made + 2 < timers.room;
    if (!is_room) {
        const size_t room = timers.room * 2 + 64;
        PTP_TIMER *heap = realloc(timers.heap, room * sizeof *heap);
        is_room = heap != NULL;
        if (is_room) {
            timers.heap = heap;
            timers.room = room;
        }
    }
    timers.made += is_room;
    give_latch(&pools_latch);
    return is_room;
}

static bool is_time_kept(void)
{
    return atomic_load_explicit(&timers.is_kept, memory_order_acquire);
}

/* Sees to it that a thread keeps the time. Answers 0, or why none does: in a child that was forked beside others none of the library's is there. */
NTW_INTERNAL uint32_t keep_time(void)
{
    if (process.is_forked)
        return ERROR_NOT_SUPPORTED;
    if (is_time_kept())
        return 0;
    HANDLE thread = CreateThread(NULL, 0, keep_timers, NULL, 0, NULL);
    if (thread == NULL) {
        const uint32_t refused = own.last_error;
        return is_time_kept() ? 0 : refused;
    }
    atomic_store_explicit(&timers.is_kept, true, memory_order_release);
    CloseHandle(thread);
    return 0;
}

/* A timer more is to be there: it has room in the heap, and a thread keeps the time. Answers 0, or why not. */
static uint32_t admit_timer(void)
{
    if (!make_room())
        return ERROR_NOT_ENOUGH_MEMORY;
    const uint32_t refused = keep_time();
    take_latch(&pools_latch);
    timers.made -= refused != 0;
    give_latch(&pools_latch);
    return refused;
}

static void free_timer(struct task *task)
{
    take_latch(&pools_latch);
    timers.made--;
    give_latch(&pools_latch);
    free(task);
}

/* Sets a timer; NEVER for none. It is over where it has no period, and was due. */
NTW_INTERNAL void set_pool_timer(PTP_TIMER timer, uint64_t due, DWORD period)
{
    take_latch(&pools_latch);
    timer->period = period;
    timer->is_over = false;
    if (due == NEVER || is_ending(&timer->task))
        drop_timer(timer);
    else
        put_timer(timer, due);
    atomic_fetch_add_explicit(&keeper_calls, 1, memory_order_relaxed);
    give_latch(&pools_latch);
    WakeByAddressAll((PVOID)&keeper_calls);
}

static void stop_timer(struct task *task)
{
    drop_timer((PTP_TIMER)(void *)task);
}

static void call_timer(struct task *task, PTP_CALLBACK_INSTANCE instance, uint32_t outcome)
{
    PTP_TIMER timer = (PTP_TIMER)(void *)task;
    (void)outcome;
    if (timer->callback != NULL)
        timer->callback(instance, task->context, timer);
    else
        timer->queue_callback(task->context, TRUE);
}

/* A timer that is not set; null, with the last error set, where there is none. */
NTW_INTERNAL PTP_TIMER make_timer(struct _TP_TIMER what, PVOID context, PTP_CALLBACK_ENVIRON environment)
{
    if (is_at_latch())
        return NULL;
    if (what.callback == NULL && what.queue_callback == NULL) {
        ntw_fail(ERROR_INVALID_PARAMETER);
        return NULL;
    }
    PTP_TIMER timer = malloc(sizeof *timer);
    const uint32_t refused = timer != NULL ? admit_timer() : ERROR_NOT_ENOUGH_MEMORY;
    if (refused != 0) {
        free(timer);
        ntw_fail(refused);
        return NULL;
    }
    *timer = what;
    timer->task.call = call_timer;
    timer->task.end = free_timer;
    timer->task.stop = stop_timer;
    if (!open_task(&timer->task, context, environment)) {
        free_timer(&timer->task);
        ntw_fail(ERROR_INVALID_HANDLE);
        return NULL;
    }
    return timer;
}

PTP_TIMER CreateThreadpoolTimer(PTP_TIMER_CALLBACK callback, PVOID context, PTP_CALLBACK_ENVIRON environment)
{
    return make_timer((struct _TP_TIMER){ .callback = callback }, context, environment);
}

void SetThreadpoolTimer(PTP_TIMER timer, PFILETIME due, DWORD period, DWORD window)
{
    (void)window;
    if (!is_at_latch())
        set_pool_timer(timer, due != NULL ? moment_of_time(due) : NEVER, period);
}

BOOL IsThreadpoolTimerSet(PTP_TIMER timer)
{
    if (is_at_latch())
        return FALSE;
    take_latch(&pools_latch);
    const bool is_set = timer->place != 0;
    give_latch(&pools_latch);
    return is_set;
}

void WaitForThreadpoolTimerCallbacks(PTP_TIMER timer, BOOL cancels)
{
    if (cancels)
        cancel_callbacks(&timer->task);
    wait_for_task(&timer->task);
}

void CloseThreadpoolTimer(PTP_TIMER timer)
{
    close_task(&timer->task, NULL);
}

/* ---- Timer queues: cleanup groups of timers. */

static struct _TP_CLEANUP_GROUP usual_queue;

HANDLE CreateTimerQueue(void)
{
    return CreateThreadpoolCleanupGroup();
}

BOOL CreateTimerQueueTimer(PHANDLE timer, HANDLE queue, WAITORTIMERCALLBACK callback, PVOID parameter, DWORD due, DWORD period, ULONG flags)
{
    TP_CALLBACK_ENVIRON environment = { .CleanupGroup = queue != NULL ? queue : &usual_queue };
    const struct _TP_TIMER what = { .queue_callback = callback, .in_thread = (flags & WT_EXECUTEINTIMERTHREAD) != 0 };
    PTP_TIMER made = make_timer(what, parameter, &environment);
    *timer = made;
    if (made == NULL)
        return FALSE;
    set_pool_timer(made, moment_after(due), (flags & WT_EXECUTEONLYONCE) != 0 ? 0 : period);
    return TRUE;
}

BOOL ChangeTimerQueueTimer(HANDLE queue, HANDLE timer, ULONG due, ULONG period)
{
    PTP_TIMER it = timer;
    (void)queue;
    if (it == NULL)
        return ntw_fail(ERROR_INVALID_PARAMETER);
    if (is_at_latch())
        return FALSE;
    take_latch(&pools_latch);
    const bool is_over = it->is_over;
    give_latch(&pools_latch);
    if (!is_over)
        set_pool_timer(it, moment_after(due), period);
    return TRUE;
}

BOOL DeleteTimerQueueTimer(HANDLE queue, HANDLE timer, HANDLE event)
{
    (void)queue;
    if (timer == NULL)
        return ntw_fail(ERROR_INVALID_PARAMETER);
    return end_task(&((PTP_TIMER)timer)->task, event);
}

/* No timer of the queue is due any longer, and all are there until the callbacks of all have ended, under the latch. Answers whether any has one. */
static bool close_timers(PTP_CLEANUP_GROUP queue)
{
    for (struct task *task = queue->first; task != NULL; task = task->later) {
        hold_task(task);
        task->is_awaited = !is_without_callback(task);
        queue->awaited += task->is_awaited;
    }
    return queue->awaited > 0;
}

BOOL DeleteTimerQueueEx(HANDLE queue, HANDLE event)
{
    PTP_CLEANUP_GROUP group = queue;
    if (queue == NULL)
        return ntw_fail(ERROR_INVALID_HANDLE);
    if (is_at_latch())
        return FALSE;
    take_latch(&pools_latch);
    group->is_deleted = true;
    if (event == INVALID_HANDLE_VALUE) {
        give_latch(&pools_latch);
        CloseThreadpoolCleanupGroupMembers(group, FALSE, NULL);
        CloseThreadpoolCleanupGroup(group);
        return TRUE;
    }
    group->done = event;
    const bool is_busy = close_timers(group);
    struct task *timers_of_it = is_busy ? NULL : take_members(group);
    give_latch(&pools_latch);
    if (is_busy)
        return ntw_fail(ERROR_IO_PENDING);
    let_go_of_members(timers_of_it);
    end_group(group);
    return TRUE;
}

BOOL DeleteTimerQueue(HANDLE queue)
{
    return DeleteTimerQueueEx(queue, NULL);
}
