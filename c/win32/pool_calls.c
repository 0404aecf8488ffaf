/* SPDX-License-Identifier: MIT OR Apache-2.0 */
/* ---- The pool's calls: pools, environments, work and cleanup groups. */
#include "internal.h"
#include "../schedule/internal.h"

/* Readies a task for this environment, under the latch; null is the usual one. */
static void add_task(struct task *task, PVOID context, PTP_CALLBACK_ENVIRON environment)
{
    PTP_CLEANUP_GROUP group = environment != NULL ? environment->CleanupGroup : NULL;
    task->context = context;
    task->pool = environment != NULL && environment->Pool != NULL ? environment->Pool : &usual_pool;
    task->pool->tasks++;
    task->group = group;
    if (group != NULL) {
        task->cancel = environment->CleanupGroupCancelCallback;
        task->later = group->first;
        if (task->later != NULL)
            task->later->earlier = task;
        group->first = task;
    }
}

/* Room for a task of this size, whose callback the program gives or not. It is there only if the keeper of timers is, which tries again where the pool is
 * refused a thread: so its callbacks come, whatever the program waits on. Null, with the last error set, where there is none. */
NTW_INTERNAL void *new_task(bool has_callback, size_t size)
{
    if (is_at_latch())
        return NULL;
    const uint32_t refused = has_callback ? keep_time() : ERROR_INVALID_PARAMETER;
    void *made = refused == 0 ? calloc(1, size) : NULL;
    if (made == NULL)
        ntw_fail(refused != 0 ? refused : ERROR_NOT_ENOUGH_MEMORY);
    return made;
}

/* Answers whether the task is there: not in a queue that is being deleted. */
NTW_INTERNAL bool open_task(struct task *task, PVOID context, PTP_CALLBACK_ENVIRON environment)
{
    take_latch(&pools_latch);
    const bool is_open = environment == NULL || environment->CleanupGroup == NULL || !environment->CleanupGroup->is_deleted;
    if (is_open)
        add_task(task, context, environment);
    give_latch(&pools_latch);
    return is_open;
}

PTP_POOL CreateThreadpool(PVOID reserved)
{
    if (is_at_latch())
        return NULL;
    PTP_POOL pool = reserved == NULL ? calloc(1, sizeof *pool) : NULL;
    if (pool == NULL) {
        ntw_fail(reserved != NULL ? ERROR_INVALID_PARAMETER : ERROR_NOT_ENOUGH_MEMORY);
        return NULL;
    }
    pool->most = USUAL_MAXIMUM;
    take_latch(&pools_latch);
    pool->next = pools;
    pools = pool;
    give_latch(&pools_latch);
    return pool;
}

/* How many threads a pool has. */
struct bounds {
    uint32_t least, most;
};

static struct bounds bounds_of(PTP_POOL pool)
{
    take_latch(&pools_latch);
    const struct bounds found = { pool->least, pool->most };
    give_latch(&pools_latch);
    return found;
}

/* Threads that are too many now go; where more may be than before, they come for callbacks that wait. */
static void set_bounds(PTP_POOL pool, struct bounds bounds)
{
    take_latch(&pools_latch);
    pool->least = bounds.least;
    pool->most = bounds.most;
    const bool is_past = pool->threads > pool->most;
    const uint32_t room = is_past ? 0 : pool->most - pool->threads;
    const uint32_t more = pool->waiting_callbacks < room ? pool->waiting_callbacks : room;
    if (is_past)
        atomic_fetch_add_explicit(&pool->calls, 1, memory_order_relaxed);
    give_latch(&pools_latch);
    if (is_past)
        WakeByAddressAll((PVOID)&pool->calls);
    for (uint32_t i = 0; i < more; i++) {
        take_latch(&pools_latch);
        const struct call call = call_for_thread(pool);
        give_latch(&pools_latch);
        bring_thread(call);
    }
}

void SetThreadpoolThreadMaximum(PTP_POOL pool, DWORD most)
{
    if (is_at_latch())
        return;
    struct bounds bounds = bounds_of(pool);
    bounds.most = most > 0 ? most : 1;
    if (bounds.least > bounds.most)
        bounds.least = bounds.most;
    set_bounds(pool, bounds);
}

/* Counts one thread more, where fewer than the least number are there. Answers whether it is to be started. */
static bool lacks_thread(PTP_POOL pool)
{
    take_latch(&pools_latch);
    const bool is_lacking = pool->threads < pool->least;
    if (is_lacking)
        count_new_thread(pool);
    give_latch(&pools_latch);
    return is_lacking;
}

/* Starts those that are not there yet. (Each may be at work before the next is started.) */
BOOL SetThreadpoolThreadMinimum(PTP_POOL pool, DWORD least)
{
    if (is_at_latch())
        return FALSE;
    const struct bounds before = bounds_of(pool);
    set_bounds(pool, (struct bounds){ least, before.most > least ? before.most : least });
    while (lacks_thread(pool))
        if (!start_in_pool(pool)) {
            const DWORD error = own.last_error;
            set_bounds(pool, before);
            return ntw_fail(error);
        }
    return TRUE;
}

void CloseThreadpool(PTP_POOL pool)
{
    if (is_at_latch())
        return;
    take_latch(&pools_latch);
    pool->is_closed = true;
    atomic_fetch_add_explicit(&pool->calls, 1, memory_order_relaxed);
    const bool ends = leave_pools(pool), is_empty = pool->tasks == 0;
    give_latch(&pools_latch);
    if (ends)
        free(pool);
    else if (is_empty)
        WakeByAddressAll((PVOID)&pool->calls);
}

void InitializeThreadpoolEnvironment(PTP_CALLBACK_ENVIRON environment)
{
    *environment = (TP_CALLBACK_ENVIRON){ .Version = 3, .CallbackPriority = 1, .Size = sizeof *environment };
}

void DestroyThreadpoolEnvironment(PTP_CALLBACK_ENVIRON environment)
{
    (void)environment;
}

void SetThreadpoolCallbackPool(PTP_CALLBACK_ENVIRON environment, PTP_POOL pool)
{
    environment->Pool = pool;
}

void SetThreadpoolCallbackCleanupGroup(PTP_CALLBACK_ENVIRON environment, PTP_CLEANUP_GROUP group, PTP_CLEANUP_GROUP_CANCEL_CALLBACK cancel)
{
    environment->CleanupGroup = group;
    environment->CleanupGroupCancelCallback = cancel;
}

void SetThreadpoolCallbackRunsLong(PTP_CALLBACK_ENVIRON environment)
{
    environment->Flags |= 1;
}

/* ---- Work. */

struct _TP_WORK {
    struct task task;
    PTP_WORK_CALLBACK callback;
};

/* One callback, which frees what it is made of. */
struct simple {
    struct task task;
    PTP_SIMPLE_CALLBACK callback;
    LPTHREAD_START_ROUTINE function;
};

NTW_INTERNAL void free_task(struct task *task)
{
    free(task);
}

static void call_work(struct task *task, PTP_CALLBACK_INSTANCE instance, uint32_t outcome)
{
    PTP_WORK work = (PTP_WORK)(void *)task;
    (void)outcome;
    work->callback(instance, task->context, work);
}

static void call_simple(struct task *task, PTP_CALLBACK_INSTANCE instance, uint32_t outcome)
{
    struct simple *simple = (struct simple *)(void *)task;
    (void)outcome;
    if (simple->callback != NULL)
        simple->callback(instance, task->context);
    else
        simple->function(task->context);
}

PTP_WORK CreateThreadpoolWork(PTP_WORK_CALLBACK callback, PVOID context, PTP_CALLBACK_ENVIRON environment)
{
    PTP_WORK work = new_task(callback != NULL, sizeof *work);
    if (work == NULL)
        return NULL;
    work->task.call = call_work;
    work->task.end = free_task;
    work->callback = callback;
    open_task(&work->task, context, environment);
    return work;
}

void SubmitThreadpoolWork(PTP_WORK work)
{
    submit(&work->task);
}

void WaitForThreadpoolWorkCallbacks(PTP_WORK work, BOOL cancels)
{
    if (cancels)
        cancel_callbacks(&work->task);
    wait_for_task(&work->task);
}

void CloseThreadpoolWork(PTP_WORK work)
{
    close_task(&work->task, NULL);
}

/* Submits one callback; FALSE where there is none, or memory or a thread that is needed is refused. */
static BOOL submit_simple(struct simple what, PVOID context, PTP_CALLBACK_ENVIRON environment)
{
    struct simple *simple = new_task(what.callback != NULL || what.function != NULL, sizeof *simple);
    if (simple == NULL)
        return FALSE;
    *simple = what;
    simple->task.call = call_simple;
    simple->task.end = free_task;
    simple->task.is_closed = true;
    take_latch(&pools_latch);
    add_task(&simple->task, context, environment);
    return try_to_submit(&simple->task);
}

BOOL TrySubmitThreadpoolCallback(PTP_SIMPLE_CALLBACK callback, PVOID context, PTP_CALLBACK_ENVIRON environment)
{
    return submit_simple((struct simple){ .callback = callback }, context, environment);
}

BOOL QueueUserWorkItem(LPTHREAD_START_ROUTINE function, PVOID context, ULONG flags)
{
    (void)flags;
    return submit_simple((struct simple){ .function = function }, context, NULL);
}

/* ---- Cleanup groups. */

PTP_CLEANUP_GROUP CreateThreadpoolCleanupGroup(void)
{
    PTP_CLEANUP_GROUP group = calloc(1, sizeof *group);
    if (group == NULL)
        ntw_fail(ERROR_NOT_ENOUGH_MEMORY);
    return group;
}

/* Takes its members out of a group, to be closed. */
static struct task *hold_members(PTP_CLEANUP_GROUP group)
{
    take_latch(&pools_latch);
    struct task *members = take_members(group);
    for (struct task *task = members; task != NULL; task = task->later)
        hold_task(task);
    give_latch(&pools_latch);
    return members;
}

/* One of them that has a callback; null where none has, or none ends since the process is forked. */
static struct task *busy_one(struct task *members)
{
    struct task *task = members;
    take_latch(&pools_latch);
    while (task != NULL && is_without_callback(task))
        task = task->later;
    give_latch(&pools_latch);
    return process.is_forked ? NULL : task;
}

/* (A callback of one may submit another, which is there until all have ended.) */
static void wait_for_members(struct task *members)
{
    for (struct task *task; (task = busy_one(members)) != NULL;)
        wait_for_task(task);
}

void CloseThreadpoolCleanupGroupMembers(PTP_CLEANUP_GROUP group, BOOL cancels, PVOID context)
{
    for (struct task *members; !is_at_latch() && (members = hold_members(group)) != NULL;) {
        for (struct task *task = members; task != NULL; task = task->later)
            task->is_canceled = cancels && cancel_callbacks(task);
        wait_for_members(members);
        for (struct task *task = members; task != NULL; task = task->later)
            if (task->is_canceled && task->cancel != NULL)
                task->cancel(task->context, context);
        wait_for_members(members);
        let_go_of_members(members);
    }
}

NTW_INTERNAL void end_group(PTP_CLEANUP_GROUP group)
{
    if (group->done != NULL)
        SetEvent(group->done);
    free(group);
}

/* (A member that a callback has closed is in it until that has ended.) */
void CloseThreadpoolCleanupGroup(PTP_CLEANUP_GROUP group)
{
    if (is_at_latch())
        return;
    take_latch(&pools_latch);
    group->is_closed = true;
    const bool is_empty = group->first == NULL;
    give_latch(&pools_latch);
    if (is_empty)
        end_group(group);
}

/* ---- What a callback asks for. */

void SetEventWhenCallbackReturns(PTP_CALLBACK_INSTANCE instance, HANDLE event)
{
    instance->event = event;
}

void ReleaseSemaphoreWhenCallbackReturns(PTP_CALLBACK_INSTANCE instance, HANDLE semaphore, DWORD count)
{
    instance->semaphore = semaphore;
    instance->count = count;
}

void ReleaseMutexWhenCallbackReturns(PTP_CALLBACK_INSTANCE instance, HANDLE mutex)
{
    instance->mutex = mutex;
}

void LeaveCriticalSectionWhenCallbackReturns(PTP_CALLBACK_INSTANCE instance, PCRITICAL_SECTION section)
{
    instance->section = section;
}

BOOL CallbackMayRunLong(PTP_CALLBACK_INSTANCE instance)
{
    PTP_POOL pool = instance->pool;
    if (is_at_latch())
        return FALSE;
    take_latch(&pools_latch);
    const bool is_room = pool->idle > 0 || pool->threads < pool->most;
    give_latch(&pools_latch);
    return is_room || ntw_fail(ERROR_TOO_MANY_THREADS);
}

void DisassociateCurrentThreadFromCallback(PTP_CALLBACK_INSTANCE instance)
{
    if (instance->is_apart || is_at_latch())
        return;
    instance->is_apart = true;
    take_latch(&pools_latch);
    instance->task->running--;
    settle_task(instance->task);
}
