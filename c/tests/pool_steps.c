/* Pairs of a call of the pool and a counter-call, in each window of one instruction (step.h): what the library has freed, since a callback or the
 * program closed it, is not touched again; each callback comes once; and nobody waits in vain. */
#define TEST "pool_steps.c"
#include "own_pages.h"

static PTP_POOL pool;

/* ---- A pool of one thread, which is in a callback until it may go on. What it takes up then closes all: so the pool is gone with that thread. */

static TP_CALLBACK_ENVIRON environment;
static PTP_WORK first, closing;
static PTP_TIMER timer;
static PTP_WAIT wait_object;
static _Atomic bool is_busy, may_go_on;
static _Atomic LONG ran, submitted;

static void CALLBACK be_busy(PTP_CALLBACK_INSTANCE instance, PVOID none, PTP_WORK work)
{
    (void)instance, (void)none;
    is_busy = true;
    while (!may_go_on)
        doze();
    CloseThreadpoolWork(work);
}

static void CALLBACK close_work_and_pool(PTP_CALLBACK_INSTANCE instance, PVOID none, PTP_WORK work)
{
    (void)instance, (void)none;
    CloseThreadpoolWork(work);
    CloseThreadpool(pool);
    ran++;
}

static void CALLBACK close_timer_and_pool(PTP_CALLBACK_INSTANCE instance, PVOID none, PTP_TIMER its_timer)
{
    (void)instance, (void)none;
    CloseThreadpoolTimer(its_timer);
    CloseThreadpool(pool);
    ran++;
}

static void CALLBACK close_wait_and_pool(PTP_CALLBACK_INSTANCE instance, PVOID none, PTP_WAIT wait, TP_WAIT_RESULT result)
{
    (void)instance, (void)none, (void)result;
    CloseThreadpoolWait(wait);
    CloseThreadpool(pool);
    ran++;
}

static void open_pool(void)
{
    to_be_freed = pool = CreateThreadpool(NULL);
    SetThreadpoolThreadMaximum(pool, 1);
    InitializeThreadpoolEnvironment(&environment);
    SetThreadpoolCallbackPool(&environment, pool);
    is_busy = may_go_on = false;
    ran = 0;
}

static void busy_pool(void)
{
    open_pool();
    first = CreateThreadpoolWork(be_busy, NULL, &environment);
    SubmitThreadpoolWork(first);
    while (!is_busy)
        doze();
}

/* The thread goes on, and closes the pool where it can take up what the call puts. */
static void go_on(void)
{
    may_go_on = true;
}

static void pool_is_gone(void)
{
    while (to_be_freed != NULL)
        doze();
    IS(ran, 1);
}

/* ---- Work, a timer and a wait bring that callback. */

static void with_work(void)
{
    busy_pool();
    closing = CreateThreadpoolWork(close_work_and_pool, NULL, &environment);
}

static void submit_closing(void)
{
    SubmitThreadpoolWork(closing);
}

static void with_timer(void)
{
    FILETIME at_once = { 0, 0 };
    busy_pool();
    timer = CreateThreadpoolTimer(close_timer_and_pool, NULL, &environment);
    SetThreadpoolTimer(timer, &at_once, 0, 0);
}

static void let_timer_come(void)
{
    take_latch(&pools_latch);
    call_those_due();
    give_latch(&pools_latch);
}

static struct watch watch;

static void with_wait(void)
{
    busy_pool();
    wait_object = CreateThreadpoolWait(close_wait_and_pool, NULL, &environment);
    watch = (struct watch){ .told = &wait_object->task, .is_once = true };
    wait_object->task.watch = &watch;
    watched++;
}

static void let_wait_end(void)
{
    tell_watched(&watch, SIGNALED);
}

static void callbacks_that_close(void)
{
    try_pair("SubmitThreadpoolWork, whose callback closes the pool", with_work, submit_closing, go_on, pool_is_gone, 50);
    try_pair("a timer, whose callback closes the pool", with_timer, let_timer_come, go_on, pool_is_gone, 50);
    try_pair("a wait, whose callback closes the pool", with_wait, let_wait_end, go_on, pool_is_gone, 50);
}

/* ---- A thread of the pool, beside who waits for its callback and closes all. */

static void CALLBACK run(PTP_CALLBACK_INSTANCE instance, PVOID none, PTP_WORK work)
{
    (void)instance, (void)none, (void)work;
    ran++;
}

/* (The thread is the one that is stepped.) */
static void with_queue(void)
{
    open_pool();
    first = CreateThreadpoolWork(run, NULL, &environment);
    pool->threads = 1, pool->expected = 1;
    SubmitThreadpoolWork(first);
}

static void be_thread_of_pool(void)
{
    work_in_pool(pool);
}

static void wait_and_close(void)
{
    WaitForThreadpoolWorkCallbacks(first, FALSE);
    CloseThreadpoolWork(first);
    CloseThreadpool(pool);
}

/* Its queue has two callbacks, of one task: so it keeps the latch from the first to the second. */
static void with_two_in_queue(void)
{
    with_queue();
    SubmitThreadpoolWork(first);
}

static void both_have_run(void)
{
    while (to_be_freed != NULL)
        doze();
    IS(ran, 2);
}

/* Of those two, what has not begun is dropped. */
static void cancel_and_close(void)
{
    WaitForThreadpoolWorkCallbacks(first, TRUE);
    submitted = ran;
    CloseThreadpoolWork(first);
    CloseThreadpool(pool);
}

static void no_more_have_run(void)
{
    while (to_be_freed != NULL)
        doze();
    IS(ran, submitted);
}

/* Its thread is apart from each of them: who waits does so for neither. */
static void CALLBACK run_apart(PTP_CALLBACK_INSTANCE instance, PVOID none, PTP_WORK work)
{
    (void)none, (void)work;
    DisassociateCurrentThreadFromCallback(instance);
    ran++;
}

static void with_two_apart(void)
{
    open_pool();
    first = CreateThreadpoolWork(run_apart, NULL, &environment);
    pool->threads = 1, pool->expected = 1;
    SubmitThreadpoolWork(first);
    SubmitThreadpoolWork(first);
}

/* ---- A callback that is submitted to a group, beside who closes its members. */

static PTP_CLEANUP_GROUP group;

static void CALLBACK run_simple(PTP_CALLBACK_INSTANCE instance, PVOID none)
{
    (void)instance, (void)none;
    ran++;
}

static void with_group(void)
{
    open_pool();
    must(is_full || SetThreadpoolThreadMinimum(pool, 1));
    group = CreateThreadpoolCleanupGroup();
    SetThreadpoolCallbackCleanupGroup(&environment, group, NULL);
}

static void submit_to_group(void)
{
    submitted = TrySubmitThreadpoolCallback(run_simple, NULL, &environment);
}

static void close_members(void)
{
    CloseThreadpoolCleanupGroupMembers(group, FALSE, NULL);
}

static void group_has_run(void)
{
    close_members();
    IS(submitted, !is_full);
    IS(ran, !is_full);
    CloseThreadpoolCleanupGroup(group);
    CloseThreadpool(pool);
    while (to_be_freed != NULL)
        doze();
}

/* ---- Who waits for work tries again to have the thread that was refused, beside a callback that can be refused: it is, since no thread is there. */

static void with_refused_work(void)
{
    is_full = true;
    open_pool();
    first = CreateThreadpoolWork(run, NULL, &environment);
    SubmitThreadpoolWork(first);
}

static void wait_for_refused_work(void)
{
    WaitForThreadpoolWorkCallbacks(first, FALSE);
}

/* Then there are threads; and what the library's keeper of timers does is done here. */
static void submit_while_full(void)
{
    submitted = TrySubmitThreadpoolCallback(run_simple, NULL, &environment);
    is_full = false;
    take_latch(&pools_latch);
    bring_all_lacking();
    give_latch(&pools_latch);
}

static void work_alone_has_run(void)
{
    IS(submitted, FALSE);
    IS(ran, 1);
    CloseThreadpoolWork(first);
    CloseThreadpool(pool);
    while (to_be_freed != NULL)
        doze();
}

/* ---- A registered wait that is stopped, beside a signal. */

static HANDLE event, registered;

static void CALLBACK note_wait(PVOID none, BOOLEAN timed_out)
{
    (void)none, (void)timed_out;
    ran++;
}

static void with_registered(void)
{
    ran = 0;
    must(RegisterWaitForSingleObject(&registered, event, note_wait, NULL, INFINITE, 0));
}

static void unregister(void)
{
    must(UnregisterWaitEx(registered, INVALID_HANDLE_VALUE));
}

static void signal_once(void)
{
    SetEvent(event);
}

/* What is signaled after the call stays so. */
static void later_signal_stays(void)
{
    const LONG seen = ran;
    IS(seen <= 1, true);
    SetEvent(event);
    doze();
    IS(WaitForSingleObject(event, 0), WAIT_OBJECT_0);
    IS(ran, seen);
}

/* ---- Two that set one wait: the object is waited for once, and no longer once the wait is unset. */

static void CALLBACK note_object(PTP_CALLBACK_INSTANCE instance, PVOID none, PTP_WAIT wait, TP_WAIT_RESULT result)
{
    (void)instance, (void)none, (void)wait, (void)result;
    ran++;
}

static void with_unset_wait(void)
{
    ran = 0;
    must((wait_object = CreateThreadpoolWait(note_object, NULL, NULL)) != NULL);
}

static void set_wait(void)
{
    SetThreadpoolWait(wait_object, event, NULL);
}

static void unset_wait(void)
{
    SetThreadpoolWait(wait_object, NULL, NULL);
    WaitForThreadpoolWaitCallbacks(wait_object, FALSE);
    later_signal_stays();
    IS(ran, 0);
    CloseThreadpoolWait(wait_object);
}

/* ---- A wait that is refused a thread, beside one of the pool that takes it up, and its callback, which closes it or not. */

static void serve(PTP_POOL served)
{
    uint32_t outcome;
    take_latch(&pools_latch);
    for (struct task *task; (task = take_callback(served, &outcome)) != NULL;) {
        give_latch(&pools_latch);
        if (run_callback(task, outcome)) {
            settle_task(task);
            take_latch(&pools_latch);
        }
    }
    give_latch(&pools_latch);
}

static void serve_all(void)
{
    serve(&watching_pool);
    serve(&usual_pool);
}

static void CALLBACK close_wait(PTP_CALLBACK_INSTANCE instance, PVOID none, PTP_WAIT wait, TP_WAIT_RESULT result)
{
    (void)instance, (void)none, (void)result;
    CloseThreadpoolWait(wait);
    ran++;
}

static void with_refused_wait(void)
{
    ran = 0;
    SetEvent(event);
    must((wait_object = CreateThreadpoolWait(close_wait, NULL, NULL)) != NULL);
}

static void wait_has_closed(void)
{
    serve_all();
    if (ran == 0)
        CloseThreadpoolWait(wait_object);
    ResetEvent(event);
}

static struct task *taken_up;
static BOOL is_registered;
static DWORD error_of_register;

/* (Its thread waits for the object again, until the end of the pair.) */
static void take_up_once(void)
{
    uint32_t outcome;
    take_latch(&pools_latch);
    taken_up = take_callback(&watching_pool, &outcome);
    give_latch(&pools_latch);
    if (taken_up != NULL)
        watch_once((struct watch *)(void *)taken_up);
}

static void with_refused_registered(void)
{
    ran = 0;
    taken_up = NULL;
    SetEvent(event);
}

static void register_without_thread(void)
{
    SetLastError(ERROR_FILE_NOT_FOUND);
    is_registered = RegisterWaitForSingleObject(&registered, event, note_wait, NULL, INFINITE, WT_EXECUTEINWAITTHREAD);
    error_of_register = GetLastError();
}

/* It is registered where its callback came, and else refused. */
static void callback_came_of_registered(void)
{
    IS(is_registered, ran > 0);
    IS(error_of_register, is_registered ? ERROR_FILE_NOT_FOUND : ERROR_NOT_ENOUGH_MEMORY);
    if (is_registered)
        UnregisterWait(registered);
    if (taken_up != NULL) {
        watch_object(taken_up, NULL, SIGNALED);
        take_latch(&pools_latch);
        taken_up->running--;
        settle_task(taken_up);
    }
    ResetEvent(event);
}

int main(void)
{
    begin_pairs();
    must((event = CreateEvent(NULL, FALSE, FALSE, NULL)) != NULL);
    /* (The test keeps the time.) */
    timers.is_kept = true;
    callbacks_that_close();
    try_pair("a thread of a pool", with_queue, be_thread_of_pool, wait_and_close, pool_is_gone, 100);
    try_pair("a thread of a pool, with two callbacks", with_two_in_queue, be_thread_of_pool, wait_and_close, both_have_run, 100);
    try_pair("a thread of a pool, with two callbacks, canceled", with_two_in_queue, be_thread_of_pool, cancel_and_close, no_more_have_run, 50);
    try_pair("a thread of a pool, apart from two callbacks", with_two_apart, be_thread_of_pool, wait_and_close, both_have_run, 100);
    try_pair("TrySubmitThreadpoolCallback", with_group, submit_to_group, close_members, group_has_run, 50);
    is_full = true;
    try_pair("TrySubmitThreadpoolCallback, without a thread", with_group, submit_to_group, close_members, group_has_run, 100);
    try_pair("WaitForThreadpoolWorkCallbacks, without a thread", with_refused_work, wait_for_refused_work, submit_while_full, work_alone_has_run, 50);
    is_full = true;
    try_pair("SetThreadpoolWait, without a thread", with_refused_wait, set_wait, serve_all, wait_has_closed, 50);
    try_pair("RegisterWaitForSingleObject, without a thread", with_refused_registered, register_without_thread, take_up_once,
             callback_came_of_registered, 50);
    is_full = false;
    try_pair("UnregisterWaitEx", with_registered, unregister, signal_once, later_signal_stays, 50);
    try_pair("SetThreadpoolWait, twice at once", with_unset_wait, set_wait, set_wait, unset_wait, 50);
    return counted_checks();
}
