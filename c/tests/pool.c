/* Callbacks in threads of a pool: work items, registered waits and timers of queues; row by row, and counted under many. */
#include <windows.h>

#include "settled.h"

static HANDLE const NO_SUCH = (HANDLE)(uintptr_t)0x3FF00;
static HANDLE GO, DONE, EVENT;
static LONG RAN, SIGNALS, TIMEOUTS;

/* ---- Work items. */

static DWORD WINAPI run_item(LPVOID at)
{
    InterlockedIncrement(at);
    return 0;
}

static DWORD WINAPI wait_for_go(LPVOID at)
{
    InterlockedIncrement(at);
    must(WaitForSingleObject(GO, INFINITE) == WAIT_OBJECT_0);
    return 0;
}

static void work_items(void)
{
    LONG begun = 0;
    RAN = 0;
    for (int i = 0; i < 500; i++)
        must(QueueUserWorkItem(run_item, &RAN, i % 2 ? WT_EXECUTELONGFUNCTION : WT_EXECUTEDEFAULT));
    IS(settled(&RAN, 500), 500);
    ANSWERS(QueueUserWorkItem(NULL, NULL, 0), FALSE, ERROR_INVALID_PARAMETER);
    /* Items that wait for one another are in threads of their own. */
    ResetEvent(GO);
    for (int i = 0; i < 8; i++)
        must(QueueUserWorkItem(wait_for_go, &begun, WT_EXECUTEDEFAULT));
    IS(settled(&begun, 8), 8);
    SetEvent(GO);
}

/* ---- Registered waits. */

static void CALLBACK note_wait(PVOID at, BOOLEAN timed_out)
{
    InterlockedIncrement(timed_out ? &TIMEOUTS : &SIGNALS);
    if (at != NULL)
        SetEvent(at);
}

static void CALLBACK stay(PVOID at, BOOLEAN timed_out)
{
    (void)timed_out;
    InterlockedIncrement(at);
    must(WaitForSingleObject(GO, INFINITE) == WAIT_OBJECT_0);
    InterlockedIncrement(at);
}

static void registered_waits(void)
{
    HANDLE wait = NULL, again = NULL, semaphore = CreateSemaphore(NULL, 0, 100, NULL);
    SIGNALS = TIMEOUTS = 0;
    /* Each unit of a semaphore brings a callback. */
    ANSWERS(RegisterWaitForSingleObject(&wait, semaphore, note_wait, NULL, INFINITE, WT_EXECUTEDEFAULT), TRUE, UNTOUCHED);
    IS(wait != NULL, 1);
    IS(ReleaseSemaphore(semaphore, 40, NULL), TRUE);
    IS(settled(&SIGNALS, 40), 40);
    ANSWERS(UnregisterWaitEx(wait, INVALID_HANDLE_VALUE), TRUE, UNTOUCHED);
    IS(ReleaseSemaphore(semaphore, 1, NULL), TRUE);
    IS(later(&SIGNALS), 40);
    IS(WaitForSingleObject(semaphore, 0), WAIT_OBJECT_0);
    IS(TIMEOUTS, 0);
    /* Once, though the event stays set. */
    SIGNALS = 0;
    SetEvent(EVENT);
    ANSWERS(RegisterWaitForSingleObject(&wait, EVENT, note_wait, DONE, INFINITE, WT_EXECUTEONLYONCE), TRUE, UNTOUCHED);
    IS(WaitForSingleObject(DONE, INFINITE), WAIT_OBJECT_0);
    IS(settled(&SIGNALS, 1), 1);
    IS(UnregisterWait(wait), TRUE);
    ResetEvent(EVENT);
    /* Two for one object, in the thread that waits. */
    SIGNALS = 0;
    must(RegisterWaitForSingleObject(&wait, semaphore, note_wait, NULL, INFINITE, WT_EXECUTEINWAITTHREAD));
    must(RegisterWaitForSingleObject(&again, semaphore, note_wait, NULL, INFINITE, WT_EXECUTEINWAITTHREAD));
    IS(ReleaseSemaphore(semaphore, 20, NULL), TRUE);
    IS(settled(&SIGNALS, 20), 20);
    ANSWERS(UnregisterWaitEx(wait, INVALID_HANDLE_VALUE), TRUE, UNTOUCHED);
    ANSWERS(UnregisterWaitEx(again, INVALID_HANDLE_VALUE), TRUE, UNTOUCHED);
    /* Timeouts: one, and one after another. */
    must(RegisterWaitForSingleObject(&wait, EVENT, note_wait, NULL, 5, WT_EXECUTEONLYONCE));
    IS(settled(&TIMEOUTS, 1), 1);
    IS(UnregisterWaitEx(wait, INVALID_HANDLE_VALUE), TRUE);
    TIMEOUTS = 0;
    must(RegisterWaitForSingleObject(&wait, EVENT, note_wait, NULL, 2, WT_EXECUTEDEFAULT));
    IS(settled(&TIMEOUTS, 3) >= 3, 1);
    IS(UnregisterWaitEx(wait, INVALID_HANDLE_VALUE), TRUE);
    CloseHandle(semaphore);
}

/* Who unregisters while a callback runs, and how. */
static void ends_of_registered_waits(void)
{
    HANDLE wait = NULL;
    LONG steps = 0;
    ResetEvent(GO);
    SetEvent(EVENT);
    must(RegisterWaitForSingleObject(&wait, EVENT, stay, &steps, INFINITE, WT_EXECUTEONLYONCE));
    IS(settled(&steps, 1), 1);
    ANSWERS(UnregisterWaitEx(wait, DONE), FALSE, ERROR_IO_PENDING);
    IS(WaitForSingleObject(DONE, 10), WAIT_TIMEOUT);
    SetEvent(GO);
    IS(WaitForSingleObject(DONE, INFINITE), WAIT_OBJECT_0);
    IS(steps, 2);
    /* (With an event where nothing runs: it is set.) */
    ResetEvent(EVENT);
    must(RegisterWaitForSingleObject(&wait, EVENT, note_wait, NULL, INFINITE, WT_EXECUTEDEFAULT));
    ANSWERS(UnregisterWaitEx(wait, DONE), TRUE, UNTOUCHED);
    IS(WaitForSingleObject(DONE, INFINITE), WAIT_OBJECT_0);
    ANSWERS(UnregisterWait(NULL), FALSE, ERROR_INVALID_HANDLE);
    ANSWERS(RegisterWaitForSingleObject(&wait, NO_SUCH, note_wait, NULL, 0, 0), FALSE, ERROR_INVALID_HANDLE);
    ANSWERS(RegisterWaitForSingleObject(&wait, EVENT, NULL, NULL, 0, 0), FALSE, ERROR_INVALID_PARAMETER);
}

/* ---- Registered waits that are stopped: what is signaled after that stays so. */

static HANDLE OWN_WAIT;

/* Unregisters the wait that it is called for, and waits alertably; or, once that is done, stays. */
static void CALLBACK stop_itself(PVOID steps, BOOLEAN timed_out)
{
    (void)timed_out;
    ANSWERS(UnregisterWait(OWN_WAIT), FALSE, ERROR_IO_PENDING);
    IS(SleepEx(1, TRUE), 0);
    InterlockedIncrement(steps);
}

static void stopped_waits(void)
{
    HANDLE wait = NULL, automatic = CreateEvent(NULL, FALSE, FALSE, NULL);
    LONG steps = 0;
    /* Stopped while its thread is busy. */
    ResetEvent(GO);
    SetEvent(automatic);
    must(RegisterWaitForSingleObject(&wait, automatic, stay, &steps, INFINITE, WT_EXECUTEINWAITTHREAD));
    IS(settled(&steps, 1), 1);
    ANSWERS(UnregisterWaitEx(wait, DONE), FALSE, ERROR_IO_PENDING);
    SetEvent(automatic);
    SetEvent(GO);
    IS(WaitForSingleObject(DONE, INFINITE), WAIT_OBJECT_0);
    IS(later(&steps), 2);
    IS(WaitForSingleObject(automatic, 0), WAIT_OBJECT_0);
    /* Stopped by its own callback. */
    steps = 0;
    SetEvent(automatic);
    must(RegisterWaitForSingleObject(&OWN_WAIT, EVENT, stop_itself, &steps, INFINITE, WT_EXECUTEINWAITTHREAD));
    SetEvent(EVENT);
    IS(settled(&steps, 1), 1);
    ResetEvent(EVENT);
    must(RegisterWaitForSingleObject(&OWN_WAIT, automatic, stop_itself, &steps, INFINITE, WT_EXECUTEINWAITTHREAD));
    IS(settled(&steps, 2), 2);
    SetEvent(automatic);
    IS(later(&steps), 2);
    IS(WaitForSingleObject(automatic, 0), WAIT_OBJECT_0);
    /* Stopped at once, wherever its thread is. (On a machine that is held up a switch to others takes a while, so there are few.) */
    LONG swallowed = 0;
    for (int i = 0; i < 300; i++) {
        must(RegisterWaitForSingleObject(&wait, automatic, note_wait, NULL, INFINITE, WT_EXECUTEDEFAULT));
        for (int turns = 0; turns < i % 3; turns++)
            SwitchToThread();
        for (int rests = 0; rests < i % 50 * 300; rests++)
            YieldProcessor();
        must(UnregisterWaitEx(wait, INVALID_HANDLE_VALUE));
        SetEvent(automatic);
        SwitchToThread();
        swallowed += WaitForSingleObject(automatic, i % 100 == 0 ? 2 : 0) != WAIT_OBJECT_0;
    }
    IS(swallowed, 0);
    CloseHandle(automatic);
}

/* As many as may be are stopped, whose threads are busy: others come meanwhile. */
static void stopped_waits_leave_room(void)
{
    enum { MOST = 160 };
    HANDLE waits[MOST], wait = NULL;
    LONG steps = 0;
    ResetEvent(GO);
    SetEvent(EVENT);
    for (int i = 0; i < MOST; i++)
        must(RegisterWaitForSingleObject(&waits[i], EVENT, stay, &steps, INFINITE, WT_EXECUTEINWAITTHREAD));
    IS(settled(&steps, MOST), MOST);
    ANSWERS(RegisterWaitForSingleObject(&wait, EVENT, note_wait, NULL, INFINITE, WT_EXECUTEDEFAULT), FALSE, ERROR_NO_SYSTEM_RESOURCES);
    for (int i = 0; i < MOST; i++)
        must(!UnregisterWait(waits[i]));
    must(RegisterWaitForSingleObject(&wait, EVENT, note_wait, DONE, INFINITE, WT_EXECUTEONLYONCE));
    IS(WaitForSingleObject(DONE, 60000), WAIT_OBJECT_0);
    SetEvent(GO);
    must(UnregisterWaitEx(wait, INVALID_HANDLE_VALUE));
    IS(settled(&steps, 2 * MOST), 2 * MOST);
}

/* A wait's time is over no sooner than it is asked for. */
static void times_of_waits(void)
{
    LARGE_INTEGER began, ended;
    HANDLE wait = NULL;
    LONG too_soon = 0;
    ResetEvent(EVENT);
    for (int i = 0; i < 20; i++) {
        QueryPerformanceCounter(&began);
        must(RegisterWaitForSingleObject(&wait, EVENT, note_wait, DONE, 3, WT_EXECUTEONLYONCE | WT_EXECUTEINWAITTHREAD));
        must(WaitForSingleObject(DONE, INFINITE) == WAIT_OBJECT_0);
        QueryPerformanceCounter(&ended);
        too_soon += ended.QuadPart - began.QuadPart < 30000;
        must(UnregisterWaitEx(wait, INVALID_HANDLE_VALUE));
    }
    IS(too_soon, 0);
}

/* ---- Timer queues. */

/* Those that are due soon come, among others that are due late, in whatever order they were made and changed. */
static void many_timers(void)
{
    HANDLE queue = CreateTimerQueue(), timers[400];
    TIMEOUTS = 0;
    for (size_t i = 0; i < ARRAYSIZE(timers); i++)
        must(CreateTimerQueueTimer(&timers[i], queue, note_wait, NULL, (DWORD)(100000 + i * 7919 % 1000), 0, WT_EXECUTEDEFAULT));
    for (size_t i = 0; i < ARRAYSIZE(timers); i += 5)
        must(DeleteTimerQueueTimer(queue, timers[i], NULL));
    for (size_t i = 1; i < ARRAYSIZE(timers); i += 5)
        must(ChangeTimerQueueTimer(queue, timers[i], (ULONG)(1 + i * 31 % 10), 0));
    IS(settled(&TIMEOUTS, 80), 80);
    for (size_t i = 2; i < ARRAYSIZE(timers); i += 5)
        must(ChangeTimerQueueTimer(queue, timers[i], (ULONG)(1 + i * 17 % 10), 0));
    IS(settled(&TIMEOUTS, 160), 160);
    /* (The last callback has counted, and may not have ended.) */
    IS(DeleteTimerQueueEx(queue, DONE) || GetLastError() == ERROR_IO_PENDING, TRUE);
    IS(WaitForSingleObject(DONE, INFINITE), WAIT_OBJECT_0);
    IS(TIMEOUTS, 160);
}

static void timer_queues(void)
{
    HANDLE queue, timer = NULL;
    LONG steps = 0, other_steps = 0;
    TIMEOUTS = SIGNALS = 0;
    ANSWERS((queue = CreateTimerQueue()) != NULL, TRUE, UNTOUCHED);
    const DWORD then = timeGetTime();
    ANSWERS(CreateTimerQueueTimer(&timer, queue, note_wait, DONE, 20, 0, WT_EXECUTEDEFAULT), TRUE, UNTOUCHED);
    IS(WaitForSingleObject(DONE, INFINITE), WAIT_OBJECT_0);
    IS(timeGetTime() - then >= 20, 1);
    IS(settled(&TIMEOUTS, 1), 1);
    /* (It is over: to change it does nothing.) */
    ANSWERS(ChangeTimerQueueTimer(queue, timer, 0, 0), TRUE, UNTOUCHED);
    IS(later(&TIMEOUTS), 1);
    ANSWERS(DeleteTimerQueueTimer(queue, timer, NULL), TRUE, UNTOUCHED);
    /* A period, and its change. */
    TIMEOUTS = 0;
    ANSWERS(CreateTimerQueueTimer(&timer, queue, note_wait, NULL, 0, 2, WT_EXECUTEINTIMERTHREAD), TRUE, UNTOUCHED);
    IS(settled(&TIMEOUTS, 5) >= 5, 1);
    ANSWERS(ChangeTimerQueueTimer(queue, timer, 100000, 100000), TRUE, UNTOUCHED);
    Sleep(10);
    const LONG seen = ReadAcquire(&TIMEOUTS);
    IS(later(&TIMEOUTS), seen);
    ANSWERS(DeleteTimerQueueTimer(queue, timer, INVALID_HANDLE_VALUE), TRUE, UNTOUCHED);
    /* Many, which come in their order by the moment. */
    TIMEOUTS = 0;
    for (int i = 0; i < 200; i++)
        must(CreateTimerQueueTimer(&timer, queue, note_wait, NULL, (DWORD)(i * 37 % 20), 0, WT_EXECUTEDEFAULT));
    must(CreateTimerQueueTimer(&timer, queue, note_wait, NULL, 100000, 0, WT_EXECUTEDEFAULT));
    IS(settled(&TIMEOUTS, 200), 200);
    ANSWERS(DeleteTimerQueueEx(queue, INVALID_HANDLE_VALUE), TRUE, UNTOUCHED);
    IS(SIGNALS, 0);
    /* A queue, and a timer of another one, that are deleted while a callback runs. */
    ResetEvent(GO);
    must(CreateTimerQueueTimer(&timer, NULL, stay, &other_steps, 0, 0, WT_EXECUTEDEFAULT));
    IS(settled(&other_steps, 1), 1);
    ANSWERS(DeleteTimerQueueTimer(NULL, timer, NULL), FALSE, ERROR_IO_PENDING);
    queue = CreateTimerQueue();
    must(CreateTimerQueueTimer(&timer, queue, stay, &steps, 0, 0, WT_EXECUTEDEFAULT));
    IS(settled(&steps, 1), 1);
    ANSWERS(DeleteTimerQueueEx(queue, DONE), FALSE, ERROR_IO_PENDING);
    IS(WaitForSingleObject(DONE, 10), WAIT_TIMEOUT);
    SetEvent(GO);
    IS(WaitForSingleObject(DONE, INFINITE), WAIT_OBJECT_0);
    IS(steps, 2);
    IS(settled(&other_steps, 2), 2);
    /* The process's own queue. */
    must(CreateTimerQueueTimer(&timer, NULL, note_wait, DONE, 1, 0, WT_EXECUTEONLYONCE));
    IS(WaitForSingleObject(DONE, INFINITE), WAIT_OBJECT_0);
    ANSWERS(DeleteTimerQueueTimer(NULL, timer, INVALID_HANDLE_VALUE), TRUE, UNTOUCHED);
    ANSWERS(CreateTimerQueueTimer(&timer, NULL, NULL, NULL, 1, 0, 0), FALSE, ERROR_INVALID_PARAMETER);
    ANSWERS(DeleteTimerQueueEx(NULL, NULL), FALSE, ERROR_INVALID_HANDLE);
    ANSWERS(DeleteTimerQueue(NULL), FALSE, ERROR_INVALID_HANDLE);
    ANSWERS(DeleteTimerQueueTimer(NULL, NULL, NULL), FALSE, ERROR_INVALID_PARAMETER);
}

/* The call without an event: the queue's timers are gone, and what runs is not waited for. */
static void deleted_queue(void)
{
    LONG steps = 0;
    HANDLE queue = CreateTimerQueue(), timer = NULL;
    must(CreateTimerQueueTimer(&timer, queue, note_wait, NULL, 100000, 0, WT_EXECUTEDEFAULT));
    ANSWERS(DeleteTimerQueue(queue), TRUE, UNTOUCHED);
    ResetEvent(GO);
    queue = CreateTimerQueue();
    must(CreateTimerQueueTimer(&timer, queue, stay, &steps, 0, 0, WT_EXECUTEDEFAULT));
    must(CreateTimerQueueTimer(&timer, queue, note_wait, NULL, 100000, 0, WT_EXECUTEDEFAULT));
    IS(settled(&steps, 1), 1);
    ANSWERS(DeleteTimerQueue(queue), FALSE, ERROR_IO_PENDING);
    IS(ReadAcquire(&steps), 1);
    SetEvent(GO);
    IS(settled(&steps, 2), 2);
}

int main(void)
{
    must((GO = CreateEvent(NULL, TRUE, FALSE, NULL)) != NULL && (DONE = CreateEvent(NULL, FALSE, FALSE, NULL)) != NULL);
    must((EVENT = CreateEvent(NULL, TRUE, FALSE, NULL)) != NULL);
    work_items();
    registered_waits();
    ends_of_registered_waits();
    stopped_waits();
    times_of_waits();
    many_timers();
    timer_queues();
    deleted_queue();
    stopped_waits_leave_room();
    return counted();
}
