/* The thread pool's own objects: work, timers, waits, cleanup groups, and how many threads a pool has; row by row, and counted under many. */
#include <windows.h>

#include "settled.h"

static HANDLE GO, DONE, EVENT;
static LONG RAN, SIGNALS, TIMEOUTS;

static LONG AT_ONCE, MOST_AT_ONCE, CANCELED;
static CRITICAL_SECTION SECTION;

static void CALLBACK do_work(PTP_CALLBACK_INSTANCE instance, PVOID at, PTP_WORK work)
{
    (void)instance;
    (void)work;
    const LONG now = InterlockedIncrement(&AT_ONCE);
    if (now > ReadAcquire(&MOST_AT_ONCE))
        WriteRelease(&MOST_AT_ONCE, now);
    InterlockedIncrement(at);
    InterlockedDecrement(&AT_ONCE);
}

static void CALLBACK wait_in_work(PTP_CALLBACK_INSTANCE instance, PVOID at, PTP_WORK work)
{
    (void)instance;
    (void)work;
    InterlockedIncrement(at);
    must(WaitForSingleObject(GO, INFINITE) == WAIT_OBJECT_0);
}

static void CALLBACK set_when_it_returns(PTP_CALLBACK_INSTANCE instance, PVOID at)
{
    EnterCriticalSection(&SECTION);
    LeaveCriticalSectionWhenCallbackReturns(instance, &SECTION);
    SetEventWhenCallbackReturns(instance, DONE);
    IS(CallbackMayRunLong(instance), TRUE);
    InterlockedIncrement(at);
}

static void CALLBACK count_canceled(PVOID context, PVOID of_group)
{
    InterlockedIncrement(context);
    InterlockedExchangeAdd(&CANCELED, (LONG)(intptr_t)of_group);
}

/* How many threads the process has. */
static int threads_now(void)
{
    int found = 0;
    char line[128];
    FILE *status = fopen("/proc/self/status", "r");
    must(status != NULL);
    while (fgets(line, sizeof line, status) != NULL)
        if (sscanf(line, "Threads: %d", &found) == 1)
            break;
    fclose(status);
    return found;
}

/* The same, once there are as many as wanted, or after a minute. */
static int threads_once(int wanted)
{
    for (int i = 0; i < 60000 && threads_now() != wanted; i++)
        Sleep(1);
    return threads_now();
}

/* The least number of threads are there at once, and the greatest is no less. */
static void least_threads(void)
{
    TP_CALLBACK_ENVIRON environment;
    PTP_POOL pool = CreateThreadpool(NULL);
    LONG ran = 0;
    SetThreadpoolThreadMaximum(pool, 2);
    ANSWERS(SetThreadpoolThreadMinimum(pool, 1), TRUE, UNTOUCHED);
    InitializeThreadpoolEnvironment(&environment);
    SetThreadpoolCallbackPool(&environment, pool);
    PTP_WORK work = CreateThreadpoolWork(wait_in_work, &ran, &environment);
    /* (A sanitizer may have a thread of its own, and the first work is there with a thread that keeps the time.) */
    const int before = threads_now() - 1;
    IS(before > 0, TRUE);
    ANSWERS(SetThreadpoolThreadMinimum(pool, 5), TRUE, UNTOUCHED);
    IS(threads_once(before + 5), before + 5);
    for (int i = 0; i < 9; i++)
        SubmitThreadpoolWork(work);
    /* (An idle thread that is not called looks by itself after a minute.) */
    for (int i = 0; i < 20000 && ReadAcquire(&ran) < 5; i++)
        Sleep(1);
    IS(later(&ran), 5);
    SetEvent(GO);
    WaitForThreadpoolWorkCallbacks(work, FALSE);
    ResetEvent(GO);
    CloseThreadpoolWork(work);
    IS(threads_once(before + 5), before + 5);
    /* Idle threads past a lower maximum end, and the least number is no greater than that. */
    SetThreadpoolThreadMaximum(pool, 2);
    IS(threads_once(before + 2), before + 2);
    CloseThreadpool(pool);
    IS(threads_once(before), before);
}

/* The maximum changes while callbacks run: more come for those that wait, and what is past it ends as its callback returns. */
static void changed_maximum(void)
{
    TP_CALLBACK_ENVIRON environment;
    PTP_POOL pool = CreateThreadpool(NULL);
    LONG ran = 0;
    const int before = threads_now();
    SetThreadpoolThreadMaximum(pool, 1);
    InitializeThreadpoolEnvironment(&environment);
    SetThreadpoolCallbackPool(&environment, pool);
    PTP_WORK work = CreateThreadpoolWork(wait_in_work, &ran, &environment);
    for (int i = 0; i < 9; i++)
        SubmitThreadpoolWork(work);
    IS(settled(&ran, 1), 1);
    SetThreadpoolThreadMaximum(pool, 4);
    IS(settled(&ran, 4), 4);
    IS(threads_now(), before + 4);
    SetThreadpoolThreadMaximum(pool, 3);
    SetEvent(GO);
    WaitForThreadpoolWorkCallbacks(work, FALSE);
    IS(ran, 9);
    IS(threads_once(before + 3), before + 3);
    ResetEvent(GO);
    CloseThreadpoolWork(work);
    CloseThreadpool(pool);
    IS(threads_once(before), before);
}

static void pool_work(void)
{
    TP_CALLBACK_ENVIRON environment;
    PTP_POOL pool = CreateThreadpool(NULL);
    LONG ran = 0;
    InitializeThreadpoolEnvironment(&environment);
    PTP_WORK work = CreateThreadpoolWork(do_work, &ran, NULL);
    for (int i = 0; i < 300; i++)
        SubmitThreadpoolWork(work);
    WaitForThreadpoolWorkCallbacks(work, FALSE);
    IS(ReadAcquire(&ran), 300);
    CloseThreadpoolWork(work);
    /* A pool of one thread runs them one after another. */
    SetThreadpoolThreadMaximum(pool, 1);
    IS(SetThreadpoolThreadMinimum(pool, 1), TRUE);
    SetThreadpoolCallbackPool(&environment, pool);
    MOST_AT_ONCE = 0;
    work = CreateThreadpoolWork(do_work, &ran, &environment);
    for (int i = 0; i < 200; i++)
        SubmitThreadpoolWork(work);
    CloseThreadpool(pool);
    WaitForThreadpoolWorkCallbacks(work, FALSE);
    IS(ReadAcquire(&ran), 500);
    IS(MOST_AT_ONCE, 1);
    CloseThreadpoolWork(work);
    ANSWERS(CreateThreadpoolWork(NULL, NULL, NULL), 0, ERROR_INVALID_PARAMETER);
    /* What a callback asks to be done once it has returned. */
    InitializeCriticalSection(&SECTION);
    for (LONG i = 1; i <= 20; i++) {
        must(TrySubmitThreadpoolCallback(set_when_it_returns, &RAN, NULL));
        IS(WaitForSingleObject(DONE, INFINITE), WAIT_OBJECT_0);
    }
    ANSWERS(TrySubmitThreadpoolCallback(NULL, NULL, NULL), FALSE, ERROR_INVALID_PARAMETER);
    EnterCriticalSection(&SECTION);
    LeaveCriticalSection(&SECTION);
    DeleteCriticalSection(&SECTION);
    DestroyThreadpoolEnvironment(&environment);
}

static HANDLE SEMAPHORE, MUTEX;

static void CALLBACK give_when_it_returns(PTP_CALLBACK_INSTANCE instance, PVOID context)
{
    (void)context;
    must(WaitForSingleObject(MUTEX, INFINITE) == WAIT_OBJECT_0);
    ReleaseMutexWhenCallbackReturns(instance, MUTEX);
    ReleaseSemaphoreWhenCallbackReturns(instance, SEMAPHORE, 3);
    IS(WaitForSingleObject(SEMAPHORE, 0), WAIT_TIMEOUT);
}

/* A callback asks for a semaphore's units and a mutex to be released, which is then no abandoned one. */
static void released_when_it_returns(void)
{
    TP_CALLBACK_ENVIRON environment;
    must((SEMAPHORE = CreateSemaphore(NULL, 0, 9, NULL)) != NULL && (MUTEX = CreateMutex(NULL, FALSE, NULL)) != NULL);
    InitializeThreadpoolEnvironment(&environment);
    SetThreadpoolCallbackRunsLong(&environment);
    IS(environment.Flags, 1);
    must(TrySubmitThreadpoolCallback(give_when_it_returns, NULL, &environment));
    for (int i = 0; i < 3; i++)
        IS(WaitForSingleObject(SEMAPHORE, INFINITE), WAIT_OBJECT_0);
    IS(WaitForSingleObject(SEMAPHORE, 0), WAIT_TIMEOUT);
    IS(WaitForSingleObject(MUTEX, INFINITE), WAIT_OBJECT_0);
    ANSWERS(ReleaseMutex(MUTEX), TRUE, UNTOUCHED);
    CloseHandle(SEMAPHORE);
    CloseHandle(MUTEX);
}

static void CALLBACK may_run_long(PTP_CALLBACK_INSTANCE instance, PVOID answers)
{
    if (!CallbackMayRunLong(instance) && GetLastError() == ERROR_TOO_MANY_THREADS)
        InterlockedIncrement(answers);
}

/* Each thread that a pool may have is in a callback: none is left for others. */
static void no_thread_left(void)
{
    TP_CALLBACK_ENVIRON environment;
    LONG refused = 0;
    InitializeThreadpoolEnvironment(&environment);
    SetThreadpoolCallbackPool(&environment, CreateThreadpool(NULL));
    SetThreadpoolThreadMaximum(environment.Pool, 1);
    must(TrySubmitThreadpoolCallback(may_run_long, &refused, &environment));
    IS(settled(&refused, 1), 1);
    CloseThreadpool(environment.Pool);
}

static void CALLBACK leave_who_waits(PTP_CALLBACK_INSTANCE instance, PVOID steps, PTP_WORK work)
{
    (void)work;
    InterlockedIncrement(steps);
    DisassociateCurrentThreadFromCallback(instance);
    must(WaitForSingleObject(GO, INFINITE) == WAIT_OBJECT_0);
    InterlockedIncrement(steps);
}

/* Who waits for the work's callbacks goes on while one that has left them still runs. */
static void left_callbacks(void)
{
    static LONG steps;
    ResetEvent(GO);
    PTP_WORK work = CreateThreadpoolWork(leave_who_waits, &steps, NULL);
    SubmitThreadpoolWork(work);
    WaitForThreadpoolWorkCallbacks(work, FALSE);
    IS(ReadAcquire(&steps), 1);
    CloseThreadpoolWork(work);
    SetEvent(GO);
    IS(settled(&steps, 2), 2);
}

/* Callbacks that have not begun are dropped; those that run are waited for. */
static void canceled_work(void)
{
    TP_CALLBACK_ENVIRON environment;
    PTP_POOL pool = CreateThreadpool(NULL);
    PTP_CLEANUP_GROUP group = CreateThreadpoolCleanupGroup();
    LONG ran = 0, other = 0;
    SetThreadpoolThreadMaximum(pool, 1);
    InitializeThreadpoolEnvironment(&environment);
    SetThreadpoolCallbackPool(&environment, pool);
    SetThreadpoolCallbackCleanupGroup(&environment, group, count_canceled);
    ResetEvent(GO);
    PTP_WORK first = CreateThreadpoolWork(wait_in_work, &ran, &environment), second = CreateThreadpoolWork(do_work, &other, &environment);
    SubmitThreadpoolWork(first);
    IS(settled(&ran, 1), 1);
    for (int i = 0; i < 10; i++)
        SubmitThreadpoolWork(first);
    for (int i = 0; i < 10; i++)
        SubmitThreadpoolWork(second);
    WaitForThreadpoolWorkCallbacks(second, TRUE);
    IS(ReadAcquire(&other), 0);
    SubmitThreadpoolWork(second);
    SetEvent(GO);
    WaitForThreadpoolWorkCallbacks(first, TRUE);
    IS(ReadAcquire(&ran) <= 11, 1);
    CloseThreadpoolCleanupGroupMembers(group, TRUE, (PVOID)7);
    IS(ReadAcquire(&other) == 1, 1);
    IS(CANCELED == 0 || CANCELED == 7, 1);
    CloseThreadpoolCleanupGroup(group);
    CloseThreadpool(pool);
}

static DWORD WINAPI wait_for_work(LPVOID work)
{
    WaitForThreadpoolWorkCallbacks(work, FALSE);
    return 0;
}

/* Who waits for callbacks goes on where another drops them. */
static void dropped_beside_who_waits(void)
{
    TP_CALLBACK_ENVIRON environment;
    LONG ran = 0, other = 0;
    InitializeThreadpoolEnvironment(&environment);
    SetThreadpoolCallbackPool(&environment, CreateThreadpool(NULL));
    SetThreadpoolThreadMaximum(environment.Pool, 1);
    PTP_WORK first = CreateThreadpoolWork(wait_in_work, &ran, &environment), second = CreateThreadpoolWork(do_work, &other, &environment);
    ResetEvent(GO);
    SubmitThreadpoolWork(first);
    IS(settled(&ran, 1), 1);
    SubmitThreadpoolWork(second);
    HANDLE thread = CreateThread(NULL, 0, wait_for_work, second, 0, NULL);
    IS(WaitForSingleObject(thread, 20), WAIT_TIMEOUT);
    WaitForThreadpoolWorkCallbacks(second, TRUE);
    IS(WaitForSingleObject(thread, 60000), WAIT_OBJECT_0);
    SetEvent(GO);
    WaitForThreadpoolWorkCallbacks(first, FALSE);
    IS(other, 0);
    CloseThreadpoolWork(first);
    CloseThreadpoolWork(second);
    CloseThreadpool(environment.Pool);
    CloseHandle(thread);
}

static void CALLBACK note_timer(PTP_CALLBACK_INSTANCE instance, PVOID at, PTP_TIMER timer)
{
    (void)instance;
    (void)timer;
    InterlockedIncrement(at);
}

static void CALLBACK note_object(PTP_CALLBACK_INSTANCE instance, PVOID at, PTP_WAIT wait, TP_WAIT_RESULT result)
{
    (void)instance;
    (void)at;
    InterlockedIncrement(result == WAIT_OBJECT_0 ? &SIGNALS : &TIMEOUTS);
    if (result == WAIT_OBJECT_0 && ReadAcquire(&SIGNALS) < 5)
        SetThreadpoolWait(wait, EVENT, NULL);
}

static FILETIME time_of(LONGLONG moments)
{
    return (FILETIME){ (DWORD)moments, (DWORD)((ULONGLONG)moments >> 32) };
}

static void pool_timers_and_waits(void)
{
    LONG ticks = 0;
    FILETIME soon = time_of(-20000), late = time_of(-10000000000), at_once = time_of(0);
    PTP_TIMER timer = CreateThreadpoolTimer(note_timer, &ticks, NULL);
    IS(IsThreadpoolTimerSet(timer), FALSE);
    SetThreadpoolTimer(timer, &late, 0, 0);
    IS(IsThreadpoolTimerSet(timer), TRUE);
    SetThreadpoolTimer(timer, &soon, 0, 0);
    IS(settled(&ticks, 1), 1);
    SetThreadpoolTimer(timer, &at_once, 2, 0);
    IS(settled(&ticks, 5) >= 5, 1);
    IS(IsThreadpoolTimerSet(timer), TRUE);
    SetThreadpoolTimer(timer, NULL, 0, 0);
    WaitForThreadpoolTimerCallbacks(timer, TRUE);
    IS(IsThreadpoolTimerSet(timer), FALSE);
    const LONG seen = ReadAcquire(&ticks);
    IS(later(&ticks), seen);
    GetSystemTimeAsFileTime(&soon);
    SetThreadpoolTimer(timer, &soon, 0, 0);
    IS(settled(&ticks, seen + 1), seen + 1);
    CloseThreadpoolTimer(timer);
    SIGNALS = TIMEOUTS = 0;
    PTP_WAIT wait = CreateThreadpoolWait(note_object, NULL, NULL);
    SetEvent(EVENT);
    SetThreadpoolWait(wait, EVENT, NULL);
    IS(settled(&SIGNALS, 5), 5);
    ResetEvent(EVENT);
    soon = time_of(-20000);
    SetThreadpoolWait(wait, EVENT, &soon);
    IS(settled(&TIMEOUTS, 1), 1);
    SetThreadpoolWait(wait, EVENT, NULL);
    SetThreadpoolWait(wait, NULL, NULL);
    SetEvent(EVENT);
    IS(later(&SIGNALS), 5);
    WaitForThreadpoolWaitCallbacks(wait, FALSE);
    CloseThreadpoolWait(wait);
    ANSWERS(CreateThreadpoolWait(NULL, NULL, NULL), 0, ERROR_INVALID_PARAMETER);
    ANSWERS(CreateThreadpoolTimer(NULL, NULL, NULL), 0, ERROR_INVALID_PARAMETER);
    ResetEvent(EVENT);
}

/* Due times that are as far away as can be. */
static void far_times(void)
{
    static const LONGLONG far[] = { INT64_MIN, INT64_MIN + 1, INT64_MIN + 1000000, INT64_MAX };
    LONG ticks = 0;
    PTP_TIMER timer = CreateThreadpoolTimer(note_timer, &ticks, NULL);
    PTP_WAIT wait = CreateThreadpoolWait(note_object, NULL, NULL);
    SIGNALS = TIMEOUTS = 0;
    ResetEvent(EVENT);
    for (size_t i = 0; i < ARRAYSIZE(far); i++) {
        FILETIME due = time_of(far[i]);
        SetThreadpoolTimer(timer, &due, 1, 0);
        SetThreadpoolWait(wait, EVENT, &due);
        IS(later(&ticks) + ReadAcquire(&TIMEOUTS), 0);
        IS(IsThreadpoolTimerSet(timer), TRUE);
    }
    CloseThreadpoolTimer(timer);
    CloseThreadpoolWait(wait);
}

static void CALLBACK count_simple(PTP_CALLBACK_INSTANCE instance, PVOID ran)
{
    (void)instance;
    InterlockedIncrement(ran);
}

static DWORD WINAPI submit_many(LPVOID environment)
{
    for (int i = 0; i < 2000; i++)
        must(TrySubmitThreadpoolCallback(count_simple, &RAN, environment));
    return 0;
}

/* A group's members are closed while another thread submits more. */
static void closed_while_submitted(void)
{
    TP_CALLBACK_ENVIRON environment;
    PTP_CLEANUP_GROUP group = CreateThreadpoolCleanupGroup();
    InitializeThreadpoolEnvironment(&environment);
    SetThreadpoolCallbackCleanupGroup(&environment, group, NULL);
    RAN = 0;
    HANDLE thread = CreateThread(NULL, 0, submit_many, &environment, 0, NULL);
    while (WaitForSingleObject(thread, 0) == WAIT_TIMEOUT)
        CloseThreadpoolCleanupGroupMembers(group, FALSE, NULL);
    CloseThreadpoolCleanupGroupMembers(group, FALSE, NULL);
    IS(ReadAcquire(&RAN), 2000);
    CloseThreadpoolCleanupGroup(group);
    CloseHandle(thread);
}

int main(void)
{
    must((GO = CreateEvent(NULL, TRUE, FALSE, NULL)) != NULL && (DONE = CreateEvent(NULL, FALSE, FALSE, NULL)) != NULL);
    must((EVENT = CreateEvent(NULL, TRUE, FALSE, NULL)) != NULL);
    least_threads();
    changed_maximum();
    pool_work();
    released_when_it_returns();
    no_thread_left();
    left_callbacks();
    canceled_work();
    dropped_beside_who_waits();
    pool_timers_and_waits();
    far_times();
    closed_while_submitted();
    return counted();
}
