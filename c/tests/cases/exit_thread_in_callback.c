/* Within 20 s: 30 passed, 0 failed.
 *
 * A callback that calls ExitThread ends as one that returns does, and its thread with it: nobody waits for either any longer, and another thread
 * takes up what is left. */
#include "case.h"
#include "../settled.h"

/* (A thread of a pool may be on its way out as the process ends.) */
const char *__tsan_default_options(void);
UNSANITIZED const char *__tsan_default_options(void)
{
    return "report_thread_leaks=0";
}

static LONG EXITS, RAN;
static HANDLE THREAD, DONE;

static void note_and_exit(void)
{
    InterlockedIncrement(&EXITS);
    ExitThread(7);
}

static void CALLBACK exit_in_work(PTP_CALLBACK_INSTANCE instance, PVOID none, PTP_WORK work)
{
    (void)none;
    (void)work;
    must(DuplicateHandle(GetCurrentProcess(), GetCurrentThread(), GetCurrentProcess(), &THREAD, 0, FALSE, DUPLICATE_SAME_ACCESS));
    SetEventWhenCallbackReturns(instance, DONE);
    note_and_exit();
}

static void CALLBACK exit_apart(PTP_CALLBACK_INSTANCE instance, PVOID none)
{
    (void)none;
    DisassociateCurrentThreadFromCallback(instance);
    note_and_exit();
}

static DWORD WINAPI exit_in_item(LPVOID none)
{
    (void)none;
    note_and_exit();
    return 0;
}

static void CALLBACK exit_in_wait_or_timer(PVOID none, BOOLEAN timed_out)
{
    (void)none;
    (void)timed_out;
    note_and_exit();
}

static void CALLBACK run(PTP_CALLBACK_INSTANCE instance, PVOID none, PTP_WORK work)
{
    (void)instance;
    (void)none;
    (void)work;
    InterlockedIncrement(&RAN);
}

/* In a pool of one thread, with more callbacks behind it. */
static void work(void)
{
    TP_CALLBACK_ENVIRON environment;
    PTP_POOL pool = CreateThreadpool(NULL);
    DWORD code = 0;
    SetThreadpoolThreadMaximum(pool, 1);
    must(SetThreadpoolThreadMinimum(pool, 1));
    InitializeThreadpoolEnvironment(&environment);
    SetThreadpoolCallbackPool(&environment, pool);
    PTP_WORK exits = CreateThreadpoolWork(exit_in_work, NULL, &environment), other = CreateThreadpoolWork(run, NULL, &environment);
    for (LONG i = 1; i <= 5; i++) {
        SubmitThreadpoolWork(exits);
        SubmitThreadpoolWork(other);
        WaitForThreadpoolWorkCallbacks(exits, FALSE);
        IS(WaitForSingleObject(DONE, 100000), WAIT_OBJECT_0);
        WaitForThreadpoolWorkCallbacks(other, FALSE);
        IS(ReadAcquire(&RAN), i);
        IS(WaitForSingleObject(THREAD, 100000), WAIT_OBJECT_0);
        must(GetExitCodeThread(THREAD, &code) && CloseHandle(THREAD));
        IS(code, 7);
    }
    must(TrySubmitThreadpoolCallback(exit_apart, NULL, &environment));
    CloseThreadpoolWork(exits);
    SubmitThreadpoolWork(other);
    CloseThreadpool(pool);
    WaitForThreadpoolWorkCallbacks(other, FALSE);
    CloseThreadpoolWork(other);
    IS(ReadAcquire(&RAN), 6);
}

/* Each callback of a wait and of a timer comes, also in the thread that waits and in the one that keeps the time. */
static void waits_and_timers(ULONG flags_of_wait, ULONG flags_of_timer)
{
    HANDLE wait = NULL, timer = NULL, event = CreateEvent(NULL, FALSE, FALSE, NULL);
    EXITS = 0;
    must(RegisterWaitForSingleObject(&wait, event, exit_in_wait_or_timer, NULL, INFINITE, flags_of_wait));
    for (LONG i = 1; i <= 3; i++) {
        SetEvent(event);
        settled(&EXITS, i);
    }
    IS(ReadAcquire(&EXITS), 3);
    must(UnregisterWaitEx(wait, INVALID_HANDLE_VALUE));
    must(CreateTimerQueueTimer(&timer, NULL, exit_in_wait_or_timer, NULL, 1, 2, flags_of_timer));
    IS(settled(&EXITS, 7) >= 7, 1);
    must(DeleteTimerQueueTimer(NULL, timer, INVALID_HANDLE_VALUE));
    CloseHandle(event);
}

static void CALLBACK exit_in_media_timer(UINT timer, UINT message, DWORD_PTR user, DWORD_PTR first, DWORD_PTR second)
{
    (void)timer, (void)message, (void)user, (void)first, (void)second;
    note_and_exit();
}

/* A timer of winmm that comes once leaves its place, of which there are 16; and one with a period comes again. */
static void media_timers(void)
{
    LONG made = 0;
    EXITS = 0;
    for (int i = 0; i < 20; i++) {
        made += timeSetEvent(1, 0, exit_in_media_timer, 0, TIME_ONESHOT) != 0;
        settled(&EXITS, made);
    }
    IS(made, 20);
    IS(ReadAcquire(&EXITS), 20);
    const UINT timer = timeSetEvent(1, 0, exit_in_media_timer, 0, TIME_PERIODIC);
    IS(timer != 0 && settled(&EXITS, 23) >= 23, 1);
    IS(timeKillEvent(timer), TIMERR_NOERROR);
}

int main(void)
{
    DONE = CreateEvent(NULL, FALSE, FALSE, NULL);
    work();
    waits_and_timers(WT_EXECUTEDEFAULT, WT_EXECUTEDEFAULT);
    waits_and_timers(WT_EXECUTEINWAITTHREAD, WT_EXECUTEINTIMERTHREAD);
    EXITS = 0;
    for (int i = 0; i < 100; i++)
        must(QueueUserWorkItem(exit_in_item, NULL, 0));
    IS(settled(&EXITS, 100), 100);
    media_timers();
    return counted();
}
