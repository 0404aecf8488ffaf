/* winmm's timers: what timeSetEvent and timeKillEvent answer, and what comes of them, from Microsoft's pages. And timers, waits and work of the pool that
 * are closed while a callback uses them. */
#include <windows.h>

#include "settled.h"

enum { MOST = 16, USER = 4711 };

static HANDLE EVENT;

/* What the last callback got, and how many there were. */
static LONG CAME;
static UINT CAME_OF;

static void CALLBACK note(UINT timer, UINT message, DWORD_PTR user, DWORD_PTR first, DWORD_PTR second)
{
    must(message == 0 && user == USER && first == 0 && second == 0);
    CAME_OF = timer;
    InterlockedIncrement(&CAME);
}

static void CALLBACK note_end(UINT timer, UINT message, DWORD_PTR user, DWORD_PTR first, DWORD_PTR second)
{
    (void)timer, (void)message, (void)user, (void)first, (void)second;
    must(SetEvent(EVENT));
}

static void refusals(void)
{
    TIMECAPS caps;
    must(timeGetDevCaps(&caps, sizeof caps) == TIMERR_NOERROR);
    ANSWERS(timeSetEvent(caps.wPeriodMin - 1, 0, note, USER, TIME_ONESHOT), 0, UNTOUCHED);
    ANSWERS(timeSetEvent(caps.wPeriodMax + 1, 0, note, USER, TIME_ONESHOT), 0, UNTOUCHED);
    ANSWERS(timeSetEvent(1, 0, NULL, USER, TIME_ONESHOT), 0, UNTOUCHED);
    ANSWERS(timeKillEvent(0), MMSYSERR_INVALPARAM, UNTOUCHED);
    ANSWERS(timeKillEvent(1), MMSYSERR_INVALPARAM, UNTOUCHED);
}

/* Waits until each callback that had begun has ended: another has been called, and they are all of one thread. */
static void wait_for_callbacks(void)
{
    must(timeSetEvent(1, 0, note_end, 0, TIME_ONESHOT) != 0);
    must(WaitForSingleObject(EVENT, INFINITE) == WAIT_OBJECT_0);
}

/* (This is long for a machine that is held up.) */
enum { LONG_MS = 1000 };

static void once_and_in_periods(void)
{
    CAME = 0;
    SetLastError(UNTOUCHED);
    UINT timer = timeSetEvent(2, 0, note, USER, TIME_ONESHOT | TIME_CALLBACK_FUNCTION);
    IS(timer != 0, TRUE);
    IS(GetLastError(), UNTOUCHED);
    IS(settled(&CAME, 1), 1);
    IS(CAME_OF, timer);
    wait_for_callbacks();
    ANSWERS(timeKillEvent(timer), MMSYSERR_INVALPARAM, UNTOUCHED);
    const UINT before = timer;
    timer = timeSetEvent(1, 1, note, USER, TIME_PERIODIC);
    IS(timer != 0 && timer != before, TRUE);
    IS(settled(&CAME, 4) >= 4, TRUE);
    IS(CAME_OF, timer);
    ANSWERS(timeKillEvent(timer), TIMERR_NOERROR, UNTOUCHED);
    ANSWERS(timeKillEvent(timer), MMSYSERR_INVALPARAM, UNTOUCHED);
    /* (One that had begun may end after that.) */
    wait_for_callbacks();
    const LONG came = ReadAcquire(&CAME);
    IS(later(&CAME), came);
    timer = timeSetEvent(LONG_MS, 0, note, USER, TIME_ONESHOT | TIME_KILL_SYNCHRONOUS);
    ANSWERS(timeKillEvent(timer), TIMERR_NOERROR, UNTOUCHED);
    Sleep(LONG_MS + 10);
    IS(ReadAcquire(&CAME), came);
}

static void events(void)
{
    const LPTIMECALLBACK event = (LPTIMECALLBACK)(ULONG_PTR)EVENT;
    IS(timeSetEvent(1, 0, event, 0, TIME_ONESHOT | TIME_CALLBACK_EVENT_SET) != 0, TRUE);
    IS(WaitForSingleObject(EVENT, 100000), WAIT_OBJECT_0);
    UINT timer = timeSetEvent(1, 0, event, 0, TIME_PERIODIC | TIME_CALLBACK_EVENT_SET | TIME_KILL_SYNCHRONOUS);
    for (int i = 0; i < 3; i++)
        IS(WaitForSingleObject(EVENT, 100000), WAIT_OBJECT_0);
    IS(timeKillEvent(timer), TIMERR_NOERROR);
    ResetEvent(EVENT);
    IS(WaitForSingleObject(EVENT, 20), WAIT_TIMEOUT);
    /* A pulse ends the waits that pend, and leaves nothing. */
    timer = timeSetEvent(1, 0, event, 0, TIME_PERIODIC | TIME_CALLBACK_EVENT_PULSE | TIME_KILL_SYNCHRONOUS);
    IS(WaitForSingleObject(EVENT, 100000), WAIT_OBJECT_0);
    IS(timeKillEvent(timer), TIMERR_NOERROR);
    IS(WaitForSingleObject(EVENT, 0), WAIT_TIMEOUT);
}

/* ---- Callbacks that are killed, or kill. */

static LONG BEGAN, ENDED;

static void CALLBACK take_a_while(UINT timer, UINT message, DWORD_PTR user, DWORD_PTR first, DWORD_PTR second)
{
    (void)timer, (void)message, (void)user, (void)first, (void)second;
    InterlockedIncrement(&BEGAN);
    Sleep(20);
    InterlockedIncrement(&ENDED);
}

static void CALLBACK kill_itself(UINT timer, UINT message, DWORD_PTR user, DWORD_PTR first, DWORD_PTR second)
{
    (void)message, (void)user, (void)first, (void)second;
    must(timeKillEvent(timer) == TIMERR_NOERROR);
    InterlockedIncrement(&BEGAN);
    must(timeSetEvent(1, 0, note, USER, TIME_ONESHOT) != 0);
}

/* With the flag a call that kills a timer returns once its callback has, in a period or once; and none comes after it. */
static void killed_as_they_run(void)
{
    for (UINT how = TIME_ONESHOT; how <= TIME_PERIODIC; how++) {
        BEGAN = ENDED = 0;
        const UINT timer = timeSetEvent(1, 0, take_a_while, 0, how | TIME_KILL_SYNCHRONOUS);
        while (ReadAcquire(&BEGAN) == 0)
            Sleep(1);
        /* (One that comes once may be gone.) */
        const MMRESULT killed = timeKillEvent(timer);
        IS(killed == TIMERR_NOERROR || (killed == MMSYSERR_INVALPARAM && how == TIME_ONESHOT), TRUE);
        const LONG began = ReadAcquire(&BEGAN);
        IS(ReadAcquire(&ENDED), began);
        IS(later(&BEGAN), began);
    }
    for (UINT how = TIME_ONESHOT; how <= TIME_PERIODIC; how++) {
        BEGAN = CAME = 0;
        IS(timeSetEvent(1, 0, kill_itself, 0, how | TIME_KILL_SYNCHRONOUS) != 0, TRUE);
        IS(settled(&CAME, 1), 1);
        IS(later(&BEGAN), 1);
    }
}

static void the_most(void)
{
    UINT timers[MOST];
    for (int i = 0; i < MOST; i++)
        must((timers[i] = timeSetEvent(100000, 0, note, USER, TIME_ONESHOT)) != 0);
    ANSWERS(timeSetEvent(100000, 0, note, USER, TIME_ONESHOT), 0, UNTOUCHED);
    IS(timeKillEvent(timers[3]), TIMERR_NOERROR);
    const UINT before = timers[3];
    must((timers[3] = timeSetEvent(100000, 0, note, USER, TIME_ONESHOT)) != 0);
    /* The number of one that is gone names no other. */
    IS(timeKillEvent(before), MMSYSERR_INVALPARAM);
    for (int i = 0; i < MOST; i++)
        IS(timeKillEvent(timers[i]), TIMERR_NOERROR);
}

/* ---- What is closed while a callback uses it: it is there until that has ended, and so are the members of its group; and it comes no more. */

static PTP_WORK USED_WORK;
static HANDLE GO, DONE, SET, QUEUE, OWN_TIMER, OTHER_TIMER, LATE_TIMER;
static LONG CAME_LATE;
static FILETIME AT_ONCE;

static void CALLBACK count_work(PTP_CALLBACK_INSTANCE instance, PVOID ran, PTP_WORK work)
{
    (void)instance, (void)work;
    InterlockedIncrement(ran);
}

static void CALLBACK count_late(PVOID came, BOOLEAN timed_out)
{
    (void)timed_out;
    InterlockedIncrement(came);
}

static void stay(LONG *steps)
{
    InterlockedIncrement(steps);
    must(WaitForSingleObject(GO, INFINITE) == WAIT_OBJECT_0);
    InterlockedIncrement(steps);
}

/* Once its group's members are being closed, submits another of them, sets itself and closes itself. */
static void CALLBACK use_members(PTP_CALLBACK_INSTANCE instance, PVOID ran, PTP_TIMER timer)
{
    (void)instance;
    InterlockedIncrement(ran);
    SetEvent(DONE);
    while (IsThreadpoolTimerSet(timer))
        Sleep(1);
    Sleep(10);
    SubmitThreadpoolWork(USED_WORK);
    SetThreadpoolTimer(timer, &AT_ONCE, 0, 0);
    CloseThreadpoolTimer(timer);
    Sleep(10);
}

static void CALLBACK close_itself(PTP_CALLBACK_INSTANCE instance, PVOID ended, PTP_WORK work)
{
    (void)instance;
    CloseThreadpoolWork(work);
    SetEvent(DONE);
    Sleep(30);
    InterlockedIncrement(ended);
}

static void closed_members(void)
{
    TP_CALLBACK_ENVIRON environment;
    LONG ran = 0, used = 0, ended = 0;
    PTP_CLEANUP_GROUP group = CreateThreadpoolCleanupGroup();
    InitializeThreadpoolEnvironment(&environment);
    SetThreadpoolCallbackCleanupGroup(&environment, group, NULL);
    PTP_TIMER timer = CreateThreadpoolTimer(use_members, &ran, &environment);
    USED_WORK = CreateThreadpoolWork(count_work, &used, &environment);
    SetThreadpoolTimer(timer, &AT_ONCE, 100000, 0);
    must(WaitForSingleObject(DONE, INFINITE) == WAIT_OBJECT_0);
    CloseThreadpoolCleanupGroupMembers(group, FALSE, NULL);
    IS(ReadAcquire(&used), 1);
    IS(later(&ran), 1);
    /* One that has closed itself is waited for, too; and the group may be closed before it has ended. */
    SubmitThreadpoolWork(CreateThreadpoolWork(close_itself, &ended, &environment));
    must(WaitForSingleObject(DONE, INFINITE) == WAIT_OBJECT_0);
    CloseThreadpoolCleanupGroupMembers(group, FALSE, NULL);
    IS(ReadAcquire(&ended), 1);
    SubmitThreadpoolWork(CreateThreadpoolWork(close_itself, &ended, &environment));
    must(WaitForSingleObject(DONE, INFINITE) == WAIT_OBJECT_0);
    CloseThreadpoolCleanupGroup(group);
    IS(settled(&ended, 2), 2);
}

static void CALLBACK end_first(PVOID steps, BOOLEAN timed_out)
{
    (void)timed_out;
    stay(steps);
}

/* Once the queue is being deleted, and the callback of another timer has ended. */
static void CALLBACK change_timers(PVOID steps, BOOLEAN timed_out)
{
    (void)timed_out;
    InterlockedIncrement(steps);
    IS(settled(steps, 3), 3);
    ANSWERS(ChangeTimerQueueTimer(QUEUE, OTHER_TIMER, 0, 0), TRUE, UNTOUCHED);
    ANSWERS(DeleteTimerQueueTimer(QUEUE, OTHER_TIMER, NULL), TRUE, UNTOUCHED);
    ANSWERS(CreateTimerQueueTimer(&LATE_TIMER, QUEUE, count_late, &CAME_LATE, 1, 0, WT_EXECUTEDEFAULT), FALSE, ERROR_INVALID_HANDLE);
    IS(LATE_TIMER == NULL, TRUE);
    ANSWERS(DeleteTimerQueueTimer(QUEUE, OWN_TIMER, NULL), FALSE, ERROR_IO_PENDING);
    Sleep(20);
    InterlockedIncrement(steps);
}

static DWORD WINAPI go_on_later(LPVOID none)
{
    (void)none;
    Sleep(20);
    SetEvent(GO);
    return 0;
}

/* A queue is deleted beside callbacks, with an event or not, or as the call that waits does it. */
static void closed_queue(HANDLE done)
{
    LONG steps = 0, came = 0;
    HANDLE timer, thread;
    ResetEvent(GO);
    QUEUE = CreateTimerQueue();
    must(CreateTimerQueueTimer(&OTHER_TIMER, QUEUE, count_late, &came, 100000, 0, WT_EXECUTEDEFAULT));
    must(CreateTimerQueueTimer(&timer, QUEUE, end_first, &steps, 0, 0, WT_EXECUTEDEFAULT));
    must(CreateTimerQueueTimer(&OWN_TIMER, QUEUE, change_timers, &steps, 0, 0, WT_EXECUTEDEFAULT));
    IS(settled(&steps, 2), 2);
    must((thread = CreateThread(NULL, 0, go_on_later, NULL, 0, NULL)) != NULL);
    if (done == INVALID_HANDLE_VALUE)
        ANSWERS(DeleteTimerQueueEx(QUEUE, done), TRUE, UNTOUCHED);
    else
        ANSWERS(DeleteTimerQueueEx(QUEUE, done), FALSE, ERROR_IO_PENDING);
    IS(done == NULL || done == INVALID_HANDLE_VALUE || WaitForSingleObject(done, 60000) == WAIT_OBJECT_0, TRUE);
    IS(done == NULL ? settled(&steps, 4) : ReadAcquire(&steps), 4);
    IS(later(&came), 0);
    IS(ReadAcquire(&CAME_LATE), 0);
    must(WaitForSingleObject(thread, INFINITE) == WAIT_OBJECT_0 && CloseHandle(thread));
}

static void CALLBACK set_timer_when_closed(PTP_CALLBACK_INSTANCE instance, PVOID steps, PTP_TIMER timer)
{
    (void)instance;
    stay(steps);
    SetThreadpoolTimer(timer, &AT_ONCE, 0, 0);
}

static void CALLBACK set_wait_when_closed(PTP_CALLBACK_INSTANCE instance, PVOID steps, PTP_WAIT wait, TP_WAIT_RESULT result)
{
    (void)instance, (void)result;
    stay(steps);
    SetThreadpoolWait(wait, SET, NULL);
}

static void set_once_closed(void)
{
    LONG steps = 0, other_steps = 0;
    PTP_TIMER timer = CreateThreadpoolTimer(set_timer_when_closed, &steps, NULL);
    PTP_WAIT wait = CreateThreadpoolWait(set_wait_when_closed, &other_steps, NULL);
    ResetEvent(GO);
    SetThreadpoolTimer(timer, &AT_ONCE, 0, 0);
    SetThreadpoolWait(wait, SET, NULL);
    IS(settled(&steps, 1) + settled(&other_steps, 1), 2);
    CloseThreadpoolTimer(timer);
    CloseThreadpoolWait(wait);
    SetEvent(GO);
    IS(settled(&steps, 2) + settled(&other_steps, 2), 4);
    IS(later(&steps) + later(&other_steps), 4);
}

int main(void)
{
    must((EVENT = CreateEvent(NULL, FALSE, FALSE, NULL)) != NULL && (SET = CreateEvent(NULL, TRUE, TRUE, NULL)) != NULL);
    must((GO = CreateEvent(NULL, TRUE, FALSE, NULL)) != NULL && (DONE = CreateEvent(NULL, FALSE, FALSE, NULL)) != NULL);
    refusals();
    once_and_in_periods();
    events();
    killed_as_they_run();
    the_most();
    closed_members();
    closed_queue(INVALID_HANDLE_VALUE);
    closed_queue(DONE);
    closed_queue(NULL);
    set_once_closed();
    must(CloseHandle(EVENT));
    return counted();
}
