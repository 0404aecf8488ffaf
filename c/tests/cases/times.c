/* What comes in its time, whoever else is held up. */
#include "case.h"

/* (A thread that has to wait for the usual one is late by 900 ms and more; a machine that stands still, by some 100.) */
enum { TIMES = 30, LATE_MS = 500 };

static HANDLE never;
static LONG stops;

/* idle_waiter. Within 20 s, alone: 2 passed, 0 failed.
 *
 * On one busy processor a thread of the idle class waits again and again, with the next deadline. The timeouts of a usual thread come as
 * they do with no thread beside it. */

static void *is_busy(void *unused)
{
    (void)unused;
    while (InterlockedExchangeAdd(&stops, 0) == 0)
        continue;
    return NULL;
}

static DWORD is_idle(LPVOID unused)
{
    const struct sched_param none = { 0 };
    (void)unused;
    sched_setscheduler(0, SCHED_IDLE, &none);
    while (InterlockedExchangeAdd(&stops, 0) == 0)
        WaitForSingleObject(never, 1);
    return 0;
}

static int compare(const void *one, const void *other)
{
    const double a = *(const double *)one, b = *(const double *)other;
    return (a > b) - (a < b);
}

/* By how many ms a sleep of 10 ms ends late, mostly. */
static double median_of(void (*sleeps)(void))
{
    double late[TIMES];
    for (int i = 0; i < TIMES; i++) {
        const double began = now_ms();
        sleeps();
        late[i] = now_ms() - began - 10;
    }
    qsort(late, TIMES, sizeof *late, compare);
    return late[TIMES / 2];
}

static void sleep_by_system(void)
{
    rest_ms(10);
}

static void sleep_by_wait(void)
{
    WaitForSingleObject(never, 10);
}

int case_idle_waiter(void)
{
    pthread_t busy;
    keep_to_one_processor();
    never = CreateEvent(NULL, FALSE, FALSE, NULL);
    HANDLE idle = CreateThread(NULL, 0, is_idle, NULL, 0, NULL);
    rest_ms(50);
    must(pthread_create(&busy, NULL, is_busy, NULL) == 0);
    const double by_system = median_of(sleep_by_system), by_wait = median_of(sleep_by_wait);
    raise_flag(&stops);
    IS(pthread_join(busy, NULL), 0);
    WaitForSingleObject(idle, INFINITE);
    IS(by_wait < by_system * 3 + 50, 1);
    return counted();
}

/* poll_beside_waiter. Within 20 s, alone: 2 passed, 0 failed.
 *
 * On one processor a real-time thread polls a timer with timeout 0, and a usual thread merely waits, for something else, so it never runs
 * meanwhile. The poll sees the timer as soon as that is due. */

static DWORD waits_idly(LPVOID event)
{
    set_priority(0);
    return WaitForSingleObject(event, INFINITE);
}

/* By how many ms the poll sees the timer late, at the latest. */
static double latest_of_polls(void)
{
    double latest = 0;
    HANDLE timer = CreateWaitableTimer(NULL, TRUE, NULL);
    set_priority(10);
    for (int i = 0; i < TIMES; i++) {
        const LARGE_INTEGER due = { .QuadPart = -20000 };
        const double began = now_ms();
        SetWaitableTimer(timer, &due, 0, NULL, NULL, FALSE);
        while (WaitForSingleObject(timer, 0) != WAIT_OBJECT_0)
            continue;
        const double late = now_ms() - began - 2;
        latest = late > latest ? late : latest;
    }
    set_priority(0);
    return latest;
}

int case_poll_beside_waiter(void)
{
    keep_to_one_processor();
    HANDLE event = CreateEvent(NULL, TRUE, FALSE, NULL);
    IS(latest_of_polls() < LATE_MS, 1);
    HANDLE thread = CreateThread(NULL, 0, waits_idly, event, 0, NULL);
    rest_ms(50);
    IS(latest_of_polls() < LATE_MS, 1);
    SetEvent(event);
    WaitForSingleObject(thread, INFINITE);
    return counted();
}

/* priorities. Within 20 s, alone: 2 passed, 0 failed.
 *
 * On one processor a real-time thread waits for 10 ms, above a busy real-time thread. A thread of the usual class waits, too, with an
 * earlier deadline, and does not run while the busy one does. The first thread's timeout comes in its time all the same. */

enum { FEW_TIMES = 5, HIGH = 10, BUSY = 5 };

static void *is_busy_at_its_priority(void *unused)
{
    (void)unused;
    set_priority(BUSY);
    while (InterlockedExchangeAdd(&stops, 0) == 0)
        ;
    return NULL;
}

static DWORD waits_as_usual(LPVOID unused)
{
    (void)unused;
    set_priority(0);
    return WaitForSingleObject(never, 5);
}

/* By how many ms the timeout comes late. */
static double lateness(BOOL beside_usual)
{
    pthread_t busy;
    stops = 0;
    set_priority(HIGH);
    HANDLE usual = beside_usual ? CreateThread(NULL, 0, waits_as_usual, NULL, 0, NULL) : NULL;
    rest_ms(1);
    must(pthread_create(&busy, NULL, is_busy_at_its_priority, NULL) == 0);
    const double began = now_ms();
    WaitForSingleObject(never, 10);
    const double late = now_ms() - began - 10;
    raise_flag(&stops);
    set_priority(0);
    pthread_join(busy, NULL);
    if (usual != NULL)
        WaitForSingleObject(usual, INFINITE);
    rest_ms(60);
    return late;
}

int case_priorities(void)
{
    keep_to_one_processor();
    never = CreateEvent(NULL, TRUE, FALSE, NULL);
    for (BOOL beside_usual = FALSE; beside_usual <= TRUE; beside_usual++) {
        double latest = 0;
        for (int i = 0; i < FEW_TIMES; i++) {
            const double late = lateness(beside_usual);
            latest = late > latest ? late : latest;
        }
        IS(latest < LATE_MS, 1);
    }
    return counted();
}

/* overdue_timers. Within 10 s: 8 passed, 0 failed.
 *
 * Nobody waits while a timer comes due. Whichever call is next finds that it has: one that cancels the timer leaves it signaled, one that looks
 * at it sees that, and its routine is queued before an APC of later. */

static ULONG_PTR order;

static void add(ULONG_PTR digit)
{
    order = order * 10 + digit;
}

static void add_for_timer(LPVOID digit, DWORD low, DWORD high)
{
    (void)low;
    (void)high;
    add((ULONG_PTR)digit);
}

/* A timer that came due while nobody waited, and this routine with it, where one is given. */
static HANDLE overdue(PTIMERAPCROUTINE routine)
{
    const LARGE_INTEGER due = { .QuadPart = -10000 };
    HANDLE timer = CreateWaitableTimer(NULL, TRUE, NULL);
    IS(SetWaitableTimer(timer, &due, 0, routine, (LPVOID)(uintptr_t)1, FALSE), TRUE);
    rest_ms(5);
    return timer;
}

int case_overdue_timers(void)
{
    HANDLE timer = overdue(NULL);
    IS(CancelWaitableTimer(timer), TRUE);
    IS(WaitForSingleObject(timer, 0), WAIT_OBJECT_0);
    IS(WaitForSingleObject(overdue(NULL), 0), WAIT_OBJECT_0);
    overdue(add_for_timer);
    must(QueueUserAPC(add, GetCurrentThread(), 2) != 0);
    IS(SleepEx(INFINITE, TRUE), WAIT_IO_COMPLETION);
    IS(order, 12);
    return counted();
}

/* slow_handler. Within 20 s: 3 passed, 0 failed.
 *
 * A thread that waits is in a handler of a signal for two seconds. Another thread's wait, whose deadline comes after that thread's, ends in
 * its time. */

static LONG begins, is_in_handler;
static pthread_t waiter;

static void is_slow(int signal)
{
    const struct timespec time = { 2, 0 };
    (void)signal;
    raise_flag(&is_in_handler);
    nanosleep(&time, NULL);
}

static DWORD waits_often(LPVOID event)
{
    waiter = pthread_self();
    raise_flag(&begins);
    while (InterlockedExchangeAdd(&is_in_handler, 0) == 0)
        WaitForSingleObject(event, 100);
    return 0;
}

int case_slow_handler(void)
{
    signal(SIGUSR1, is_slow);
    HANDLE never = CreateEvent(NULL, FALSE, FALSE, NULL), thread = CreateThread(NULL, 0, waits_often, never, 0, NULL);
    await(&begins);
    rest_ms(20);
    pthread_kill(waiter, SIGUSR1);
    await(&is_in_handler);
    const double began = now_ms();
    IS(WaitForSingleObject(never, 200), WAIT_TIMEOUT);
    IS(now_ms() - began < 1200, 1);
    IS(WaitForSingleObject(thread, INFINITE), WAIT_OBJECT_0);
    return counted();
}

/* stopped_process. Within 20 s: 3 passed, 0 failed.
 *
 * A process is stopped for a while and goes on: a timer with a period has one callback for all that it missed, and the next when that is due. */

/* (Callbacks of a thread that is held up are called together, later: as many as this may be left.) */
enum { PERIOD_MS = 5, STOPPED_MS = 2000, LEFT = 200 };

static LONG POOL_TICKS, THREAD_TICKS;

static void CALLBACK note(PVOID ticks, BOOLEAN timed_out)
{
    (void)timed_out;
    InterlockedIncrement(ticks);
}

/* Stops itself, and looks how often the timers came since it goes on: at most as often as periods have passed since, but for what was missed and
 * what was under way. */
static int stop_and_look(void)
{
    HANDLE timer;
    must(CreateTimerQueueTimer(&timer, NULL, note, &POOL_TICKS, 0, PERIOD_MS, WT_EXECUTEDEFAULT));
    must(CreateTimerQueueTimer(&timer, NULL, note, &THREAD_TICKS, 0, PERIOD_MS, WT_EXECUTEINTIMERTHREAD));
    rest_ms(30);
    const LONG of_pool = ReadAcquire(&POOL_TICKS), in_thread = ReadAcquire(&THREAD_TICKS);
    const double stopped = now_ms();
    raise(SIGSTOP);
    const double began = now_ms();
    rest_ms(30);
    const LONG more_of_pool = ReadAcquire(&POOL_TICKS) - of_pool, more_in_thread = ReadAcquire(&THREAD_TICKS) - in_thread;
    const LONG most = LEFT + (LONG)((now_ms() - began) / PERIOD_MS);
    IS(began - stopped >= STOPPED_MS, 1);
    IS(more_of_pool <= most, 1);
    IS(more_in_thread <= most, 1);
    return counted();
}

int case_stopped_process(void)
{
    int status = 0;
    const pid_t child = fork();
    must(child >= 0);
    if (child == 0)
        return stop_and_look();
    must(waitpid(child, &status, WUNTRACED) == child && WIFSTOPPED(status));
    rest_ms(STOPPED_MS + 20);
    must(kill(child, SIGCONT) == 0 && waitpid(child, &status, 0) == child);
    return status != 0;
}
