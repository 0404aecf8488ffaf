/* Time, which the threads of ntwin.h keep themselves: whichever of them sleep or are woken early, what is due comes, and no thread is made
 * for it. A wake-up that is lost leaves a test asleep. */
#define _GNU_SOURCE
#include <windows.h>

#include "check.h"

#include <dirent.h>
#include <stdlib.h>
#include <unistd.h>

/* How many threads the process has. */
static int tasks(void)
{
    int count = 0;
    DIR *folder = opendir("/proc/self/task");
    if (folder == NULL)
        return 0;
    while (readdir(folder) != NULL)
        count++;
    closedir(folder);
    return count;
}

static LONGLONG now(void)
{
    LARGE_INTEGER count;
    QueryPerformanceCounter(&count);
    return count.QuadPart;
}

/* A millisecond has 10,000 units. */
static LONGLONG milliseconds(LONGLONG ms)
{
    return ms * 10000;
}

static HANDLE event(void)
{
    return CreateEvent(NULL, FALSE, FALSE, NULL);
}

/* A timer that is due this number of ms from now. */
static HANDLE timer(LONGLONG ms)
{
    const LARGE_INTEGER due = { .QuadPart = -milliseconds(ms) };
    HANDLE it = CreateWaitableTimer(NULL, TRUE, NULL);
    IS(SetWaitableTimer(it, &due, 0, NULL, NULL, FALSE), TRUE);
    return it;
}

/* Waits by no call of ntwin.h, so that this thread keeps no time, for a minute at most. */
static void wait_aside(LONG *flag)
{
    const LONGLONG until = now() + milliseconds(60000);
    while (InterlockedExchangeAdd(flag, 0) == 0 && now() < until)
        usleep(100);
}

/* What a thread waits for, how long, and how the wait ended. */
struct sleeper {
    HANDLE object;
    DWORD ms;
    DWORD status;
    LONGLONG took;
    HANDLE thread;
    LONG begins, ended;
};

static DWORD sleep_for(LPVOID at)
{
    struct sleeper *sleeper = at;
    const LONGLONG began = now();
    InterlockedExchange(&sleeper->begins, 1);
    sleeper->status = WaitForSingleObject(sleeper->object, sleeper->ms);
    sleeper->took = now() - began;
    InterlockedExchange(&sleeper->ended, 1);
    return 0;
}

/* A thread that waits for this object. It sleeps when this answers, or as good as always. */
static struct sleeper *begin(HANDLE object, DWORD ms)
{
    struct sleeper *sleeper = calloc(1, sizeof *sleeper);
    if (sleeper == NULL)
        abort();
    sleeper->object = object;
    sleeper->ms = ms;
    sleeper->thread = CreateThread(NULL, 0, sleep_for, sleeper, 0, NULL);
    wait_aside(&sleeper->begins);
    usleep(2000);
    return sleeper;
}

/* The wait ends so; with a timeout no earlier than its time. (Where a machine is slow that comes before what would have ended the wait.) */
#define ENDS(sleeper, wanted_status) \
    do { \
        wait_aside(&(sleeper)->ended); \
        IS((sleeper)->ended, 1); \
        if ((sleeper)->status == WAIT_TIMEOUT) \
            IS((sleeper)->took >= milliseconds((sleeper)->ms), 1); \
        else \
            IS((sleeper)->status, wanted_status); \
        IS(WaitForSingleObject((sleeper)->thread, INFINITE), WAIT_OBJECT_0); \
        free(sleeper); \
    } while (0)

static void no_thread_is_made(void)
{
    HANDLE it = event();
    const int before = tasks();
    IS(WaitForSingleObject(it, 2), WAIT_TIMEOUT);
    Sleep(1);
    IS(WaitForSingleObject(timer(2), INFINITE), WAIT_OBJECT_0);
    IS(tasks(), before);
}

/* The second thread's deadline is the earlier, so it keeps the time; it is granted before, and the first one's still comes. */
static void the_keeper_is_granted(void)
{
    HANDLE second = event();
    struct sleeper *first = begin(event(), 90), *keeper = begin(second, 60);
    IS(SetEvent(second), TRUE);
    ENDS(keeper, WAIT_OBJECT_0);
    ENDS(first, WAIT_TIMEOUT);
}

/* The first thread's deadline is the earlier, so it keeps the time, and ends by itself; the second one's still comes. */
static void the_keeper_times_out(void)
{
    struct sleeper *keeper = begin(event(), 20), *second = begin(event(), 50);
    ENDS(keeper, WAIT_TIMEOUT);
    ENDS(second, WAIT_TIMEOUT);
}

/* Only threads with no timeout sleep; one of them keeps the time for a timer that another waits for. */
static void those_with_no_timeout_keep_it(void)
{
    const LONGLONG began = now();
    HANDLE go = event(), late = timer(20);
    struct sleeper *first = begin(go, INFINITE), *second = begin(late, INFINITE);
    ENDS(second, WAIT_OBJECT_0);
    IS(now() - began >= milliseconds(20), 1);
    IS(SetEvent(go), TRUE);
    ENDS(first, WAIT_OBJECT_0);
}

/* The keeper sleeps to a moment that is far away; another wait's deadline comes before. */
static void an_earlier_deadline_comes(void)
{
    HANDLE go = event();
    struct sleeper *keeper = begin(go, 1000000), *second = begin(event(), 20);
    ENDS(second, WAIT_TIMEOUT);
    IS(SetEvent(go), TRUE);
    ENDS(keeper, WAIT_OBJECT_0);
}

/* The keeper sleeps to a moment that is far away; a timer is set that is due before. */
static void an_earlier_timer_comes(void)
{
    HANDLE go = event(), soon = CreateWaitableTimer(NULL, TRUE, NULL);
    const LARGE_INTEGER due = { .QuadPart = -milliseconds(20) };
    struct sleeper *keeper = begin(go, 1000000), *waiting = begin(soon, INFINITE);
    const LONGLONG began = now();
    IS(SetWaitableTimer(soon, &due, 0, NULL, NULL, FALSE), TRUE);
    ENDS(waiting, WAIT_OBJECT_0);
    IS(now() - began >= milliseconds(20), 1);
    IS(SetEvent(go), TRUE);
    ENDS(keeper, WAIT_OBJECT_0);
}

static ULONG_PTR ORDER;

static void run_queued(ULONG_PTR digit)
{
    ORDER = ORDER * 10 + digit;
}

static void run_timed(LPVOID digit, DWORD low, DWORD high)
{
    (void)low;
    (void)high;
    run_queued((ULONG_PTR)digit);
}

/* Nobody sleeps when the timer is due. What comes after finds that it was due, and its APC is queued first. */
static void nobody_sleeps(void)
{
    const LARGE_INTEGER due = { .QuadPart = -milliseconds(2) };
    HANDLE it = CreateWaitableTimer(NULL, TRUE, NULL);
    IS(SetWaitableTimer(it, &due, 0, run_timed, (LPVOID)1, FALSE), TRUE);
    usleep(4000);
    IS(QueueUserAPC(run_queued, GetCurrentThread(), 2) != 0, 1);
    IS(WaitForSingleObject(it, 0), WAIT_OBJECT_0);
    IS(SleepEx(INFINITE, TRUE), WAIT_IO_COMPLETION);
    IS(ORDER, 12);
}

enum { CROWD = 24, ROUNDS = 60 };

static HANDLE EVENTS[CROWD];
static LONG EARLY;

/* Waits again and again, for 0 to 3 ms, while others set its event or not. */
static DWORD wait_often(LPVOID at)
{
    const int me = (int)(intptr_t)at;
    for (int i = 0; i < ROUNDS; i++) {
        const DWORD ms = (DWORD)(me + i) % 4;
        const LONGLONG began = now();
        const DWORD status = WaitForSingleObject(EVENTS[me], ms);
        if (status == WAIT_TIMEOUT ? now() - began < milliseconds(ms) : status != WAIT_OBJECT_0)
            InterlockedIncrement(&EARLY);
        if (i % 3 == 0)
            SetEvent(EVENTS[(me * 7 + i) % CROWD]);
    }
    return 0;
}

static void crowds(void)
{
    HANDLE threads[CROWD];
    for (int i = 0; i < CROWD; i++)
        EVENTS[i] = event();
    for (int i = 0; i < CROWD; i++)
        threads[i] = CreateThread(NULL, 0, wait_often, (LPVOID)(intptr_t)i, 0, NULL);
    IS(WaitForMultipleObjects(CROWD, threads, TRUE, INFINITE), WAIT_OBJECT_0);
    IS(EARLY, 0);
}

int main(void)
{
    no_thread_is_made();
    the_keeper_is_granted();
    the_keeper_times_out();
    those_with_no_timeout_keep_it();
    an_earlier_deadline_comes();
    an_earlier_timer_comes();
    nobody_sleeps();
    crowds();
    return counted();
}
