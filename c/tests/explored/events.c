/* Programs with a fault in what they do with events. The main function of the program NAME is main_of_NAME. */
#include "explored.h"

enum { WORKERS = 2 };

static HANDLE ready, go;

/* auto_reset: An event that resets itself is set once for each worker that is ready: two sets before the first wait are one. With FIX it
 * stays set, for all. */

static DWORD WINAPI begin_at_go(LPVOID unused)
{
    UNUSED(unused);
    ReleaseSemaphore(ready, 1, NULL);
    WaitForSingleObject(go, INFINITE);
    return 0;
}

int main_of_auto_reset(void)
{
    HANDLE threads[WORKERS];
    ready = CreateSemaphoreA(NULL, 0, WORKERS, NULL);
#ifdef FIX
    go = CreateEventA(NULL, TRUE, FALSE, NULL);
#else
    go = CreateEventA(NULL, FALSE, FALSE, NULL);
#endif
    for (int i = 0; i < WORKERS; i++)
        threads[i] = begin(begin_at_go, NULL);
    for (int i = 0; i < WORKERS; i++) {
        WaitForSingleObject(ready, INFINITE);
        SetEvent(go);
    }
    await_all(threads, WORKERS);
    return 0;
}

/* lost_pulse: A worker is pulsed to go on: the pulse is lost where it does not wait yet. With FIX the event is set, and stays so. */

static DWORD WINAPI begin_at_pulse(LPVOID unused)
{
    UNUSED(unused);
    SetEvent(ready);
    WaitForSingleObject(go, INFINITE);
    return 0;
}

int main_of_lost_pulse(void)
{
    ready = CreateEventA(NULL, FALSE, FALSE, NULL);
    go = CreateEventA(NULL, TRUE, FALSE, NULL);
    HANDLE worker = begin(begin_at_pulse, NULL);
    WaitForSingleObject(ready, INFINITE);
#ifdef FIX
    SetEvent(go);
#else
    PulseEvent(go);
#endif
    WaitForSingleObject(worker, INFINITE);
    return 0;
}

/* wait_any_index: Who waits for any of two events resets both, though the other may have been set, too. With FIX it resets the one that
 * ended the wait. */

static HANDLE done[WORKERS];

static DWORD WINAPI set_own(LPVOID at)
{
    SetEvent(done[(intptr_t)at]);
    return 0;
}

int main_of_wait_any_index(void)
{
    HANDLE threads[WORKERS];
    for (int i = 0; i < WORKERS; i++)
        done[i] = CreateEventA(NULL, TRUE, FALSE, NULL);
    for (int i = 0; i < WORKERS; i++)
        threads[i] = begin(set_own, (LPVOID)(intptr_t)i);
    for (int i = 0; i < WORKERS; i++) {
        const DWORD which = WaitForMultipleObjects(WORKERS, done, FALSE, INFINITE);
        EXPECT(which < WORKERS);
        ResetEvent(done[which]);
#ifndef FIX
        ResetEvent(done[1 - which]);
#endif
    }
    await_all(threads, WORKERS);
    return 0;
}

/* no_alertable_wait: An APC is to set an event that its own thread waits for: it never runs, since that wait is not alertable. With FIX it
 * is. */

static HANDLE called;

static VOID CALLBACK call(ULONG_PTR unused)
{
    UNUSED(unused);
    SetEvent(called);
}

static DWORD WINAPI wait_for_call(LPVOID unused)
{
    UNUSED(unused);
#ifdef FIX
    while (WaitForSingleObjectEx(called, INFINITE, TRUE) == WAIT_IO_COMPLETION)
        continue;
#else
    WaitForSingleObjectEx(called, INFINITE, FALSE);
#endif
    return 0;
}

int main_of_no_alertable_wait(void)
{
    called = CreateEventA(NULL, TRUE, FALSE, NULL);
    HANDLE worker = begin(wait_for_call, NULL);
    SwitchToThread();
    QueueUserAPC(call, worker, 0);
    WaitForSingleObject(worker, INFINITE);
    return 0;
}

/* touched_when_done: A thread says that it is done, and then touches what who waited for that gives back. With FIX it says so last. A
 * signal ends the process. */

static struct job {
    HANDLE done;
    volatile LONG is_freed, result;
} job;

static DWORD WINAPI finish(LPVOID unused)
{
    UNUSED(unused);
#ifdef FIX
    job.result = 1;
    SetEvent(job.done);
#else
    SetEvent(job.done);
    if (job.is_freed)
        abort();
    job.result = 1;
#endif
    return 0;
}

int main_of_touched_when_done(void)
{
    job.done = CreateEventA(NULL, FALSE, FALSE, NULL);
    HANDLE worker = begin(finish, NULL);
    WaitForSingleObject(job.done, INFINITE);
    job.is_freed = 1;
    WaitForSingleObject(worker, INFINITE);
    return 0;
}

/* sleep_as_guarantee: A sleep of 10 ms is taken to be long enough for another thread. That needs a deadline that comes although threads
 * could run. With FIX it waits. */

static volatile LONG is_done;

static DWORD WINAPI be_done(LPVOID unused)
{
    UNUSED(unused);
    SwitchToThread();
    is_done = 1;
    return 0;
}

int main_of_sleep_as_guarantee(void)
{
    HANDLE worker = begin(be_done, NULL);
#ifdef FIX
    WaitForSingleObject(worker, INFINITE);
#else
    UNUSED(worker);
    Sleep(10);
#endif
    EXPECT(is_done);
    return 0;
}
