/* Programs of workers that share jobs, and of callbacks, each with a fault. The main function of the program NAME is main_of_NAME. */
#include "explored.h"

enum { WORKERS = 2 };

static HANDLE all_done;

/* pool_of_one: A callback waits for another callback of its own pool, which has one thread. With FIX it does not wait. */

static PTP_WORK second;
static TP_CALLBACK_ENVIRON environment;
static HANDLE done;

static VOID CALLBACK do_second(PTP_CALLBACK_INSTANCE instance, PVOID context, PTP_WORK work)
{
    UNUSED(instance);
    UNUSED(context);
    UNUSED(work);
}

static VOID CALLBACK do_first(PTP_CALLBACK_INSTANCE instance, PVOID context, PTP_WORK work)
{
    UNUSED(instance);
    UNUSED(context);
    UNUSED(work);
    SubmitThreadpoolWork(second);
#ifndef FIX
    WaitForThreadpoolWorkCallbacks(second, FALSE);
#endif
    SetEvent(done);
}

int main_of_pool_of_one(void)
{
    PTP_POOL pool = CreateThreadpool(NULL);
    SetThreadpoolThreadMaximum(pool, 1);
    InitializeThreadpoolEnvironment(&environment);
    SetThreadpoolCallbackPool(&environment, pool);
    done = CreateEventA(NULL, TRUE, FALSE, NULL);
    second = CreateThreadpoolWork(do_second, NULL, &environment);
    PTP_WORK first = CreateThreadpoolWork(do_first, NULL, &environment);
    SubmitThreadpoolWork(first);
    WaitForSingleObject(done, INFINITE);
    WaitForThreadpoolWorkCallbacks(second, FALSE);
    return 0;
}

/* packet_short: Two workers take packets from a port, and each ends at a packet of key 0. One is posted for each that has begun once the
 * work is done. With FIX one for each. */

enum { PACKETS = 3 };

static HANDLE port;
static volatile LONG begun, packets_left = PACKETS;

static DWORD WINAPI take_packets(LPVOID unused)
{
    UNUSED(unused);
    InterlockedIncrement(&begun);
    for (;;) {
        DWORD bytes;
        ULONG_PTR key;
        LPOVERLAPPED overlapped;
        EXPECT(GetQueuedCompletionStatus(port, &bytes, &key, &overlapped, INFINITE));
        if (key == 0)
            return 0;
        if (InterlockedDecrement(&packets_left) == 0)
            SetEvent(all_done);
    }
}

int main_of_packet_short(void)
{
    HANDLE threads[WORKERS];
    all_done = CreateEventA(NULL, TRUE, FALSE, NULL);
    port = CreateIoCompletionPort(INVALID_HANDLE_VALUE, NULL, 0, 0);
    for (int i = 0; i < WORKERS; i++)
        threads[i] = begin(take_packets, NULL);
    for (int i = 0; i < PACKETS; i++)
        PostQueuedCompletionStatus(port, 0, 1, NULL);
    WaitForSingleObject(all_done, INFINITE);
#ifdef FIX
    const LONG ends = WORKERS;
#else
    const LONG ends = begun;
#endif
    for (LONG i = 0; i < ends; i++)
        PostQueuedCompletionStatus(port, 0, 0, NULL);
    await_all(threads, WORKERS);
    return 0;
}

/* semaphore_short: To end two workers, as many places are released as workers are idle: one that is not idle yet waits for good. With FIX
 * as many as there are. */

enum { JOBS = 4 };

static HANDLE items;
static volatile LONG idle, left = JOBS, quits;

static DWORD WINAPI take_items(LPVOID unused)
{
    UNUSED(unused);
    for (;;) {
        InterlockedIncrement(&idle);
        WaitForSingleObject(items, INFINITE);
        InterlockedDecrement(&idle);
        if (quits)
            return 0;
        if (InterlockedDecrement(&left) == 0)
            SetEvent(all_done);
    }
}

int main_of_semaphore_short(void)
{
    HANDLE threads[WORKERS];
    items = CreateSemaphoreA(NULL, 0, 100, NULL);
    all_done = CreateEventA(NULL, TRUE, FALSE, NULL);
    for (int i = 0; i < WORKERS; i++)
        threads[i] = begin(take_items, NULL);
    for (int i = 0; i < JOBS; i++)
        ReleaseSemaphore(items, 1, NULL);
    WaitForSingleObject(all_done, INFINITE);
    quits = 1;
#ifdef FIX
    ReleaseSemaphore(items, WORKERS, NULL);
#else
    const LONG count = idle;
    if (count > 0)
        ReleaseSemaphore(items, count, NULL);
#endif
    await_all(threads, WORKERS);
    return 0;
}

/* timer_against_delete: A timer is deleted, and what its callback uses is taken away at once, while the callback may run. With FIX who
 * deletes waits for it. */

static volatile LONG is_there = 1;
static CRITICAL_SECTION lock;

static VOID CALLBACK tick(PVOID unused, BOOLEAN timed_out)
{
    UNUSED(unused);
    UNUSED(timed_out);
    EnterCriticalSection(&lock);
    EXPECT(is_there);
    LeaveCriticalSection(&lock);
}

int main_of_timer_against_delete(void)
{
    HANDLE timer = NULL;
    InitializeCriticalSection(&lock);
    CreateTimerQueueTimer(&timer, NULL, tick, NULL, 5, 0, 0);
    Sleep(5);
#ifdef FIX
    DeleteTimerQueueTimer(NULL, timer, INVALID_HANDLE_VALUE);
#else
    DeleteTimerQueueTimer(NULL, timer, NULL);
#endif
    is_there = 0;
    Sleep(20);
    return 0;
}
