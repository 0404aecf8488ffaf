/* Programs with a fault in what they do with locks. The main function of the program NAME is main_of_NAME. */
#include "explored.h"

static HANDLE mutex;

/* abandoned_mutex: A thread ends in the middle of a change, with the mutex, if another asked it to: the next owner goes on as if all were
 * well. With FIX it looks at what its wait answers, and mends what was left. */

static volatile LONG stops, left_side, right_side;

static DWORD WINAPI change(LPVOID unused)
{
    UNUSED(unused);
    WaitForSingleObject(mutex, INFINITE);
    left_side++;
    SwitchToThread();
    if (stops)
        return 1;
    right_side++;
    ReleaseMutex(mutex);
    return 0;
}

int main_of_abandoned_mutex(void)
{
    mutex = CreateMutexA(NULL, FALSE, NULL);
    HANDLE worker = begin(change, NULL);
    stops = 1;
    const DWORD status = WaitForSingleObject(mutex, INFINITE);
#ifdef FIX
    if (status == WAIT_ABANDONED)
        right_side = left_side;
#else
    UNUSED(status);
#endif
    EXPECT(left_side == right_side);
    ReleaseMutex(mutex);
    WaitForSingleObject(worker, INFINITE);
    return 0;
}

/* lost_update: A sum is read under the lock, and written under it, but the lock is free between. With FIX it is not. */

enum { WORKERS = 2, ROUNDS = 3 };

static long sum;

static DWORD WINAPI add(LPVOID unused)
{
    UNUSED(unused);
    for (int i = 0; i < ROUNDS; i++) {
        WaitForSingleObject(mutex, INFINITE);
        const long read = sum;
#ifndef FIX
        ReleaseMutex(mutex);
        WaitForSingleObject(mutex, INFINITE);
#endif
        sum = read + 1;
        ReleaseMutex(mutex);
    }
    return 0;
}

int main_of_lost_update(void)
{
    HANDLE threads[WORKERS];
    mutex = CreateMutexA(NULL, FALSE, NULL);
    for (int i = 0; i < WORKERS; i++)
        threads[i] = begin(add, NULL);
    await_all(threads, WORKERS);
    EXPECT(sum == WORKERS * ROUNDS);
    return 0;
}

/* shutdown_race: A worker sleeps until there is work or the end; the end is said without the lock, between its look and its sleep. With FIX
 * it is said under it. */

static CRITICAL_SECTION section;
static CONDITION_VARIABLE changed = CONDITION_VARIABLE_INIT;
static volatile LONG ends;

static DWORD WINAPI work_until_end(LPVOID unused)
{
    UNUSED(unused);
    EnterCriticalSection(&section);
    while (!ends)
        SleepConditionVariableCS(&changed, &section, INFINITE);
    LeaveCriticalSection(&section);
    return 0;
}

int main_of_shutdown_race(void)
{
    InitializeCriticalSection(&section);
    HANDLE worker = begin(work_until_end, NULL);
#ifdef FIX
    EnterCriticalSection(&section);
#endif
    ends = 1;
#ifdef FIX
    LeaveCriticalSection(&section);
#endif
    WakeAllConditionVariable(&changed);
    WaitForSingleObject(worker, INFINITE);
    return 0;
}

/* missed_signal: A flag is looked at before the lock is taken, so the wake may come before the sleep. With FIX it is looked at in a loop,
 * under the lock. */

static SRWLOCK lock = SRWLOCK_INIT;
static CONDITION_VARIABLE filled = CONDITION_VARIABLE_INIT;
static volatile LONG is_filled;

static DWORD WINAPI fill(LPVOID unused)
{
    UNUSED(unused);
    AcquireSRWLockExclusive(&lock);
    is_filled = 1;
    ReleaseSRWLockExclusive(&lock);
    WakeConditionVariable(&filled);
    return 0;
}

int main_of_missed_signal(void)
{
    HANDLE filler = begin(fill, NULL);
#ifdef FIX
    AcquireSRWLockExclusive(&lock);
    while (!is_filled)
        SleepConditionVariableSRW(&filled, &lock, INFINITE, 0);
    ReleaseSRWLockExclusive(&lock);
#else
    if (!is_filled) {
        AcquireSRWLockExclusive(&lock);
        SleepConditionVariableSRW(&filled, &lock, INFINITE, 0);
        ReleaseSRWLockExclusive(&lock);
    }
#endif
    WaitForSingleObject(filler, INFINITE);
    return 0;
}

/* once_that_fails: The first try to initialize fails where another thread is not ready, and who tried goes on without what it should have
 * made. With FIX it tries again. */

static INIT_ONCE once = INIT_ONCE_STATIC_INIT;
static volatile LONG is_ready;
static int made;
static int *volatile value;

static BOOL CALLBACK make(PINIT_ONCE unused, PVOID parameter, PVOID *context)
{
    UNUSED(unused);
    UNUSED(parameter);
    UNUSED(context);
    if (!is_ready)
        return FALSE;
    value = &made;
    return TRUE;
}

static DWORD WINAPI use_value(LPVOID unused)
{
    UNUSED(unused);
#ifdef FIX
    while (!InitOnceExecuteOnce(&once, make, NULL, NULL))
        SwitchToThread();
#else
    InitOnceExecuteOnce(&once, make, NULL, NULL);
#endif
    EXPECT(value != NULL);
    return 0;
}

int main_of_once_that_fails(void)
{
    HANDLE event = CreateEventA(NULL, TRUE, FALSE, NULL), threads[2] = { begin(use_value, NULL), NULL };
    SetEvent(event);
    is_ready = 1;
    threads[1] = begin(use_value, NULL);
    await_all(threads, 2);
    return 0;
}
