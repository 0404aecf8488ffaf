/* Programs that hang in another order of their calls than that in which they are run here: a journal's lines are explored. The first word says which:
 *   pulse   a pulse comes before the wait that it is to end
 *   locks   two threads take two locks, each another one first
 *   owner   who owns a mutex waits for a thread that takes it once more
 * (What orders this run are no calls of the library, so that the journal has nothing of it.) */
#define _GNU_SOURCE

#include <windows.h>

#include <process.h>
#include <stdatomic.h>
#include <stdint.h>

#include "../asleep.h"

static HANDLE go, locks[2];
static atomic_int task, is_done;

static HANDLE begin(_beginthreadex_proc_type run, intptr_t at)
{
    return (HANDLE)_beginthreadex(NULL, 0, run, (void *)at, 0, NULL);
}

static void wait_for(atomic_int *it)
{
    while (atomic_load(it) == 0)
        usleep(1000);
}

static unsigned __stdcall await_pulse(void *unused)
{
    (void)unused;
    atomic_store(&task, gettid());
    WaitForSingleObject(go, INFINITE);
    return 0;
}

static void pulse(void)
{
    go = CreateEventA(NULL, TRUE, FALSE, NULL);
    HANDLE worker = begin(await_pulse, 0);
    wait_for(&task);
    wait_until_asleep(atomic_load(&task));
    PulseEvent(go);
    WaitForSingleObject(worker, INFINITE);
    CloseHandle(worker);
}

static unsigned __stdcall take_both(void *at)
{
    HANDLE first = locks[(intptr_t)at], second = locks[1 - (intptr_t)at];
    WaitForSingleObject(first, INFINITE);
    WaitForSingleObject(second, INFINITE);
    ReleaseMutex(second);
    ReleaseMutex(first);
    atomic_store(&is_done, 1);
    return 0;
}

static void lock_both(void)
{
    HANDLE threads[2];
    for (int i = 0; i < 2; i++)
        locks[i] = CreateMutexA(NULL, FALSE, NULL);
    threads[0] = begin(take_both, 0);
    wait_for(&is_done);
    threads[1] = begin(take_both, 1);
    WaitForMultipleObjects(2, threads, TRUE, INFINITE);
}

static unsigned __stdcall write_log(void *unused)
{
    (void)unused;
    WaitForSingleObject(locks[0], INFINITE);
    ReleaseMutex(locks[0]);
    atomic_store(&is_done, 1);
    return 0;
}

static void own(void)
{
    locks[0] = CreateMutexA(NULL, TRUE, NULL);
    ReleaseMutex(locks[0]);
    HANDLE logger = begin(write_log, 0);
    wait_for(&is_done);
    WaitForSingleObject(locks[0], INFINITE);
    WaitForSingleObject(logger, INFINITE);
    ReleaseMutex(locks[0]);
    CloseHandle(logger);
}

int main(int count, char **words)
{
    static void (*const programs[])(void) = { pulse, lock_both, own };
    static const char *const names[] = { "pulse", "locks", "owner" };
    for (int i = 0; i < 3; i++)
        if (count > 1 && strcmp(words[1], names[i]) == 0)
            programs[i]();
    return 0;
}
