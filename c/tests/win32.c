/* Each call of ntwin.h: what it answers, and the last error, row by row. The values are those of Microsoft's pages and docs/WIN32.md. */
#include <windows.h>

#include "check.h"

#include <pthread.h>
#include <stdlib.h>

/* A creation that is accepted, and tells that nothing was there before. */
#define CREATES(handle, call) \
    do { \
        SetLastError(UNTOUCHED); \
        handle = (call); \
        IS(handle != NULL, 1); \
        IS(GetLastError(), ERROR_SUCCESS); \
    } while (0)

#define NO_CREATION(call, error) ANSWERS((call) == NULL, 1, error)

static HANDLE const NO_SUCH = (HANDLE)(uintptr_t)0x3FF00;

static void events(void)
{
    HANDLE event, gate, weak;
    CREATES(event, CreateEvent(NULL, FALSE, TRUE, NULL));
    CREATES(gate, CreateEventW(NULL, TRUE, FALSE, NULL));
    NO_CREATION(CreateEventExA(NULL, NULL, 4, EVENT_ALL_ACCESS), ERROR_INVALID_PARAMETER);
    ANSWERS(WaitForSingleObject(event, 0), WAIT_OBJECT_0, UNTOUCHED);
    ANSWERS(WaitForSingleObject(event, 0), WAIT_TIMEOUT, UNTOUCHED);
    ANSWERS(SetEvent(gate), TRUE, UNTOUCHED);
    ANSWERS(WaitForSingleObject(gate, INFINITE), WAIT_OBJECT_0, UNTOUCHED);
    ANSWERS(ResetEvent(gate), TRUE, UNTOUCHED);
    ANSWERS(WaitForSingleObject(gate, 0), WAIT_TIMEOUT, UNTOUCHED);
    ANSWERS(PulseEvent(gate), TRUE, UNTOUCHED);
    ANSWERS(WaitForSingleObject(gate, 0), WAIT_TIMEOUT, UNTOUCHED);
    ANSWERS(SetEvent(NULL), FALSE, ERROR_INVALID_HANDLE);
    ANSWERS(ResetEvent(NO_SUCH), FALSE, ERROR_INVALID_HANDLE);
    ANSWERS(PulseEvent(INVALID_HANDLE_VALUE), FALSE, ERROR_INVALID_HANDLE);
    ANSWERS(SetEvent(GetCurrentThread()), FALSE, ERROR_INVALID_HANDLE);
    CREATES(weak, CreateEventExW(NULL, NULL, CREATE_EVENT_INITIAL_SET, SYNCHRONIZE));
    ANSWERS(SetEvent(weak), FALSE, ERROR_ACCESS_DENIED);
    ANSWERS(WaitForSingleObject(weak, 0), WAIT_OBJECT_0, UNTOUCHED);
    CREATES(weak, CreateEventEx(NULL, NULL, 0, EVENT_MODIFY_STATE));
    ANSWERS(SetEvent(weak), TRUE, UNTOUCHED);
    ANSWERS(WaitForSingleObject(weak, 0), WAIT_FAILED, ERROR_ACCESS_DENIED);
}

static void semaphores(void)
{
    HANDLE semaphore;
    LONG previous = -1;
    CREATES(semaphore, CreateSemaphore(NULL, 1, 3, NULL));
    NO_CREATION(CreateSemaphore(NULL, 4, 3, NULL), ERROR_INVALID_PARAMETER);
    NO_CREATION(CreateSemaphore(NULL, 0, 0, NULL), ERROR_INVALID_PARAMETER);
    NO_CREATION(CreateSemaphoreEx(NULL, 0, 1, NULL, 1, SEMAPHORE_ALL_ACCESS), ERROR_INVALID_PARAMETER);
    ANSWERS(ReleaseSemaphore(semaphore, 2, &previous), TRUE, UNTOUCHED);
    IS(previous, 1);
    ANSWERS(ReleaseSemaphore(semaphore, 1, &previous), FALSE, ERROR_TOO_MANY_POSTS);
    IS(previous, 1);
    ANSWERS(ReleaseSemaphore(semaphore, 0, NULL), FALSE, ERROR_INVALID_PARAMETER);
    ANSWERS(ReleaseSemaphore(NULL, 1, NULL), FALSE, ERROR_INVALID_HANDLE);
    ANSWERS(WaitForSingleObject(semaphore, 0), WAIT_OBJECT_0, UNTOUCHED);
    ANSWERS(ReleaseSemaphore(semaphore, 1, NULL), TRUE, UNTOUCHED);
}

static DWORD release(LPVOID mutex)
{
    ANSWERS(ReleaseMutex(mutex), FALSE, ERROR_NOT_OWNER);
    ANSWERS(WaitForSingleObject(mutex, 0), WAIT_TIMEOUT, UNTOUCHED);
    return 0;
}

static DWORD abandon(LPVOID mutex)
{
    ANSWERS(WaitForSingleObject(mutex, 0), WAIT_OBJECT_0, UNTOUCHED);
    ExitThread(7);
}

/* Runs this in a thread of its own, to its end. */
static void run(LPTHREAD_START_ROUTINE start, LPVOID parameter)
{
    HANDLE thread = CreateThread(NULL, 0, start, parameter, 0, NULL);
    const DWORD status = WaitForSingleObject(thread, INFINITE);
    IS(thread != NULL, 1);
    IS(status, WAIT_OBJECT_0);
    ANSWERS(QueueUserAPC((PAPCFUNC)(uintptr_t)1, thread, 0), 0, ERROR_GEN_FAILURE);
    IS(CloseHandle(thread), TRUE);
}

static void mutexes(void)
{
    HANDLE mutex, other, both[2];
    CREATES(mutex, CreateMutex(NULL, TRUE, NULL));
    CREATES(other, CreateMutexExW(NULL, NULL, 0, MUTEX_ALL_ACCESS));
    NO_CREATION(CreateMutexEx(NULL, NULL, 2, MUTEX_ALL_ACCESS), ERROR_INVALID_PARAMETER);
    run(release, mutex);
    ANSWERS(WaitForSingleObject(mutex, 0), WAIT_OBJECT_0, UNTOUCHED);
    ANSWERS(ReleaseMutex(mutex), TRUE, UNTOUCHED);
    ANSWERS(ReleaseMutex(mutex), TRUE, UNTOUCHED);
    ANSWERS(ReleaseMutex(mutex), FALSE, ERROR_NOT_OWNER);
    ANSWERS(ReleaseMutex(NULL), FALSE, ERROR_INVALID_HANDLE);
    run(abandon, mutex);
    ANSWERS(WaitForSingleObject(mutex, 0), WAIT_ABANDONED, UNTOUCHED);
    ANSWERS(ReleaseMutex(mutex), TRUE, UNTOUCHED);
    run(abandon, other);
    both[0] = mutex;
    both[1] = other;
    ANSWERS(WaitForSingleObject(mutex, 0), WAIT_OBJECT_0, UNTOUCHED);
    ANSWERS(ReleaseMutex(mutex), TRUE, UNTOUCHED);
    ANSWERS(WaitForMultipleObjects(2, both, FALSE, 0), WAIT_OBJECT_0, UNTOUCHED);
    ANSWERS(WaitForMultipleObjects(1, both + 1, FALSE, 0), WAIT_ABANDONED_0, UNTOUCHED);
}

static void lists_of_objects(void)
{
    HANDLE objects[65];
    for (int i = 0; i < 65; i++)
        objects[i] = CreateEvent(NULL, TRUE, i == 63, NULL);
    ANSWERS(WaitForMultipleObjects(64, objects, FALSE, 0), WAIT_OBJECT_0 + 63, UNTOUCHED);
    ANSWERS(WaitForMultipleObjects(64, objects, TRUE, 0), WAIT_TIMEOUT, UNTOUCHED);
    ANSWERS(WaitForMultipleObjects(65, objects, FALSE, 0), WAIT_FAILED, ERROR_INVALID_PARAMETER);
    ANSWERS(WaitForMultipleObjects(0, objects, FALSE, 0), WAIT_FAILED, ERROR_INVALID_PARAMETER);
    ANSWERS(WaitForMultipleObjects(1, NULL, FALSE, 0), WAIT_FAILED, ERROR_INVALID_PARAMETER);
    objects[1] = objects[0];
    ANSWERS(WaitForMultipleObjects(2, objects, FALSE, 0), WAIT_FAILED, ERROR_INVALID_PARAMETER);
    objects[1] = NO_SUCH;
    ANSWERS(WaitForMultipleObjects(2, objects, TRUE, 0), WAIT_FAILED, ERROR_INVALID_HANDLE);
    ANSWERS(WaitForSingleObjectEx(objects[63], 0, FALSE), WAIT_OBJECT_0, UNTOUCHED);
    ANSWERS(WaitForMultipleObjectsEx(1, objects + 63, TRUE, 20, TRUE), WAIT_OBJECT_0, UNTOUCHED);
    ANSWERS(SignalObjectAndWait(objects[0], objects[63], 0, FALSE), WAIT_OBJECT_0, UNTOUCHED);
    ANSWERS(WaitForSingleObject(objects[0], 0), WAIT_OBJECT_0, UNTOUCHED);
    ANSWERS(SignalObjectAndWait(objects[0], objects[2], 5, FALSE), WAIT_TIMEOUT, UNTOUCHED);
    ANSWERS(SignalObjectAndWait(NULL, objects[63], 0, FALSE), WAIT_FAILED, ERROR_INVALID_HANDLE);
}

static ULONG_PTR ADDED;

static void add(ULONG_PTR more)
{
    ADDED = ADDED * 10 + more;
}

/* An APC that waits, and queues another: both run, in order, in the wait that ends for them. */
static void add_and_wait(ULONG_PTR more)
{
    add(more);
    Sleep(0);
    IS(QueueUserAPC(add, GetCurrentThread(), more + 1) != 0, 1);
}

static void apcs(void)
{
    ANSWERS(QueueUserAPC(add, GetCurrentThread(), 1) != 0, 1, UNTOUCHED);
    ANSWERS(QueueUserAPC(add_and_wait, GetCurrentThread(), 3) != 0, 1, UNTOUCHED);
    ANSWERS(QueueUserAPC(add, GetCurrentThread(), 2) != 0, 1, UNTOUCHED);
    ANSWERS(SleepEx(0, FALSE), 0, UNTOUCHED);
    IS(ADDED, 0);
    ANSWERS(SleepEx(INFINITE, TRUE), WAIT_IO_COMPLETION, UNTOUCHED);
    IS(ADDED, 1324);
    ANSWERS(SleepEx(1, TRUE), 0, UNTOUCHED);
    ANSWERS(QueueUserAPC(add, NULL, 1), 0, ERROR_INVALID_HANDLE);
    ANSWERS(QueueUserAPC(NULL, GetCurrentThread(), 1), 0, ERROR_INVALID_PARAMETER);
}

static uint64_t TOLD;

static void expired(LPVOID count, DWORD low, DWORD high)
{
    ++*(int *)count;
    TOLD = (uint64_t)high << 32 | low;
}

static void timers(void)
{
    HANDLE timer;
    FILETIME now;
    int count = 0;
    LARGE_INTEGER soon = { .QuadPart = -50000 }, late = { .QuadPart = -600 * INT64_C(10000000) }, past = { .QuadPart = 0 }, at;
    CREATES(timer, CreateWaitableTimer(NULL, TRUE, NULL));
    NO_CREATION(CreateWaitableTimerEx(NULL, NULL, 2, TIMER_ALL_ACCESS), ERROR_INVALID_PARAMETER);
    ANSWERS(WaitForSingleObject(timer, 0), WAIT_TIMEOUT, UNTOUCHED);
    const DWORD began = timeGetTime();
    ANSWERS(SetWaitableTimer(timer, &soon, 0, NULL, NULL, FALSE), TRUE, UNTOUCHED);
    ANSWERS(WaitForSingleObject(timer, INFINITE), WAIT_OBJECT_0, UNTOUCHED);
    IS(timeGetTime() - began >= 4, 1);
    ANSWERS(SetWaitableTimer(timer, &late, 0, NULL, NULL, FALSE), TRUE, UNTOUCHED);
    ANSWERS(WaitForSingleObject(timer, 1), WAIT_TIMEOUT, UNTOUCHED);
    ANSWERS(SetWaitableTimer(timer, &past, 0, NULL, NULL, FALSE), TRUE, UNTOUCHED);
    ANSWERS(WaitForSingleObject(timer, 0), WAIT_OBJECT_0, UNTOUCHED);
    GetSystemTimeAsFileTime(&now);
    at.QuadPart = (LONGLONG)((uint64_t)now.dwHighDateTime << 32 | now.dwLowDateTime) + 50000;
    ANSWERS(SetWaitableTimerEx(timer, &at, 0, expired, &count, NULL, 0), TRUE, UNTOUCHED);
    ANSWERS(SleepEx(INFINITE, TRUE), WAIT_IO_COMPLETION, UNTOUCHED);
    IS(count, 1);
    IS(TOLD + 100000000 > (uint64_t)at.QuadPart && TOLD < (uint64_t)at.QuadPart + 100000000, 1);
    ANSWERS(SetWaitableTimer(timer, &soon, 2, expired, &count, FALSE), TRUE, UNTOUCHED);
    while (count < 4)
        IS(SleepEx(INFINITE, TRUE), WAIT_IO_COMPLETION);
    ANSWERS(CancelWaitableTimer(timer), TRUE, UNTOUCHED);
    ANSWERS(CancelWaitableTimer(NULL), FALSE, ERROR_INVALID_HANDLE);
    ANSWERS(SetWaitableTimer(NULL, &soon, 0, NULL, NULL, FALSE), FALSE, ERROR_INVALID_HANDLE);
    ANSWERS(SetWaitableTimer(timer, NULL, 0, NULL, NULL, FALSE), FALSE, ERROR_INVALID_PARAMETER);
    ANSWERS(SetWaitableTimer(timer, &soon, -1, NULL, NULL, FALSE), FALSE, ERROR_INVALID_PARAMETER);
}

static DWORD tell_id(LPVOID at)
{
    *(DWORD *)at = GetCurrentThreadId();
    return 0;
}

static void threads(void)
{
    DWORD told = 0, id = 0;
    HANDLE thread;
    IS(GetCurrentThreadId() != 0, 1);
    IS(GetCurrentProcessId() != 0, 1);
    thread = CreateThread(NULL, 1, tell_id, &told, STACK_SIZE_PARAM_IS_A_RESERVATION, &id);
    IS(WaitForSingleObject(thread, INFINITE), WAIT_OBJECT_0);
    IS(told, id);
    IS(id != GetCurrentThreadId(), 1);
    NO_CREATION(CreateThread(NULL, 0, NULL, NULL, 0, NULL), ERROR_INVALID_PARAMETER);
    NO_CREATION(CreateThread(NULL, 0, tell_id, NULL, 0x8, NULL), ERROR_INVALID_PARAMETER);
    ANSWERS(TerminateProcess(NULL, 0), FALSE, ERROR_INVALID_HANDLE);
    ANSWERS(WaitForSingleObject(GetCurrentThread(), 0), WAIT_TIMEOUT, UNTOUCHED);
}

static void handles(void)
{
    HANDLE process = GetCurrentProcess(), event = CreateEvent(NULL, FALSE, FALSE, NULL), same, weak, self;
    ANSWERS(DuplicateHandle(process, event, process, &same, 0, FALSE, DUPLICATE_SAME_ACCESS), TRUE, UNTOUCHED);
    ANSWERS(SetEvent(same), TRUE, UNTOUCHED);
    ANSWERS(WaitForSingleObject(event, 0), WAIT_OBJECT_0, UNTOUCHED);
    ANSWERS(DuplicateHandle(process, event, process, &weak, SYNCHRONIZE, FALSE, 0), TRUE, UNTOUCHED);
    ANSWERS(SetEvent(weak), FALSE, ERROR_ACCESS_DENIED);
    ANSWERS(DuplicateHandle(process, weak, process, &same, EVENT_MODIFY_STATE, FALSE, 0), FALSE, ERROR_ACCESS_DENIED);
    ANSWERS(DuplicateHandle(process, GetCurrentThread(), process, &self, 0, FALSE, DUPLICATE_SAME_ACCESS), TRUE, UNTOUCHED);
    ANSWERS(WaitForSingleObject(self, 0), WAIT_TIMEOUT, UNTOUCHED);
    ANSWERS(QueueUserAPC(add, self, 0) != 0, 1, UNTOUCHED);
    ANSWERS(SleepEx(0, TRUE), WAIT_IO_COMPLETION, UNTOUCHED);
    ANSWERS(DuplicateHandle(NULL, event, process, &same, 0, FALSE, DUPLICATE_SAME_ACCESS), FALSE, ERROR_INVALID_HANDLE);
    ANSWERS(DuplicateHandle(process, NULL, process, &same, 0, FALSE, DUPLICATE_SAME_ACCESS), FALSE, ERROR_INVALID_HANDLE);
    ANSWERS(DuplicateHandle(process, weak, process, NULL, 0, FALSE, DUPLICATE_CLOSE_SOURCE), TRUE, UNTOUCHED);
    ANSWERS(CloseHandle(weak), FALSE, ERROR_INVALID_HANDLE);
    ANSWERS(CloseHandle(event), TRUE, UNTOUCHED);
    ANSWERS(CloseHandle(event), FALSE, ERROR_INVALID_HANDLE);
    ANSWERS(SetEvent(event), FALSE, ERROR_INVALID_HANDLE);
    ANSWERS(WaitForSingleObject(event, 0), WAIT_FAILED, ERROR_INVALID_HANDLE);
    ANSWERS(CloseHandle(NULL), FALSE, ERROR_INVALID_HANDLE);
    ANSWERS(CloseHandle(NO_SUCH), FALSE, ERROR_INVALID_HANDLE);
    ANSWERS(CloseHandle(process), TRUE, UNTOUCHED);
}

static void clocks_and_interlocked(void)
{
    LARGE_INTEGER first, second, frequency;
    LONG number = 5;
    PVOID pointer = NULL;
    IS(QueryPerformanceFrequency(&frequency), TRUE);
    IS(QueryPerformanceCounter(&first), TRUE);
    Sleep(3);
    IS(QueryPerformanceCounter(&second), TRUE);
    IS((second.QuadPart - first.QuadPart) * 1000 >= 3 * frequency.QuadPart, 1);
    IS(GetTickCount() - (DWORD)GetTickCount64() <= 1000 || (DWORD)GetTickCount64() - GetTickCount() <= 1000, 1);
    IS(InterlockedIncrement(&number), 6);
    IS(InterlockedDecrement(&number), 5);
    IS(InterlockedExchangeAdd(&number, 4), 5);
    IS(InterlockedExchange(&number, 1), 9);
    IS(InterlockedCompareExchange(&number, 7, 2), 1);
    IS(InterlockedCompareExchange(&number, 7, 1), 1);
    IS(number, 7);
    IS(InterlockedCompareExchangePointer(&pointer, (PVOID)&number, NULL) == NULL, 1);
    IS(pointer == &number, 1);
}

static void *join_and_end(void *answer)
{
    SetLastError(UNTOUCHED);
    *(DWORD *)answer = WaitForSingleObject(GetCurrentThread(), 0) == WAIT_TIMEOUT ? ERROR_SUCCESS : GetLastError();
    return NULL;
}

/* Threads that CreateThread did not make join by their first call, and give their places back as they end. */
static void joining_threads(void)
{
    DWORD answer = ERROR_SUCCESS;
    int joined = 0;
    while (answer == ERROR_SUCCESS && joined < 300) {
        pthread_t thread;
        if (pthread_create(&thread, NULL, join_and_end, &answer) != 0)
            abort();
        pthread_join(thread, NULL);
        joined += answer == ERROR_SUCCESS;
    }
    IS(answer, ERROR_SUCCESS);
    IS(joined, 300);
}

int main(void)
{
    events();
    semaphores();
    mutexes();
    lists_of_objects();
    apcs();
    timers();
    threads();
    handles();
    clocks_and_interlocked();
    joining_threads();
    return counted();
}
