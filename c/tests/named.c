/* Names of objects in the process: what each creation and opening answers with its last error, row by row, and by many threads. */
#include <windows.h>

#include "check.h"

#include <pthread.h>

enum { THREADS = 4, ROUNDS = 1000 };

/* A creation or opening that answers a handle, and leaves this last error. */
#define GETS(handle, call, error) \
    do { \
        SetLastError(UNTOUCHED); \
        handle = (call); \
        IS(handle != NULL, 1); \
        IS(GetLastError(), error); \
    } while (0)

#define GETS_NONE(call, error) ANSWERS(call, NULL, error)

static void events(void)
{
    HANDLE first, second, third;
    GETS_NONE(OpenEventA(SYNCHRONIZE, FALSE, "event"), ERROR_FILE_NOT_FOUND);
    GETS(first, CreateEventA(NULL, TRUE, FALSE, "event"), ERROR_SUCCESS);
    GETS(second, CreateEventW(NULL, FALSE, TRUE, L"event"), ERROR_ALREADY_EXISTS);
    IS(first != second, 1);
    /* It is as the first creation made it. */
    ANSWERS(WaitForSingleObject(second, 0), WAIT_TIMEOUT, UNTOUCHED);
    ANSWERS(SetEvent(first), TRUE, UNTOUCHED);
    ANSWERS(WaitForSingleObject(second, 0), WAIT_OBJECT_0, UNTOUCHED);
    ANSWERS(WaitForSingleObject(second, 0), WAIT_OBJECT_0, UNTOUCHED);
    GETS(third, OpenEventW(SYNCHRONIZE, FALSE, L"event"), UNTOUCHED);
    ANSWERS(SetEvent(third), FALSE, ERROR_ACCESS_DENIED);
    ANSWERS(WaitForSingleObject(third, 0), WAIT_OBJECT_0, UNTOUCHED);
    ANSWERS(CloseHandle(third), TRUE, UNTOUCHED);
    GETS(third, OpenEvent(EVENT_ALL_ACCESS, FALSE, "event"), UNTOUCHED);
    ANSWERS(ResetEvent(third), TRUE, UNTOUCHED);
    ANSWERS(WaitForSingleObject(first, 0), WAIT_TIMEOUT, UNTOUCHED);
    GETS_NONE(OpenEventA(SYNCHRONIZE, FALSE, "Event"), ERROR_FILE_NOT_FOUND);
    /* The name goes with the last handle. */
    ANSWERS(CloseHandle(first), TRUE, UNTOUCHED);
    ANSWERS(CloseHandle(second), TRUE, UNTOUCHED);
    GETS(second, OpenEventA(SYNCHRONIZE, FALSE, "event"), UNTOUCHED);
    ANSWERS(CloseHandle(second), TRUE, UNTOUCHED);
    ANSWERS(DuplicateHandle(GetCurrentProcess(), third, GetCurrentProcess(), &first, 0, FALSE,
                            DUPLICATE_SAME_ACCESS | DUPLICATE_CLOSE_SOURCE), TRUE, UNTOUCHED);
    GETS(second, OpenEventA(SYNCHRONIZE, FALSE, "event"), UNTOUCHED);
    ANSWERS(CloseHandle(second), TRUE, UNTOUCHED);
    ANSWERS(CloseHandle(first), TRUE, UNTOUCHED);
    GETS_NONE(OpenEventA(SYNCHRONIZE, FALSE, "event"), ERROR_FILE_NOT_FOUND);
    GETS(first, CreateEventA(NULL, FALSE, TRUE, "event"), ERROR_SUCCESS);
    ANSWERS(WaitForSingleObject(first, 0), WAIT_OBJECT_0, UNTOUCHED);
    ANSWERS(WaitForSingleObject(first, 0), WAIT_TIMEOUT, UNTOUCHED);
    ANSWERS(CloseHandle(first), TRUE, UNTOUCHED);
    GETS_NONE(CreateEventExA(NULL, "event", 4, EVENT_ALL_ACCESS), ERROR_INVALID_PARAMETER);
    GETS(first, CreateEventExW(NULL, L"event", CREATE_EVENT_MANUAL_RESET, SYNCHRONIZE), ERROR_SUCCESS);
    ANSWERS(SetEvent(first), FALSE, ERROR_ACCESS_DENIED);
    GETS(second, OpenEventA(EVENT_MODIFY_STATE, FALSE, "event"), UNTOUCHED);
    ANSWERS(SetEvent(second), TRUE, UNTOUCHED);
    ANSWERS(WaitForSingleObject(second, 0), WAIT_FAILED, ERROR_ACCESS_DENIED);
    CloseHandle(first);
    CloseHandle(second);
}

/* The kinds share their names. */
static void other_kinds(void)
{
    HANDLE semaphore, mutex, timer, same;
    LONG before = 0;
    LARGE_INTEGER due = { .QuadPart = -1 };
    GETS(semaphore, CreateSemaphoreA(NULL, 1, 5, "semaphore"), ERROR_SUCCESS);
    GETS(mutex, CreateMutexA(NULL, TRUE, "mutex"), ERROR_SUCCESS);
    GETS(timer, CreateWaitableTimerA(NULL, TRUE, "timer"), ERROR_SUCCESS);
    GETS_NONE(CreateEventA(NULL, FALSE, FALSE, "mutex"), ERROR_INVALID_HANDLE);
    GETS_NONE(CreateMutexA(NULL, FALSE, "semaphore"), ERROR_INVALID_HANDLE);
    GETS_NONE(CreateSemaphoreW(NULL, 1, 1, L"timer"), ERROR_INVALID_HANDLE);
    GETS_NONE(CreateWaitableTimerW(NULL, TRUE, L"mutex"), ERROR_INVALID_HANDLE);
    GETS_NONE(OpenEventA(SYNCHRONIZE, FALSE, "mutex"), ERROR_INVALID_HANDLE);
    GETS_NONE(OpenMutexA(SYNCHRONIZE, FALSE, "timer"), ERROR_INVALID_HANDLE);
    GETS_NONE(OpenSemaphoreW(SYNCHRONIZE, FALSE, L"mutex"), ERROR_INVALID_HANDLE);
    GETS_NONE(OpenWaitableTimerW(SYNCHRONIZE, FALSE, L"semaphore"), ERROR_INVALID_HANDLE);
    GETS_NONE(CreateSemaphoreA(NULL, 2, 1, "semaphore"), ERROR_INVALID_PARAMETER);
    GETS(same, CreateSemaphoreW(NULL, 0, 9, L"semaphore"), ERROR_ALREADY_EXISTS);
    ANSWERS(ReleaseSemaphore(same, 5, NULL), FALSE, ERROR_TOO_MANY_POSTS);
    ANSWERS(ReleaseSemaphore(same, 4, &before), TRUE, UNTOUCHED);
    IS(before, 1);
    CloseHandle(same);
    GETS(same, OpenSemaphore(SEMAPHORE_ALL_ACCESS, FALSE, "semaphore"), UNTOUCHED);
    ANSWERS(WaitForSingleObject(same, 0), WAIT_OBJECT_0, UNTOUCHED);
    CloseHandle(same);
    CloseHandle(semaphore);
    /* (A mutex that was there before is not the caller's by this creation.) */
    ANSWERS(ReleaseMutex(mutex), TRUE, UNTOUCHED);
    GETS(same, CreateMutexW(NULL, TRUE, L"mutex"), ERROR_ALREADY_EXISTS);
    ANSWERS(ReleaseMutex(same), FALSE, ERROR_NOT_OWNER);
    CloseHandle(same);
    GETS(same, OpenMutex(MUTEX_ALL_ACCESS, FALSE, "mutex"), UNTOUCHED);
    ANSWERS(WaitForSingleObject(same, 0), WAIT_OBJECT_0, UNTOUCHED);
    ANSWERS(ReleaseMutex(mutex), TRUE, UNTOUCHED);
    CloseHandle(same);
    GETS(same, OpenMutexW(SYNCHRONIZE, FALSE, L"mutex"), UNTOUCHED);
    ANSWERS(WaitForSingleObject(same, 0), WAIT_OBJECT_0, UNTOUCHED);
    ANSWERS(ReleaseMutex(mutex), TRUE, UNTOUCHED);
    CloseHandle(same);
    GETS_NONE(OpenMutexW(SYNCHRONIZE, FALSE, L"Mutex"), ERROR_FILE_NOT_FOUND);
    CloseHandle(mutex);
    GETS(same, OpenWaitableTimer(TIMER_ALL_ACCESS, FALSE, "timer"), UNTOUCHED);
    ANSWERS(SetWaitableTimer(same, &due, 0, NULL, NULL, FALSE), TRUE, UNTOUCHED);
    ANSWERS(WaitForSingleObject(timer, 1000), WAIT_OBJECT_0, UNTOUCHED);
    CloseHandle(same);
    CloseHandle(timer);
}

/* Creations with flags and rights: an object that is there has its own count and kind, and the new handle the rights that are asked for. */
static void extended_creations(void)
{
    HANDLE semaphore, timer, same;
    LONG before = 9;
    LARGE_INTEGER due = { .QuadPart = 0 };
    GETS(semaphore, CreateSemaphoreExW(NULL, 2, 3, L"units", 0, SEMAPHORE_ALL_ACCESS), ERROR_SUCCESS);
    GETS(same, CreateSemaphoreExW(NULL, 0, 1, L"units", 0, SYNCHRONIZE), ERROR_ALREADY_EXISTS);
    ANSWERS(ReleaseSemaphore(same, 1, NULL), FALSE, ERROR_ACCESS_DENIED);
    ANSWERS(WaitForSingleObject(same, 0), WAIT_OBJECT_0, UNTOUCHED);
    ANSWERS(ReleaseSemaphore(semaphore, 2, &before), TRUE, UNTOUCHED);
    IS(before, 1);
    CloseHandle(same);
    GETS(same, CreateSemaphoreExW(NULL, 0, 1, L"units", 0, SEMAPHORE_MODIFY_STATE), ERROR_ALREADY_EXISTS);
    ANSWERS(WaitForSingleObject(same, 0), WAIT_FAILED, ERROR_ACCESS_DENIED);
    ANSWERS(ReleaseSemaphore(same, 1, NULL), FALSE, ERROR_TOO_MANY_POSTS);
    GETS_NONE(CreateSemaphoreExW(NULL, 1, 1, L"units", 1, SEMAPHORE_ALL_ACCESS), ERROR_INVALID_PARAMETER);
    GETS_NONE(CreateSemaphoreExW(NULL, 1, 0, NULL, 0, SEMAPHORE_ALL_ACCESS), ERROR_INVALID_PARAMETER);
    GETS_NONE(CreateWaitableTimerExW(NULL, L"units", 0, TIMER_ALL_ACCESS), ERROR_INVALID_HANDLE);
    CloseHandle(same);
    CloseHandle(semaphore);
    GETS(timer, CreateWaitableTimerExW(NULL, L"clock", CREATE_WAITABLE_TIMER_MANUAL_RESET, TIMER_ALL_ACCESS), ERROR_SUCCESS);
    GETS(same, CreateWaitableTimerExW(NULL, L"clock", 0, SYNCHRONIZE), ERROR_ALREADY_EXISTS);
    ANSWERS(SetWaitableTimer(same, &due, 0, NULL, NULL, FALSE), FALSE, ERROR_ACCESS_DENIED);
    ANSWERS(SetWaitableTimer(timer, &due, 0, NULL, NULL, FALSE), TRUE, UNTOUCHED);
    ANSWERS(WaitForSingleObject(same, INFINITE), WAIT_OBJECT_0, UNTOUCHED);
    ANSWERS(WaitForSingleObject(same, 0), WAIT_OBJECT_0, UNTOUCHED);
    GETS_NONE(CreateWaitableTimerExW(NULL, L"clock", 4, TIMER_ALL_ACCESS), ERROR_INVALID_PARAMETER);
    CloseHandle(same);
    CloseHandle(timer);
}

static void which_names(void)
{
    char longest[MAX_PATH + 2];
    HANDLE event, same, other;
    memset(longest, 'a', sizeof longest);
    longest[MAX_PATH + 1] = 0;
    GETS_NONE(CreateEventA(NULL, FALSE, FALSE, longest), ERROR_FILENAME_EXCED_RANGE);
    GETS_NONE(OpenEventA(SYNCHRONIZE, FALSE, longest), ERROR_FILENAME_EXCED_RANGE);
    longest[MAX_PATH] = 0;
    GETS(event, CreateEventA(NULL, FALSE, FALSE, longest), ERROR_SUCCESS);
    GETS(same, OpenEventA(SYNCHRONIZE, FALSE, longest), UNTOUCHED);
    CloseHandle(event);
    CloseHandle(same);
    GETS_NONE(CreateEventA(NULL, FALSE, FALSE, "a\\b"), ERROR_PATH_NOT_FOUND);
    GETS_NONE(CreateEventA(NULL, FALSE, FALSE, "Local\\a\\b"), ERROR_PATH_NOT_FOUND);
    GETS_NONE(CreateMutexW(NULL, FALSE, L"Global\\"), ERROR_PATH_NOT_FOUND);
    GETS_NONE(OpenEventA(SYNCHRONIZE, FALSE, NULL), ERROR_INVALID_PARAMETER);
    GETS_NONE(OpenEventW(SYNCHRONIZE, FALSE, L""), ERROR_INVALID_HANDLE);
    /* An empty name is none. */
    GETS(event, CreateEventA(NULL, FALSE, FALSE, ""), ERROR_SUCCESS);
    GETS(other, CreateEventA(NULL, FALSE, FALSE, ""), ERROR_SUCCESS);
    CloseHandle(event);
    CloseHandle(other);
    /* Local\ is the same as no prefix, Global\ is apart. */
    GETS(event, CreateEventA(NULL, FALSE, FALSE, "Local\\place"), ERROR_SUCCESS);
    GETS(same, OpenEventA(SYNCHRONIZE, FALSE, "place"), UNTOUCHED);
    GETS_NONE(OpenEventA(SYNCHRONIZE, FALSE, "Global\\place"), ERROR_FILE_NOT_FOUND);
    GETS(other, CreateMutexA(NULL, FALSE, "Global\\place"), ERROR_SUCCESS);
    CloseHandle(event);
    CloseHandle(same);
    CloseHandle(other);
}

static LONG FIRSTS;

/* Each thread creates the same names, and adds 1 under the mutex that has one; the last handle's end is the name's. */
static long COUNTED;

static void *create_and_close(void *none)
{
    (void)none;
    for (int i = 0; i < ROUNDS; i++) {
        SetLastError(UNTOUCHED);
        HANDLE mutex = CreateMutexA(NULL, FALSE, "shared");
        must(mutex != NULL);
        if (GetLastError() == ERROR_SUCCESS)
            InterlockedIncrement(&FIRSTS);
        must(WaitForSingleObject(mutex, INFINITE) == WAIT_OBJECT_0);
        COUNTED++;
        must(ReleaseMutex(mutex));
        must(CloseHandle(mutex));
    }
    return NULL;
}

static void by_many_threads(void)
{
    pthread_t threads[THREADS];
    HANDLE kept;
    GETS(kept, CreateMutexA(NULL, FALSE, "shared"), ERROR_SUCCESS);
    for (int i = 0; i < THREADS; i++)
        must(pthread_create(&threads[i], NULL, create_and_close, NULL) == 0);
    for (int i = 0; i < THREADS; i++)
        must(pthread_join(threads[i], NULL) == 0);
    IS(COUNTED, (long)THREADS * ROUNDS);
    IS(FIRSTS, 0);
    CloseHandle(kept);
    GETS_NONE(OpenMutexA(SYNCHRONIZE, FALSE, "shared"), ERROR_FILE_NOT_FOUND);
}

int main(void)
{
    events();
    other_kinds();
    extended_creations();
    which_names();
    by_many_threads();
    return counted();
}
