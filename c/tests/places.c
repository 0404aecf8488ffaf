/* A process that starts threads without number and never closes their handles, up to as many handles as may be open: the place of a thread that has
 * ended is another's, and its handles tell of it still. Words: how many threads, 20,000 if that is not said. */
#include <windows.h>

#include "check.h"

#include <pthread.h>
#include <wchar.h>

enum { MOST_THREADS = 4096, MOST = 50000 };

static HANDLE started(LPTHREAD_START_ROUTINE start, uintptr_t word)
{
    HANDLE thread = CreateThread(NULL, 65536, start, (LPVOID)word, STACK_SIZE_PARAM_IS_A_RESERVATION, NULL);
    must(thread != NULL);
    return thread;
}

/* A thread's exit code, which tells it from each other. */
static DWORD WINAPI answer(LPVOID code)
{
    if ((uintptr_t)code % 1000 == 7)
        must(SetThreadDescription(GetCurrentThread(), L"a seventh") == S_OK);
    return (DWORD)(uintptr_t)code + 1000000;
}

/* What the handle of a thread that has ended tells. */
static void tells(HANDLE thread, DWORD code)
{
    DWORD found = 0;
    must(WaitForSingleObject(thread, 0) == WAIT_OBJECT_0);
    must(GetExitCodeThread(thread, &found) && found == code);
}

static void describes(HANDLE thread, const WCHAR *wanted)
{
    PWSTR description;
    must(GetThreadDescription(thread, &description) == S_OK);
    must(wcscmp(description, wanted) == 0);
    LocalFree(description);
}

/* So many threads one after another, of which no handle is closed, each waited for. */
static HANDLE threads[MOST];
static void never_closed(long count)
{
    for (long i = 0; i < count; i++) {
        threads[i] = started(answer, (uintptr_t)i);
        must(WaitForSingleObject(threads[i], INFINITE) == WAIT_OBJECT_0);
        tells(threads[i / 2], (DWORD)(i / 2) + 1000000);
    }
    for (long i = 0; i < count; i++) {
        tells(threads[i], (DWORD)i + 1000000);
        describes(threads[i], i % 1000 == 7 ? L"a seventh" : L"");
    }
    IS(count, count);
}

static void must_not_run(ULONG_PTR word)
{
    (void)word;
    must(!"an APC of a thread that has ended has run");
}

/* The handles of a thread whose place is another's: a duplicate tells the same, and outlives the first. */
static void duplicates(void)
{
    HANDLE process = GetCurrentProcess(), first = threads[3], again, least;
    ANSWERS(QueueUserAPC(must_not_run, first, 0), 0, ERROR_GEN_FAILURE);
    ANSWERS(DuplicateHandle(process, first, process, &again, 0, FALSE, DUPLICATE_SAME_ACCESS), TRUE, UNTOUCHED);
    ANSWERS(DuplicateHandle(process, first, process, &least, SYNCHRONIZE, FALSE, 0), TRUE, UNTOUCHED);
    tells(again, 1000003);
    IS(CloseHandle(first), TRUE);
    tells(again, 1000003);
    tells(least, 1000003);
    ANSWERS(QueueUserAPC(must_not_run, least, 0), 0, ERROR_ACCESS_DENIED);
    IS(SetThreadPriority(again, THREAD_PRIORITY_LOWEST), TRUE);
    IS(GetThreadPriority(least), THREAD_PRIORITY_LOWEST);
    IS(CloseHandle(again), TRUE);
    tells(least, 1000003);
    IS(CloseHandle(least), TRUE);
    ANSWERS(WaitForSingleObject(least, 0), WAIT_FAILED, ERROR_INVALID_HANDLE);
}

static DWORD WINAPI wait_for_both(LPVOID both)
{
    return WaitForMultipleObjects(2, both, TRUE, INFINITE);
}

/* A wait for all of a thread whose place is another's and of an event: it begins, pends, and ends once the event is set. */
static void waits_for_all(void)
{
    HANDLE gate = CreateEventA(NULL, TRUE, FALSE, NULL), both[] = { threads[5], gate }, waiter = started(wait_for_both, (uintptr_t)both);
    DWORD code;
    IS(WaitForMultipleObjects(2, both, FALSE, INFINITE), WAIT_OBJECT_0);
    IS(SetEvent(gate), TRUE);
    IS(WaitForSingleObject(waiter, INFINITE), WAIT_OBJECT_0);
    IS(GetExitCodeThread(waiter, &code), TRUE);
    IS(code, WAIT_OBJECT_0);
    CloseHandle(waiter);
    CloseHandle(gate);
}

static void *call_once(void *event)
{
    return (void *)(uintptr_t)(SetEvent(event) != FALSE);
}

/* A thread that CreateThread did not make gets such a place too, and so does the next after events took the numbers of all closed handles. */
static void others(void)
{
    HANDLE events[100], gate = CreateEventA(NULL, TRUE, FALSE, NULL);
    pthread_t thread;
    void *answered = NULL;
    for (size_t i = 0; i < ARRAYSIZE(events); i++)
        must((events[i] = CreateEventA(NULL, TRUE, FALSE, NULL)) != NULL);
    must(pthread_create(&thread, NULL, call_once, gate) == 0 && pthread_join(thread, &answered) == 0);
    IS(answered == (void *)1, 1);
    IS(WaitForSingleObject(gate, 0), WAIT_OBJECT_0);
    for (size_t i = 0; i < ARRAYSIZE(events); i++)
        IS(CloseHandle(events[i]), TRUE);
    IS(CloseHandle(gate), TRUE);
}

/* All are closed, and as many are started again. */
static void closed_at_last(long count)
{
    for (long i = 0; i < count; i++)
        if (i != 3)
            must(CloseHandle(threads[i]));
    for (long i = 0; i < count && i < 2 * MOST_THREADS; i++) {
        HANDLE thread = started(answer, (uintptr_t)i);
        must(WaitForSingleObject(thread, INFINITE) == WAIT_OBJECT_0);
        tells(thread, (DWORD)i + 1000000);
        must(CloseHandle(thread));
    }
    IS(count, count);
}

int main(int words, char **word)
{
    const long count = words > 1 ? atol(word[1]) : 20000;
    must(count >= 10 && count <= MOST);
    never_closed(count);
    duplicates();
    waits_for_all();
    others();
    closed_at_last(count);
    return counted();
}
