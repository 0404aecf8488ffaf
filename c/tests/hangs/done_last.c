/* Threads without names, and objects of which each has had something else done to it last. */
#define _GNU_SOURCE
#include "hang.h"

#include <stdlib.h>
#include <string.h>

static HANDLE begun, never, go, items, lock, off, gone, last;

/* Whether it is said so of some thread just now. */
static int is_told(const char *words)
{
    char *text;
    size_t length;
    FILE *file = open_memstream(&text, &length);
    ntwin_why(file);
    fclose(file);
    const int found = strstr(text, words) != NULL;
    free(text);
    return found;
}

static DWORD WINAPI take_twice(LPVOID object)
{
    SignalObjectAndWait(begun, object, INFINITE, FALSE);
    SignalObjectAndWait(begun, object, INFINITE, FALSE);
    return 0;
}

static DWORD WINAPI hold(LPVOID object)
{
    SignalObjectAndWait(begun, object, INFINITE, FALSE);
    SignalObjectAndWait(begun, off, INFINITE, FALSE);
    return 0;
}

static DWORD WINAPI reset(LPVOID event)
{
    ResetEvent(event);
    return 0;
}

static DWORD WINAPI set(LPVOID event)
{
    SetEvent(event);
    ResetEvent(event);
    PulseEvent(event);
    return 0;
}

static DWORD WINAPI collect(LPVOID unused)
{
    const HANDLE all[] = { last, gone, never };
    UNUSED(unused);
    WaitForMultipleObjects(3, all, TRUE, INFINITE);
    return 0;
}

static HANDLE run(LPTHREAD_START_ROUTINE routine, LPVOID parameter)
{
    return CreateThread(NULL, 0, routine, parameter, 0, NULL);
}

int main(void)
{
    begun = CreateSemaphoreA(NULL, 0, 9, NULL);
    never = named(CreateEventA(NULL, FALSE, FALSE, NULL), "never");
    go = named(CreateEventA(NULL, FALSE, FALSE, NULL), "go");
    off = named(CreateEventA(NULL, FALSE, FALSE, NULL), "off");
    gone = named(CreateEventA(NULL, FALSE, FALSE, NULL), "gone");
    last = named(CreateEventA(NULL, FALSE, FALSE, NULL), "last");
    items = named(CreateSemaphoreA(NULL, 0, 9, NULL), "items");
    lock = named(CreateMutexA(NULL, TRUE, NULL), "lock");

    run(take_twice, go);
    WaitForSingleObject(begun, INFINITE);
    SetEvent(go);
    WaitForSingleObject(begun, INFINITE);

    run(take_twice, items);
    WaitForSingleObject(begun, INFINITE);
    run(take_twice, items);
    WaitForSingleObject(begun, INFINITE);
    ReleaseSemaphore(items, 2, NULL);
    WaitForSingleObject(begun, INFINITE);
    WaitForSingleObject(begun, INFINITE);

    run(hold, lock);
    WaitForSingleObject(begun, INFINITE);
    ReleaseMutex(lock);
    WaitForSingleObject(begun, INFINITE);

    HANDLE thread = run(set, gone);
    WaitForSingleObject(thread, INFINITE);
    CloseHandle(thread);
    WaitForSingleObject(run(reset, off), INFINITE);
    run(collect, NULL);
    while (!is_told(" waits for all of "))
        Sleep(1);
    SignalObjectAndWait(last, lock, INFINITE, FALSE);
    return 0;
}
