/* Two threads take two mutexes in opposite orders: some orders of their turns hang. A third goes on all the while. */
#include "say.h"

static HANDLE a, b;

static void take(HANDLE first, HANDLE second)
{
    WaitForSingleObject(first, INFINITE);
    work(100);
    WaitForSingleObject(second, INFINITE);
    ReleaseMutex(second);
    ReleaseMutex(first);
}

static DWORD WINAPI other(void *nothing)
{
    (void)nothing;
    take(b, a);
    return 0;
}

static DWORD WINAPI goes_on(void *nothing)
{
    for (;;)
        Sleep(10);
    return nothing == NULL;
}

void start(void)
{
    a = CreateMutexA(NULL, FALSE, NULL);
    b = CreateMutexA(NULL, FALSE, NULL);
    HANDLE thread = CreateThread(NULL, 0, other, NULL, 0, NULL);
    CreateThread(NULL, 0, goes_on, NULL, 0, NULL);
    take(a, b);
    say("joined, status ", WaitForSingleObject(thread, INFINITE));
    ExitProcess(0);
}
