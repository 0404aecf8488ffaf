/* A thread owns a critical section and wants a mutex, whose owner wants the section: neither kind alone has a knot. */
#include "hang.h"

static CRITICAL_SECTION section;
static HANDLE lock, ready;

static DWORD WINAPI work(LPVOID unused)
{
    UNUSED(unused);
    EnterCriticalSection(&section);
    SignalObjectAndWait(ready, lock, INFINITE, FALSE);
    return 0;
}

int main(void)
{
    InitializeCriticalSection(&section);
    lock = named(CreateMutexExA(NULL, NULL, CREATE_MUTEX_INITIAL_OWNER, MUTEX_ALL_ACCESS), "lock");
    ready = CreateEventA(NULL, FALSE, FALSE, NULL);
    begin(work, NULL, "worker");
    WaitForSingleObject(ready, INFINITE);
    EnterCriticalSection(&section);
    return 0;
}
