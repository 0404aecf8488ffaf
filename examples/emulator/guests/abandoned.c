/* A thread ends with a mutex, a wait times out, and calls are refused with Windows' numbers. */
#include "say.h"

static DWORD WINAPI takes(void *mutex)
{
    WaitForSingleObject(mutex, INFINITE);
    return 0;
}

void start(void)
{
    HANDLE mutex = CreateMutexA(NULL, FALSE, NULL), semaphore = CreateSemaphoreA(NULL, 1, 1, NULL);
    HANDLE thread = CreateThread(NULL, 0, takes, mutex, 0, NULL);
    WaitForSingleObject(thread, INFINITE);
    say("abandoned ", WaitForSingleObject(mutex, 0));
    ReleaseMutex(mutex);
    say("not owned, refused ", !ReleaseMutex(mutex));
    say("error ", GetLastError());
    say("one too many, refused ", !ReleaseSemaphore(semaphore, 1, NULL));
    say("error ", GetLastError());
    WaitForSingleObject(semaphore, INFINITE);
    const DWORD before = GetTickCount();
    say("timeout ", WaitForSingleObject(semaphore, 250));
    say("after ms ", GetTickCount() - before);
    say("closed ", CloseHandle(semaphore));
    say("closed twice ", CloseHandle(semaphore));
    say("error ", GetLastError());
    ExitThread(5);
}
