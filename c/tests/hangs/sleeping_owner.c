/* A thread sleeps without end, which is no hang by itself; another wants the mutex that it owns. */
#include "hang.h"

static HANDLE lock;

static DWORD WINAPI take(LPVOID unused)
{
    UNUSED(unused);
    WaitForSingleObject(lock, INFINITE);
    return 0;
}

int main(void)
{
    lock = named(CreateMutexA(NULL, FALSE, NULL), "lock");
    WaitForSingleObject(lock, INFINITE);
    WaitForSingleObject(lock, INFINITE);
    begin(take, NULL, "taker");
    Sleep(INFINITE);
    return 0;
}
