/* A thread ends that has taken a semaphore as a lock: unlike a mutex, it is not given back. */
#include "hang.h"

static HANDLE lock;

static DWORD WINAPI take(LPVOID unused)
{
    UNUSED(unused);
    WaitForSingleObject(lock, INFINITE);
    return 0;
}

int main(void)
{
    lock = named(CreateSemaphoreW(NULL, 1, 1, NULL), "lock");
    WaitForSingleObject(begin(take, NULL, "ended"), INFINITE);
    WaitForSingleObject(lock, INFINITE);
    return 0;
}
