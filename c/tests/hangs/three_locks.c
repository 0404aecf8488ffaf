/* Three threads each have a lock, and want that of the next; main waits for all of them afterwards. */
#include "hang.h"

static HANDLE locks[3], ready, go;

static DWORD WINAPI work(LPVOID at)
{
    const int me = (int)(intptr_t)at;
    WaitForSingleObject(locks[me], INFINITE);
    SignalObjectAndWait(ready, me == 2 ? go : locks[me + 1], INFINITE, FALSE);
    SignalObjectAndWait(ready, locks[0], INFINITE, FALSE);
    return 0;
}

int main(void)
{
    HANDLE threads[3];
    ready = CreateSemaphoreA(NULL, 0, 3, NULL);
    go = CreateEventA(NULL, FALSE, FALSE, NULL);
    locks[0] = CreateMutexA(NULL, FALSE, "red");
    locks[1] = CreateMutexA(NULL, FALSE, "Local\\green");
    locks[2] = named(CreateMutexA(NULL, FALSE, "ignored"), "blue");
    for (int i = 2; i >= 0; i--) {
        threads[i] = begin(work, (LPVOID)(intptr_t)i, i == 0 ? "first" : i == 1 ? "second" : "third");
        WaitForSingleObject(ready, INFINITE);
    }
    SetEvent(go);
    WaitForSingleObject(ready, INFINITE);
    WaitForMultipleObjects(3, threads, TRUE, INFINITE);
    return 0;
}
