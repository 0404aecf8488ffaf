/* Two pairs of threads, each with two crossed locks: one after the other. */
#include "hang.h"

static HANDLE locks[4], ready, go[2];

static DWORD WINAPI work(LPVOID at)
{
    const int me = (int)(intptr_t)at;
    WaitForSingleObject(locks[me], INFINITE);
    if (me % 2 == 0)
        SignalObjectAndWait(ready, go[me / 2], INFINITE, FALSE);
    SignalObjectAndWait(ready, locks[me ^ 1], INFINITE, FALSE);
    return 0;
}

int main(void)
{
    static const char *const names[4] = { "a", "b", "c", "d" };
    HANDLE threads[4];
    ready = CreateSemaphoreA(NULL, 0, 4, NULL);
    for (int i = 0; i < 4; i++)
        locks[i] = named(CreateMutexA(NULL, FALSE, NULL), names[i]);
    for (int i = 0; i < 2; i++)
        go[i] = CreateEventA(NULL, FALSE, FALSE, NULL);
    for (int i = 0; i < 4; i++) {
        threads[i] = begin(work, (LPVOID)(intptr_t)i, names[i]);
        WaitForSingleObject(ready, INFINITE);
    }
    SetEvent(go[0]);
    WaitForSingleObject(ready, INFINITE);
    SetEvent(go[1]);
    WaitForSingleObject(ready, INFINITE);
    WaitForMultipleObjects(4, threads, FALSE, INFINITE);
    return 0;
}
