/* Two threads take two critical sections in another order. */
#include "hang.h"

static CRITICAL_SECTION sections[2];
static HANDLE ready, go;

static DWORD WINAPI work(LPVOID at)
{
    const int me = (int)(intptr_t)at;
    EnterCriticalSection(&sections[me]);
    SetEvent(ready);
    if (me == 0)
        WaitForSingleObject(go, INFINITE);
    EnterCriticalSection(&sections[1 - me]);
    return 0;
}

int main(void)
{
    HANDLE threads[2];
    ready = CreateEventA(NULL, FALSE, FALSE, NULL);
    go = CreateEventA(NULL, FALSE, FALSE, NULL);
    for (int i = 0; i < 2; i++) {
        InitializeCriticalSection(&sections[i]);
        threads[i] = begin(work, (LPVOID)(intptr_t)i, i == 0 ? "first" : "second");
        WaitForSingleObject(ready, INFINITE);
    }
    SignalObjectAndWait(go, threads[0], INFINITE, FALSE);
    return 0;
}
