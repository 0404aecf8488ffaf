/* Two threads wait for each other to end. */
#include "hang.h"

static HANDLE threads[2], go;

static DWORD WINAPI join_next(LPVOID at)
{
    const int me = (int)(intptr_t)at;
    if (me == 1)
        WaitForSingleObject(go, INFINITE);
    WaitForSingleObject(threads[1 - me], INFINITE);
    return 0;
}

int main(void)
{
    go = CreateEventA(NULL, FALSE, FALSE, NULL);
    threads[1] = begin(join_next, (LPVOID)(intptr_t)1, "second");
    threads[0] = begin(join_next, NULL, "first");
    SignalObjectAndWait(go, threads[0], INFINITE, FALSE);
    return 0;
}
