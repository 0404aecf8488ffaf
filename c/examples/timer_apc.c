/* A timer expires after 20 ms and then every 10 ms, and each time queues a routine to the thread that set it. The routine runs inside an
 * alertable sleep, which it ends. */
#include <windows.h>

#include <stdio.h>

enum { TIMES = 4 };

static int EXPIRED;

static VOID CALLBACK tell(LPVOID text, DWORD low, DWORD high)
{
    (void)low;
    (void)high;
    if (EXPIRED < TIMES)
        printf("%s %d\n", (const char *)text, ++EXPIRED);
}

int main(void)
{
    LARGE_INTEGER due;
    HANDLE timer = CreateWaitableTimer(NULL, FALSE, NULL);

    due.QuadPart = -20 * 10000; /* from now on, in units of 100 ns */
    if (timer == NULL || !SetWaitableTimer(timer, &due, 10, tell, (LPVOID)"expired", FALSE)) {
        printf("no timer: error %u\n", GetLastError());
        return 1;
    }
    while (EXPIRED < TIMES)
        if (SleepEx(INFINITE, TRUE) != WAIT_IO_COMPLETION)
            return 1;
    CancelWaitableTimer(timer);
    printf("cancelled: %s\n", SleepEx(30, TRUE) == 0 ? "nothing more" : "one more");
    CloseHandle(timer);
    return 0;
}
