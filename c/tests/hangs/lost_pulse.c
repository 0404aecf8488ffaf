/* A pulse that nobody waits for yet. */
#include "hang.h"

static HANDLE go, ready;

static DWORD WINAPI work(LPVOID unused)
{
    UNUSED(unused);
    WaitForSingleObject(ready, INFINITE);
    WaitForSingleObjectEx(go, INFINITE, TRUE);
    return 0;
}

int main(void)
{
    go = named(CreateEventExW(NULL, NULL, CREATE_EVENT_MANUAL_RESET, EVENT_ALL_ACCESS), "go");
    ready = CreateEventA(NULL, FALSE, FALSE, NULL);
    HANDLE worker = begin(work, NULL, "worker");
    PulseEvent(go);
    SignalObjectAndWait(ready, worker, INFINITE, FALSE);
    return 0;
}
