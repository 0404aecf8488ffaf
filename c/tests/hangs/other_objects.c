/* A wait for the process, which is reported only if asked, as a sleep is; and another thread's, for a completion port, with a deadline. */
#include "hang.h"

static HANDLE port, ready;

static DWORD WINAPI wait_for_port(LPVOID unused)
{
    UNUSED(unused);
    SignalObjectAndWait(ready, port, 3600000, TRUE);
    return 0;
}

int main(void)
{
    port = named(CreateIoCompletionPort(INVALID_HANDLE_VALUE, NULL, 0, 0), "packets");
    ready = CreateEventA(NULL, FALSE, FALSE, NULL);
    begin(wait_for_port, NULL, "other");
    WaitForSingleObject(ready, INFINITE);
    WaitForSingleObject(GetCurrentProcess(), INFINITE);
    return 0;
}
