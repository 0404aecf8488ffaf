/* The last handle of an event is closed while a thread waits for it: nobody can set it from then on. */
#include "hang.h"

static HANDLE ready, done;

static DWORD WINAPI work(LPVOID unused)
{
    UNUSED(unused);
    SignalObjectAndWait(ready, done, INFINITE, FALSE);
    return 0;
}

int main(void)
{
    ready = CreateEventA(NULL, FALSE, FALSE, NULL);
    done = named(CreateEventA(NULL, TRUE, FALSE, NULL), "done");
    HANDLE worker = begin(work, NULL, "worker");
    WaitForSingleObject(ready, INFINITE);
    CloseHandle(done);
    WaitForSingleObject(worker, INFINITE);
    return 0;
}
