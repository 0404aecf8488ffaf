/* A wait for all of an event, which is set, and a lock that its owner never gives back. */
#include "hang.h"

static HANDLE lock, set, ready;

static DWORD WINAPI keep(LPVOID first)
{
    WaitForSingleObject(lock, INFINITE);
    SetEvent(ready);
    WaitForSingleObject((HANDLE)first, INFINITE);
    return 0;
}

int main(void)
{
    HANDLE self;
    DuplicateHandle(GetCurrentProcess(), GetCurrentThread(), GetCurrentProcess(), &self, 0, FALSE, DUPLICATE_SAME_ACCESS);
    lock = named(CreateMutexA(NULL, FALSE, NULL), "lock");
    set = named(CreateEventA(NULL, TRUE, TRUE, NULL), "set");
    ready = CreateEventA(NULL, FALSE, FALSE, NULL);
    begin(keep, self, "keeper");
    WaitForSingleObject(ready, INFINITE);
    HANDLE both[2] = { set, lock };
    WaitForMultipleObjects(2, both, TRUE, INFINITE);
    return 0;
}
