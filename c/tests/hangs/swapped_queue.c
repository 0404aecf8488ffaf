/* A producer takes the guard before it waits for room, which only who takes an item under the guard could make. */
#include "hang.h"

static HANDLE room, items, guard, full;

static DWORD WINAPI produce(LPVOID unused)
{
    UNUSED(unused);
    WaitForSingleObject(room, INFINITE);
    ReleaseSemaphore(items, 1, NULL);
    WaitForSingleObject(guard, INFINITE);
    SignalObjectAndWait(full, room, INFINITE, FALSE);
    return 0;
}

int main(void)
{
    room = named(CreateSemaphoreA(NULL, 1, 1, NULL), "room");
    items = named(CreateSemaphoreA(NULL, 0, 1, NULL), "items");
    guard = named(CreateMutexA(NULL, FALSE, NULL), "guard");
    full = CreateEventA(NULL, FALSE, FALSE, NULL);
    ntwin_name(GetCurrentThread(), "consumer");
    begin(produce, NULL, "producer");
    WaitForSingleObject(full, INFINITE);
    HANDLE both[2] = { items, guard };
    WaitForMultipleObjects(2, both, TRUE, INFINITE);
    return 0;
}
