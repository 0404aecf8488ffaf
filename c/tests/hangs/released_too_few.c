/* A semaphore is released once for two that wait for it. */
#include "hang.h"

static HANDLE items;

static DWORD WINAPI take(LPVOID unused)
{
    UNUSED(unused);
    WaitForSingleObject(items, INFINITE);
    return 0;
}

int main(void)
{
    items = named(CreateSemaphoreA(NULL, 0, 9, NULL), "items");
    ReleaseSemaphore(items, 1, NULL);
    HANDLE takers[2] = { begin(take, NULL, "one"), NULL };
    WaitForSingleObject(takers[0], INFINITE);
    takers[1] = begin(take, NULL, "other");
    WaitForMultipleObjects(2, takers, TRUE, INFINITE);
    return 0;
}
