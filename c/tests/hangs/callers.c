/* A wait deep in functions, one of which has a frame of its own making. */
#include "hang.h"

#include <string.h>

static HANDLE go, ready;
static volatile size_t COUNT = 300; /* (So no function is made for a number alone.) */

__attribute__((noinline)) static DWORD await(HANDLE object)
{
    const DWORD status = WaitForSingleObject(object, INFINITE);
    return status + 1;
}

__attribute__((noinline)) static DWORD await_both(const HANDLE *both)
{
    const DWORD status = WaitForMultipleObjects(2, both, TRUE, INFINITE);
    return status + 1;
}

__attribute__((noinline)) static DWORD load(volatile char *room, size_t count)
{
    const HANDLE both[] = { go, ready };
    char more[count];
    memset(more, 1, count);
    room[0] = more[count - 1];
    return (room[0] > 1 ? await(go) : await_both(both)) + (DWORD)more[0];
}

__attribute__((noinline)) static DWORD read_all(size_t count)
{
    char room[100];
    const DWORD status = load(room, count);
    return status + (DWORD)room[0];
}

__attribute__((noinline)) static DWORD serve(size_t count)
{
    return read_all(count) + 1;
}

static DWORD WINAPI work(LPVOID unused)
{
    UNUSED(unused);
    return serve(COUNT) + 1;
}

__attribute__((noinline)) static DWORD join(HANDLE worker)
{
    return await(worker) + 1;
}

int main(void)
{
    go = named(CreateEventA(NULL, FALSE, FALSE, NULL), "go");
    ready = named(CreateEventA(NULL, FALSE, TRUE, NULL), "ready");
    return (int)join(begin(work, NULL, "worker")) + 1;
}
