/* An event that resets itself is set twice before anybody waits: one of the two wakes nobody. */
#include "hang.h"

static HANDLE work_left;

static DWORD WINAPI work(LPVOID unused)
{
    UNUSED(unused);
    WaitForSingleObject(work_left, INFINITE);
    return 0;
}

int main(void)
{
    work_left = named(CreateEventW(NULL, FALSE, FALSE, NULL), "work_left");
    SetEvent(work_left);
    SetEvent(work_left);
    HANDLE one = begin(work, NULL, "one");
    WaitForSingleObject(one, INFINITE);
    WaitForSingleObject(begin(work, NULL, "other"), INFINITE);
    return 0;
}
