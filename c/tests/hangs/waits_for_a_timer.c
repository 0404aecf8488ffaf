/* No hang: a timer ends the wait in an hour. */
#include "hang.h"

int main(void)
{
    LARGE_INTEGER due = { .QuadPart = INT64_C(-36000000000) };
    HANDLE timer = named(CreateWaitableTimerA(NULL, FALSE, NULL), "alarm"), other = CreateWaitableTimerW(NULL, TRUE, NULL);
    SetWaitableTimer(timer, &due, 0, NULL, NULL, FALSE);
    HANDLE both[2] = { timer, other };
    WaitForMultipleObjectsEx(2, both, FALSE, INFINITE, FALSE);
    return 0;
}
