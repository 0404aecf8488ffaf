/* One alertable wait runs all APCs that are queued. A timer with a period queues one each 10 ms, and another thread one of its own. */
#include "say.h"

static volatile unsigned expired, queued;
static unsigned long long first_due;

static void CALLBACK on_timer(void *argument, DWORD low, DWORD high)
{
    const unsigned long long due = (unsigned long long)high << 32 | low;
    if (expired == 0)
        first_due = due;
    expired++;
    say((const char *)argument, (unsigned)((due - first_due) / 10000));
}

static void CALLBACK on_queue(ULONG_PTR argument)
{
    queued++;
    say("an APC, argument ", (unsigned)argument);
}

static DWORD WINAPI other(void *thread)
{
    Sleep(15);
    QueueUserAPC(on_queue, thread, 42);
    return 0;
}

void start(void)
{
    HANDLE self, timer = CreateWaitableTimerA(NULL, FALSE, NULL);
    LARGE_INTEGER due = { .QuadPart = -100000 };
    DuplicateHandle(GetCurrentProcess(), GetCurrentThread(), GetCurrentProcess(), &self, 0, FALSE, DUPLICATE_SAME_ACCESS);
    QueueUserAPC(on_queue, self, 1);
    QueueUserAPC(on_queue, self, 2);
    say("a wait for APCs ends with ", SleepEx(0, TRUE));
    say("after so many: ", queued);
    CreateThread(NULL, 0, other, self, 0, NULL);
    SetWaitableTimer(timer, &due, 10, on_timer, (void *)"the timer expired, ms after the first time ", FALSE);
    while (expired < 3) {
        const unsigned before = expired + queued;
        if (SleepEx(INFINITE, TRUE) != WAIT_IO_COMPLETION || expired + queued == before)
            ExitProcess(1);
    }
    CancelWaitableTimer(timer);
    say("no APC is left: ", SleepEx(100, TRUE) == 0);
    say("ms: ", GetTickCount());
    ExitProcess(queued == 3 ? 0 : 1);
}
