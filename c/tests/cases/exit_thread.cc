/* Within 10 s: 7 passed, 0 failed.
 *
 * ExitThread ends the thread before any destructor of the frames that it leaves can be called. It passes functions that are noexcept and
 * handlers that catch all, and runs the destructors of thread_local objects. */
#include "case.h"

static LONG destroyed, caught, ended;

struct guard {
    ~guard()
    {
        InterlockedIncrement(&destroyed);
    }
};

struct at_end {
    bool is_used = false;
    ~at_end()
    {
        InterlockedExchangeAdd(&ended, is_used);
    }
};

static thread_local at_end mark;

static void ends() noexcept
{
    guard it;
    ExitThread(0);
}

static DWORD ends_in_noexcept(LPVOID)
{
    mark.is_used = true;
    guard it;
    ends();
    return 0;
}

static DWORD ends_in_try(LPVOID)
{
    mark.is_used = true;
    guard it;
    try {
        ExitThread(0);
    } catch (...) {
        InterlockedIncrement(&caught);
    }
    return 0;
}

static DWORD ends_in_apc(LPVOID event)
{
    mark.is_used = true;
    SetEvent(event);
    SleepEx(INFINITE, TRUE);
    InterlockedIncrement(&caught);
    return 0;
}

static void ends_thread(ULONG_PTR)
{
    ends();
}

int main()
{
    HANDLE event = CreateEvent(nullptr, FALSE, FALSE, nullptr);
    IS(WaitForSingleObject(CreateThread(nullptr, 0, ends_in_noexcept, nullptr, 0, nullptr), INFINITE), WAIT_OBJECT_0);
    IS(WaitForSingleObject(CreateThread(nullptr, 0, ends_in_try, nullptr, 0, nullptr), INFINITE), WAIT_OBJECT_0);
    HANDLE thread = CreateThread(nullptr, 0, ends_in_apc, event, 0, nullptr);
    WaitForSingleObject(event, INFINITE);
    IS(QueueUserAPC(ends_thread, thread, 0) != 0, 1);
    IS(WaitForSingleObject(thread, INFINITE), WAIT_OBJECT_0);
    IS(destroyed, 0);
    IS(caught, 0);
    IS(ended, 3);
    return counted();
}
