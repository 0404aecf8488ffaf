/* Within 10 s: 16 passed, 0 failed.
 *
 * As a thread ends, its thread_local objects give a mutex back, set an event and close a handle. On Windows they do so before the thread's
 * mutexes are abandoned and before its handle is signaled: all three calls succeed. So it is with a thread that CreateThread did not make. */
#include "case.h"

static HANDLE mutex, event, other;
static BOOL has_released, has_set, has_closed;

struct at_end {
    bool is_used = false;
    ~at_end()
    {
        if (!is_used)
            return;
        has_released = ReleaseMutex(mutex);
        has_set = SetEvent(event);
        has_closed = CloseHandle(other);
    }
};

static thread_local at_end mark;

static DWORD run(LPVOID)
{
    IS(WaitForSingleObject(mutex, INFINITE), WAIT_OBJECT_0);
    mark.is_used = true;
    return 0;
}

static void *run_foreign(void *)
{
    run(nullptr);
    return nullptr;
}

static void begin()
{
    has_released = has_set = has_closed = FALSE;
    other = CreateEvent(nullptr, TRUE, FALSE, nullptr);
    ResetEvent(event);
}

static void check_end()
{
    IS(has_released, TRUE);
    IS(has_set, TRUE);
    IS(has_closed, TRUE);
    IS(is_closed(other), TRUE);
    IS(WaitForSingleObject(event, 0), WAIT_OBJECT_0);
    IS(WaitForSingleObject(mutex, 0), WAIT_OBJECT_0);
    ReleaseMutex(mutex);
}

int main()
{
    pthread_t thread;
    mutex = CreateMutex(nullptr, FALSE, nullptr);
    event = CreateEvent(nullptr, TRUE, FALSE, nullptr);
    begin();
    IS(WaitForSingleObject(CreateThread(nullptr, 0, run, nullptr, 0, nullptr), INFINITE), WAIT_OBJECT_0);
    check_end();
    begin();
    must(pthread_create(&thread, nullptr, run_foreign, nullptr) == 0);
    IS(pthread_join(thread, nullptr), 0);
    check_end();
    return counted();
}
