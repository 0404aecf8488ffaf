/* Within 20 s: 9 passed, 0 failed.
 *
 * pthread_cancel acts once a wait has ended, and then the thread's mutexes are abandoned. A thread that is canceled asynchronously, while
 * it waits, never ends for the library; other threads' timeouts and timers come in time all the same. */
#include "case.h"

/* (A thread that is canceled as it waits is never joined.) */
const char *__tsan_default_options(void)
{
    return "report_thread_leaks=0";
}

/* (AddressSanitizer takes its stack for signals away as a thread ends, and does that wrongly where the thread was canceled so. And it asks for that stack
 * itself where the frames that the thread has left count as bad memory.) */
const char *__asan_default_options(void)
{
    return "use_sigaltstack=0";
}

const char *__asan_default_suppressions(void)
{
    return "interceptor_name:sigaltstack";
}

static HANDLE never, mutex, timer;
static pthread_t waiter;
static LONG begins;

static DWORD waits(LPVOID is_asynchronous)
{
    waiter = pthread_self();
    if (is_asynchronous != NULL)
        pthread_setcanceltype(PTHREAD_CANCEL_ASYNCHRONOUS, NULL);
    WaitForSingleObject(mutex, INFINITE);
    HANDLE either[2] = { never, timer };
    raise_flag(&begins);
    WaitForMultipleObjects(2, either, FALSE, 200);
    pthread_testcancel();
    return 0;
}

static HANDLE cancel_one(LPVOID is_asynchronous)
{
    for (;;) {
        begins = 0;
        HANDLE thread = CreateThread(NULL, 0, waits, is_asynchronous, 0, NULL);
        await(&begins);
        const double began = now_ms();
        rest_ms(30);
        pthread_cancel(waiter);
        /* (Where the machine stood still meanwhile the wait may have timed out before.) */
        if (is_asynchronous == NULL || now_ms() - began < 100 || WaitForSingleObject(thread, 1000) == WAIT_TIMEOUT)
            return thread;
    }
}

static VOID CALLBACK comes(LPVOID unused, DWORD low, DWORD high)
{
    (void)unused, (void)low, (void)high;
}

/* The timer is due sooner, while the first thread waits for it. */
static DWORD sets_sooner(LPVOID unused)
{
    const LARGE_INTEGER due = { .QuadPart = -3000000 };
    (void)unused;
    rest_ms(20);
    return (DWORD)SetWaitableTimer(timer, &due, 0, NULL, NULL, FALSE);
}

int main(void)
{
    never = CreateEvent(NULL, FALSE, FALSE, NULL);
    mutex = CreateMutex(NULL, FALSE, NULL);
    timer = CreateWaitableTimer(NULL, TRUE, NULL);
    IS(WaitForSingleObject(cancel_one(NULL), INFINITE), WAIT_OBJECT_0);
    IS(WaitForSingleObject(mutex, 0), WAIT_ABANDONED_0);
    ReleaseMutex(mutex);
    HANDLE thread = cancel_one(&timer);
    const LARGE_INTEGER due = { .QuadPart = -200000 }, late = { .QuadPart = -1200000000 };
    const double began = now_ms();
    IS(SetWaitableTimer(timer, &late, 0, NULL, NULL, FALSE), TRUE);
    HANDLE setter = CreateThread(NULL, 0, sets_sooner, NULL, 0, NULL);
    IS(WaitForSingleObject(timer, INFINITE), WAIT_OBJECT_0);
    WaitForSingleObject(setter, INFINITE);
    IS(SetWaitableTimer(timer, &due, 0, comes, NULL, FALSE), TRUE);
    IS(SleepEx(INFINITE, TRUE), WAIT_IO_COMPLETION);
    IS(WaitForSingleObject(timer, INFINITE), WAIT_OBJECT_0);
    IS(WaitForSingleObject(thread, 300), WAIT_TIMEOUT);
    IS(now_ms() - began < 60000, 1);
    return counted();
}
