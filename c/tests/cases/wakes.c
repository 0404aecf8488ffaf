/* Who wakes, and when. Told by the system calls that the library makes on its words, in whose place this program's own function stands. */
#include "case.h"

#include <dlfcn.h>
#include <linux/futex.h>
#include <stdarg.h>
#include <sys/syscall.h>

static long (*real)(long number, ...);

/* (The library makes one before main.) */
static void find_real(void)
{
    if (real == NULL)
        *(void **)&real = dlsym(RTLD_NEXT, "syscall");
}

static long call_system(const long *words)
{
    return real(SYS_futex, words[0], words[1], words[2], words[3], words[4], words[5]);
}

typedef long call_on_words(const long *words);

/* What stands in the system's place. */
static call_on_words *calls = call_system;

/* (As a case begins, which has one thread.) */
static void stand_in(call_on_words *other)
{
    find_real();
    calls = other;
}

long syscall(long number, ...)
{
    long words[6];
    va_list list;
    find_real();
    va_start(list, number);
    for (int i = 0; i < 6; i++)
        words[i] = va_arg(list, long);
    va_end(list);
    return number == SYS_futex ? calls(words) : real(number, words[0], words[1], words[2], words[3], words[4], words[5]);
}

/* futile_wakes. Within 10 s: 16 passed, 0 failed.
 *
 * A timeout wakes nobody else, not even one who waits for a timer and began as another kept the time. A thread that waits for something
 * else is not woken by a timer that nobody waits for, and neither is one that sleeps until its own timer calls. */

static LONG sleeps, wakes;
static _Thread_local LONG own_sleeps, own_wakes; /* those of the caller: a thread that has ended may still make its last */

static long count_and_call(const long *words)
{
    const BOOL is_wake = (words[1] & FUTEX_CMD_MASK) == FUTEX_WAKE;
    InterlockedIncrement(is_wake ? &wakes : &sleeps);
    own_wakes += is_wake;
    own_sleeps += !is_wake;
    return call_system(words);
}

static LONG begins;

static DWORD waits(LPVOID event)
{
    InterlockedExchange(&begins, gettid());
    return WaitForSingleObject(event, INFINITE);
}

/* Begins to wait while another thread is in the midst of a wait with a timeout. */
static DWORD waits_later(LPVOID timer)
{
    raise_flag(&begins);
    rest_ms(100);
    return WaitForSingleObject(timer, INFINITE);
}

/* The other's timeout does not wake who waits for the timer. */
static void time_out_beside(HANDLE event)
{
    HANDLE timer = CreateWaitableTimer(NULL, TRUE, NULL);
    LARGE_INTEGER due = { .QuadPart = -600000000 };
    IS(SetWaitableTimer(timer, &due, 0, NULL, NULL, FALSE), TRUE);
    HANDLE thread = CreateThread(NULL, 0, waits_later, timer, 0, NULL);
    await(&begins);
    const LONG wakes_before = own_wakes;
    must(WaitForSingleObject(event, 300) == WAIT_TIMEOUT);
    IS(own_wakes - wakes_before, 0);
    due.QuadPart = 0;
    IS(SetWaitableTimer(timer, &due, 0, NULL, NULL, FALSE), TRUE);
    IS(WaitForSingleObject(thread, INFINITE), WAIT_OBJECT_0);
}

static void is_called(LPVOID calls, DWORD low, DWORD high)
{
    (void)low;
    (void)high;
    ++*(LONG *)calls;
}

/* The caller sleeps until its own timer calls its routine, whatever else is due meanwhile. */
static void sleep_to_own_timer(void)
{
    LONG calls = 0;
    HANDLE timer = CreateWaitableTimer(NULL, FALSE, NULL);
    const LARGE_INTEGER due = { .QuadPart = -2000000 };
    IS(SetWaitableTimer(timer, &due, 0, is_called, &calls, FALSE), TRUE);
    const LONG sleeps_before = own_sleeps;
    IS(SleepEx(INFINITE, TRUE), WAIT_IO_COMPLETION);
    IS(own_sleeps - sleeps_before <= 1, 1);
    IS(calls, 1);
    IS(CloseHandle(timer), TRUE);
}

int case_futile_wakes(void)
{
    stand_in(count_and_call);
    HANDLE event = CreateEvent(NULL, TRUE, FALSE, NULL), timer = CreateWaitableTimer(NULL, TRUE, NULL);
    HANDLE thread = CreateThread(NULL, 0, waits, event, 0, NULL);
    await(&begins);
    wait_until_asleep(begins);
    const LONG wakes_before = wakes;
    for (int i = 0; i < 50; i++)
        must(WaitForSingleObject(event, 1) == WAIT_TIMEOUT);
    IS(wakes - wakes_before, 0);
    const LARGE_INTEGER due = { .QuadPart = -10000 };
    const LONG sleeps_before = sleeps;
    IS(SetWaitableTimer(timer, &due, 1, NULL, NULL, FALSE), TRUE);
    rest_ms(200);
    IS(sleeps - sleeps_before, 0);
    sleep_to_own_timer();
    IS(SetEvent(event), TRUE);
    IS(WaitForSingleObject(thread, INFINITE), WAIT_OBJECT_0);
    begins = 0;
    IS(CancelWaitableTimer(timer), TRUE);
    IS(ResetEvent(event), TRUE);
    time_out_beside(event);
    return counted();
}

/* late_threads. Within 20 s: 5 passed, 0 failed.
 *
 * An idle thread of a pool that comes to work calls the next one, while there is work for that, too. So all come, though the first comes back only
 * once everything is submitted: until then no other is called. Here each is held as it wakes. */

enum { THREADS = 5, CALLBACKS = 9, MOST_MS = 20000 };

static LONG idle, may_come_back, ran;

/* (Until they may come back, nobody but the idle threads of the pool sleeps to a time.) */
static long call_and_come_back_late(const long *words)
{
    const BOOL has_time = words[3] != 0;
    if (has_time)
        InterlockedIncrement(&idle);
    const long answer = call_system(words);
    if (has_time)
        await(&may_come_back);
    return answer;
}

static void CALLBACK waits_in_work(PTP_CALLBACK_INSTANCE instance, PVOID event, PTP_WORK work)
{
    (void)instance, (void)work;
    InterlockedIncrement(&ran);
    WaitForSingleObject(event, INFINITE);
}

int case_late_threads(void)
{
    TP_CALLBACK_ENVIRON environment;
    stand_in(call_and_come_back_late);
    HANDLE event = CreateEvent(NULL, TRUE, FALSE, NULL);
    InitializeThreadpoolEnvironment(&environment);
    SetThreadpoolCallbackPool(&environment, CreateThreadpool(NULL));
    SetThreadpoolThreadMaximum(environment.Pool, THREADS);
    IS(SetThreadpoolThreadMinimum(environment.Pool, THREADS), TRUE);
    PTP_WORK work = CreateThreadpoolWork(waits_in_work, event, &environment);
    while (ReadAcquire(&idle) < THREADS)
        rest_ms(1);
    for (int i = 0; i < CALLBACKS; i++)
        SubmitThreadpoolWork(work);
    IS(ReadAcquire(&ran), 0);
    raise_flag(&may_come_back);
    /* (An idle thread that is not called looks by itself after a minute.) */
    for (int ms = 0; ms < MOST_MS && ReadAcquire(&ran) < THREADS; ms++)
        rest_ms(1);
    IS(ReadAcquire(&ran), THREADS);
    IS(SetEvent(event), TRUE);
    WaitForThreadpoolWorkCallbacks(work, FALSE);
    IS(ReadAcquire(&ran), CALLBACKS);
    /* (The pool is not closed: ThreadSanitizer would tell of a thread that is on its way out as the process ends.) */
    CloseThreadpoolWork(work);
    return counted();
}
