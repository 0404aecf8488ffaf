/* What a child of fork may do, beside what threads of its parent do. */
#include "case.h"

#include <winternl.h>

/* (A child ends by _exit, and joins no thread before.) */
const char *__tsan_default_options(void)
{
    return "report_thread_leaks=0";
}

enum { CHILDREN = 40 };

static LONG stops;

/* How the child ended that does this: its exit status, or 1000 and the signal. */
static int forked(int (*does)(void))
{
    int status;
    const pid_t child = fork();
    must(child >= 0);
    if (child == 0) {
        alarm(60);
        _exit(does());
    }
    must(waitpid(child, &status, 0) == child);
    return WIFSIGNALED(status) ? 1000 + WTERMSIG(status) : WEXITSTATUS(status);
}

/* forked_child. Within 20 s: 50 passed, 0 failed.
 *
 * A child is forked beside threads that call and wait: each of its calls is refused with ERROR_NOT_SUPPORTED, and none hangs, not
 * even one that waits for a callback. A child of a process in which nobody else has called may call, also where the lock favours who forks; what it asks
 * for its own thread changes nothing of its parent's. */

static HANDLE event, gate, callers[4];
static LONG is_in_callback;
static PTP_WORK work;

#define FAILS(call) ((call) ? 1 : GetLastError() != ERROR_NOT_SUPPORTED)

static DWORD does_nothing(LPVOID unused)
{
    (void)unused;
    return 0;
}

static void CALLBACK waits_in_pool(PTP_CALLBACK_INSTANCE instance, PVOID none, PTP_WORK its_work)
{
    (void)instance, (void)none, (void)its_work;
    raise_flag(&is_in_callback);
    WaitForSingleObject(gate, INFINITE);
}

static void CALLBACK comes_never(PTP_CALLBACK_INSTANCE instance, PVOID none)
{
    (void)instance, (void)none;
}

static void CALLBACK ticks_never(PVOID none, BOOLEAN timed_out)
{
    (void)none, (void)timed_out;
}

static void CALLBACK beats_never(UINT number, UINT none, DWORD_PTR user, DWORD_PTR one, DWORD_PTR two)
{
    (void)number, (void)none, (void)user, (void)one, (void)two;
}

/* The same of callbacks, for which no thread is there. Nobody waits for one that another thread was in. */
static int callbacks_beside_threads(void)
{
    HANDLE timer = NULL;
    int wrong = FAILS(CreateThreadpoolWork(waits_in_pool, NULL, NULL) != NULL) + FAILS(TrySubmitThreadpoolCallback(comes_never, NULL, NULL));
    wrong += FAILS(CreateTimerQueueTimer(&timer, NULL, ticks_never, NULL, 0, 0, WT_EXECUTEINTIMERTHREAD));
    wrong += timeSetEvent(1, 0, beats_never, 0, TIME_ONESHOT) != 0;
    SubmitThreadpoolWork(work);
    WaitForThreadpoolWorkCallbacks(work, FALSE);
    CloseThreadpoolWork(work);
    return wrong;
}

/* How many calls_on_event were not refused as they ought to be. */
static int calls_beside_threads(void)
{
    DWORD code;
    int wrong = FAILS(SetEvent(event)) + FAILS(CloseHandle(event)) + FAILS(CreateMutex(NULL, FALSE, NULL) != NULL);
    wrong += FAILS(CreateThread(NULL, 0, does_nothing, NULL, 0, NULL) != NULL);
    wrong += FAILS(WaitForSingleObject(event, 4000) != WAIT_FAILED) + FAILS(GetExitCodeThread(callers[0], &code));
    LARGE_INTEGER ms = { .QuadPart = -10000 };
    SetLastError(UNTOUCHED);
    wrong += (NtDelayExecution(FALSE, &ms) != STATUS_NOT_SUPPORTED) + (GetLastError() != UNTOUCHED);
    const double began = now_ms();
    Sleep(1);
    return wrong + (now_ms() - began < 1);
}

static int calls_alone(void)
{
    HANDLE mine = CreateEvent(NULL, FALSE, FALSE, NULL), thread = CreateThread(NULL, 0, does_nothing, NULL, 0, NULL);
    return !(WaitForSingleObject(mine, 20) == WAIT_TIMEOUT && SetEvent(event) && WaitForSingleObject(thread, 4000) == WAIT_OBJECT_0);
}

/* It has an id of its own, and runs on one processor from now on, which its parent does not. */
static int acts_for_itself(void)
{
    cpu_set_t mine;
    DWORD_PTR process, all;
    const DWORD id = GetCurrentThreadId();
    HANDLE self = OpenThread(SYNCHRONIZE, FALSE, id);
    must(GetProcessAffinityMask(GetCurrentProcess(), &process, &all));
    must(SetThreadAffinityMask(GetCurrentThread(), process & (0 - process)) != 0 && sched_getaffinity(0, sizeof mine, &mine) == 0);
    return !(self != NULL && GetThreadId(GetCurrentThread()) == id && CPU_COUNT(&mine) == 1);
}

static int processors_of_caller(void)
{
    cpu_set_t mine;
    must(sched_getaffinity(0, sizeof mine, &mine) == 0);
    return CPU_COUNT(&mine);
}

static DWORD calls_on_event(LPVOID unused)
{
    (void)unused;
    while (InterlockedExchangeAdd(&stops, 0) == 0) {
        SetEvent(event);
        ResetEvent(event);
    }
    return 0;
}

static DWORD waits(LPVOID unused)
{
    (void)unused;
    return WaitForSingleObject(gate, INFINITE);
}

static void *calls_nothing(void *none)
{
    await(&stops);
    return none;
}

/* (A program with a sanitizer makes no thread in a child that was forked beside others.) */
static int calls_without_threads(void)
{
    HANDLE mine = CreateEvent(NULL, FALSE, FALSE, NULL);
    return !(WaitForSingleObject(mine, 20) == WAIT_TIMEOUT && SetEvent(mine) && WaitForSingleObject(mine, 4000) == WAIT_OBJECT_0);
}

/* As above, by a thread that has called often, beside one that does not call. */
static void fork_as_favoured(void)
{
    pthread_t other;
    must(pthread_create(&other, NULL, calls_nothing, NULL) == 0);
    for (int i = 0; i < 1000; i++)
        must(ResetEvent(event));
    IS(forked(calls_without_threads), 0);
    raise_flag(&stops);
    must(pthread_join(other, NULL) == 0);
    stops = 0;
}

int case_forked_child(void)
{
    event = CreateEvent(NULL, TRUE, FALSE, NULL);
    gate = CreateEvent(NULL, TRUE, FALSE, NULL);
    IS(forked(calls_alone), 0);
    const int processors = processors_of_caller();
    IS(forked(acts_for_itself), 0);
    IS(processors_of_caller(), processors);
    fork_as_favoured();
    IS(SetEvent(event), TRUE);
    callers[0] = CreateThread(NULL, 0, waits, NULL, 0, NULL);
    rest_ms(20);
    IS(forked(calls_beside_threads), 0);
    must((work = CreateThreadpoolWork(waits_in_pool, NULL, NULL)) != NULL);
    SubmitThreadpoolWork(work);
    await(&is_in_callback);
    IS(forked(callbacks_beside_threads), 0);
    for (int i = 1; i < 4; i++)
        callers[i] = CreateThread(NULL, 0, calls_on_event, NULL, 0, NULL);
    for (int i = 0; i < CHILDREN; i++)
        IS(forked(calls_beside_threads), 0);
    raise_flag(&stops);
    IS(SetEvent(gate), TRUE);
    IS(WaitForMultipleObjects(4, callers, TRUE, INFINITE), WAIT_OBJECT_0);
    WaitForThreadpoolWorkCallbacks(work, FALSE);
    CloseThreadpoolWork(work);
    IS(SetEvent(event), TRUE);
    return counted();
}

/* forked_sleepers. Within 30 s, unsanitized: 45 passed, 0 failed.
 *
 * A child is forked beside threads that sleep on a condition variable, at an address or for an SRW lock, and have made no other call: in
 * the child nobody waits there but who does so in it, and no latch is taken. (Under a sanitizer no thread can be made in a child that was
 * forked beside others.) */

static SRWLOCK lock = SRWLOCK_INIT, wanted = SRWLOCK_INIT;
static CONDITION_VARIABLE variable = CONDITION_VARIABLE_INIT;
static LONG word, is_up, is_open, woken;

static void *sleeps_on_variable(void *ms)
{
    AcquireSRWLockExclusive(&lock);
    InterlockedExchange(&is_up, gettid());
    while (is_open == 0)
        if (!SleepConditionVariableSRW(&variable, &lock, (DWORD)(uintptr_t)ms, 0))
            break;
    ReleaseSRWLockExclusive(&lock);
    raise_flag(&woken);
    return NULL;
}

static void *waits_at_address(void *none)
{
    LONG zero = 0;
    InterlockedExchange(&is_up, gettid());
    while (InterlockedExchangeAdd(&word, 0) == 0)
        WaitOnAddress(&word, &zero, sizeof zero, INFINITE);
    raise_flag(&woken);
    return none;
}

static void *wants_alone(void *none)
{
    InterlockedExchange(&is_up, gettid());
    AcquireSRWLockExclusive(&wanted);
    ReleaseSRWLockExclusive(&wanted);
    return none;
}

static void *wants_to_share(void *none)
{
    InterlockedExchange(&is_up, gettid());
    AcquireSRWLockShared(&wanted);
    ReleaseSRWLockShared(&wanted);
    return none;
}

/* Begins a thread, and waits until it sleeps. */
static pthread_t begun(void *(*does)(void *))
{
    pthread_t thread;
    InterlockedExchange(&is_up, 0);
    must(pthread_create(&thread, NULL, does, (void *)(uintptr_t)INFINITE) == 0);
    await(&is_up);
    wait_until_asleep(is_up);
    return thread;
}

static void open_gate(void)
{
    AcquireSRWLockExclusive(&lock);
    is_open = 1;
    ReleaseSRWLockExclusive(&lock);
}

/* One wake wakes the only thread that sleeps here. */
static int wakes_on_variable(void)
{
    const pthread_t mine = begun(sleeps_on_variable);
    open_gate();
    WakeConditionVariable(&variable);
    return pthread_join(mine, NULL);
}

static int wakes_at_address(void)
{
    const pthread_t mine = begun(waits_at_address);
    InterlockedExchange(&word, 1);
    WakeByAddressSingle(&word);
    return pthread_join(mine, NULL);
}

/* The caller had the lock at the fork. */
static int gives_lock(void)
{
    ReleaseSRWLockExclusive(&wanted);
    if (!TryAcquireSRWLockShared(&wanted) || !TryAcquireSRWLockShared(&wanted))
        return 1;
    ReleaseSRWLockShared(&wanted);
    ReleaseSRWLockShared(&wanted);
    if (!TryAcquireSRWLockExclusive(&wanted))
        return 2;
    ReleaseSRWLockExclusive(&wanted);
    return wanted.Ptr == NULL ? 0 : 3;
}

static void *waits_and_wakes(void *none)
{
    LONG one = 1, zero = 0, mine = 0;
    while (InterlockedExchangeAdd(&stops, 0) == 0) {
        WaitOnAddress(&mine, &one, sizeof one, 0);
        WaitOnAddress(&mine, &zero, sizeof zero, 0);
        WakeByAddressAll(&mine);
    }
    return none;
}

/* It waits at as many addresses as there are lists, and more. */
static int waits_everywhere(void)
{
    static LONG words[4096];
    LONG zero = 0;
    for (int i = 0; i < 4096; i++) {
        if (WaitOnAddress(&words[i], &zero, sizeof zero, 0) || GetLastError() != ERROR_TIMEOUT)
            return 1;
        WakeByAddressAll(&words[i]);
    }
    return 0;
}

static volatile pid_t forked_by_handler = -1;

static void *wakes_the_handlers(void *none)
{
    open_gate();
    WakeConditionVariable(&variable);
    return none;
}

static void on_signal(int signal)
{
    pthread_t thread;
    (void)signal;
    forked_by_handler = fork();
    if (forked_by_handler == 0) {
        alarm(60);
        must(pthread_create(&thread, NULL, wakes_the_handlers, NULL) == 0);
    }
}

static void *sleeps_and_forks(void *ms)
{
    sleeps_on_variable(ms);
    if (forked_by_handler == 0)
        _exit(is_open == 1 ? 0 : 1);
    return NULL;
}

/* A thread that sleeps forks in a handler: in the child it sleeps on, and is woken. */
static void fork_as_sleeper(void)
{
    int status;
    const pthread_t sleeper = begun(sleeps_and_forks);
    must(signal(SIGUSR1, on_signal) != SIG_ERR && pthread_kill(sleeper, SIGUSR1) == 0);
    rest_ms(50);
    open_gate();
    WakeAllConditionVariable(&variable);
    must(pthread_join(sleeper, NULL) == 0);
    IS(waitpid(forked_by_handler, &status, 0), forked_by_handler);
    IS(status, 0);
}

int case_forked_sleepers(void)
{
    pthread_t threads[6];
    fork_as_sleeper();
    is_open = 0;
    threads[0] = begun(sleeps_on_variable);
    threads[1] = begun(sleeps_on_variable);
    IS(forked(wakes_on_variable), 0);
    open_gate();
    WakeAllConditionVariable(&variable);
    threads[2] = begun(waits_at_address);
    threads[3] = begun(waits_at_address);
    IS(forked(wakes_at_address), 0);
    InterlockedExchange(&word, 1);
    WakeByAddressAll(&word);
    AcquireSRWLockExclusive(&wanted);
    threads[4] = begun(wants_alone);
    threads[5] = begun(wants_to_share);
    IS(forked(gives_lock), 0);
    ReleaseSRWLockExclusive(&wanted);
    for (int i = 0; i < 6; i++)
        must(pthread_join(threads[i], NULL) == 0);
    for (int i = 0; i < 4; i++)
        must(pthread_create(&threads[i], NULL, waits_and_wakes, NULL) == 0);
    for (int i = 0; i < CHILDREN; i++)
        IS(forked(waits_everywhere), 0);
    raise_flag(&stops);
    for (int i = 0; i < 4; i++)
        must(pthread_join(threads[i], NULL) == 0);
    return counted();
}
