/* Within 20 s: 39 passed, 0 failed.
 *
 * The system has no thread more for a pool: a callback that can be refused is, and does not come later; each other comes once there is a thread. A
 * timer that was made is kept. */
#include "creating.h"
#include "../settled.h"

/* (A thread of a pool may be on its way out as the process ends.) */
const char *__tsan_default_options(void);
UNSANITIZED const char *__tsan_default_options(void)
{
    return "report_thread_leaks=0";
}

static LONG is_full;

/* While this is set the system takes a while to refuse a thread, once. */
static LONG refuses_slowly, is_refusing, may_refuse;

int pthread_create(pthread_t *thread, const pthread_attr_t *attributes, void *(*start)(void *), void *argument)
{
    if (InterlockedExchange(&refuses_slowly, 0)) {
        raise_flag(&is_refusing);
        await(&may_refuse);
        return EAGAIN;
    }
    return ReadAcquire(&is_full) ? EAGAIN : create_by_system(thread, attributes, start, argument);
}

/* A thread of the test's own. */
static pthread_t began(void *(*run)(void *), void *argument)
{
    pthread_t thread;
    must(create_by_system(&thread, NULL, run, argument) == 0);
    return thread;
}

static void *let_threads_come(void *none)
{
    rest_ms(50);
    WriteRelease(&is_full, 0);
    return none;
}

static HANDLE GO;

static void CALLBACK note(PVOID count, BOOLEAN timed_out)
{
    (void)timed_out;
    InterlockedIncrement(count);
}

static void CALLBACK note_simple(PTP_CALLBACK_INSTANCE instance, PVOID count)
{
    (void)instance;
    InterlockedIncrement(count);
}

static void CALLBACK note_work(PTP_CALLBACK_INSTANCE instance, PVOID count, PTP_WORK work)
{
    (void)instance;
    (void)work;
    InterlockedIncrement(count);
}

static void CALLBACK note_timer(PTP_CALLBACK_INSTANCE instance, PVOID count, PTP_TIMER timer)
{
    (void)instance;
    (void)timer;
    InterlockedIncrement(count);
}

static DWORD WINAPI note_item(LPVOID count)
{
    InterlockedIncrement(count);
    return 0;
}

static void CALLBACK stay(PVOID count, BOOLEAN timed_out)
{
    note(count, timed_out);
    must(WaitForSingleObject(GO, INFINITE) == WAIT_OBJECT_0);
    note(count, timed_out);
}

/* What pools of their own are made for; each has no thread yet. */
static TP_CALLBACK_ENVIRON of_new_pool(void)
{
    TP_CALLBACK_ENVIRON environment;
    InitializeThreadpoolEnvironment(&environment);
    SetThreadpoolCallbackPool(&environment, CreateThreadpool(NULL));
    return environment;
}

/* A call that can answer so is refused, and nothing of it is left. */
static void refused_callbacks(void)
{
    static LONG ran, other;
    HANDLE wait = NULL, event = CreateEvent(NULL, TRUE, TRUE, NULL);
    TP_CALLBACK_ENVIRON environment = of_new_pool();
    WriteRelease(&is_full, 1);
    ANSWERS(TrySubmitThreadpoolCallback(note_simple, &ran, &environment), FALSE, ERROR_NOT_ENOUGH_MEMORY);
    ANSWERS(QueueUserWorkItem(note_item, &ran, 0), FALSE, ERROR_NOT_ENOUGH_MEMORY);
    ANSWERS(RegisterWaitForSingleObject(&wait, event, note, &ran, INFINITE, 0), FALSE, ERROR_NOT_ENOUGH_MEMORY);
    IS(wait == NULL, 1);
    WriteRelease(&is_full, 0);
    ANSWERS(TrySubmitThreadpoolCallback(note_simple, &other, &environment), TRUE, UNTOUCHED);
    ANSWERS(QueueUserWorkItem(note_item, &other, 0), TRUE, UNTOUCHED);
    ANSWERS(RegisterWaitForSingleObject(&wait, event, note, &other, INFINITE, WT_EXECUTEONLYONCE), TRUE, UNTOUCHED);
    IS(settled(&other, 3), 3);
    IS(ReadAcquire(&ran), 0);
    ANSWERS(UnregisterWaitEx(wait, INVALID_HANDLE_VALUE), TRUE, UNTOUCHED);
    CloseThreadpool(environment.Pool);
}

/* Work comes once there is a thread: who waits for it tries again. */
static void work_that_comes_later(void)
{
    static LONG ran;
    TP_CALLBACK_ENVIRON environment = of_new_pool();
    PTP_WORK work = CreateThreadpoolWork(note_work, &ran, &environment);
    WriteRelease(&is_full, 1);
    SubmitThreadpoolWork(work);
    WriteRelease(&is_full, 0);
    SetLastError(UNTOUCHED);
    WaitForThreadpoolWorkCallbacks(work, FALSE);
    IS(GetLastError(), UNTOUCHED);
    IS(ReadAcquire(&ran), 1);
    CloseThreadpoolWork(work);
    CloseThreadpool(environment.Pool);
    /* The same, where it is refused while it is waited for, too. */
    environment = of_new_pool();
    work = CreateThreadpoolWork(note_work, &ran, &environment);
    WriteRelease(&is_full, 1);
    SubmitThreadpoolWork(work);
    SubmitThreadpoolWork(work);
    pthread_t lets = began(let_threads_come, NULL);
    WaitForThreadpoolWorkCallbacks(work, FALSE);
    IS(GetLastError(), UNTOUCHED);
    IS(ReadAcquire(&ran), 3);
    must(pthread_join(lets, NULL) == 0);
    CloseThreadpoolWork(work);
    /* What is closed with its pool has yet to come. */
    work = CreateThreadpoolWork(note_work, &ran, &environment);
    CloseThreadpool(environment.Pool);
    SubmitThreadpoolWork(work);
    WaitForThreadpoolWorkCallbacks(work, FALSE);
    IS(ReadAcquire(&ran), 4);
    CloseThreadpoolWork(work);
}

/* ---- Timers. */

static HANDLE QUEUE;
static LONG FIRST, SECOND;

static void *make_first_timer(void *none)
{
    HANDLE timer = NULL;
    must(CreateTimerQueueTimer(&timer, QUEUE, note, &FIRST, 1, 0, WT_EXECUTEINTIMERTHREAD));
    return none;
}

/* The thread that keeps the time is refused to who makes a timer, and meanwhile another makes one, for which the thread comes: both are kept. */
static void timer_beside_one_refused(void)
{
    HANDLE timer = NULL;
    raise_flag(&refuses_slowly);
    pthread_t first = began(make_first_timer, NULL);
    await(&is_refusing);
    ANSWERS(CreateTimerQueueTimer(&timer, QUEUE, note, &SECOND, 1, 0, WT_EXECUTEINTIMERTHREAD), TRUE, UNTOUCHED);
    raise_flag(&may_refuse);
    must(pthread_join(first, NULL) == 0);
    IS(settled(&FIRST, 1), 1);
    IS(settled(&SECOND, 1), 1);
    ANSWERS(DeleteTimerQueueTimer(QUEUE, timer, INVALID_HANDLE_VALUE), TRUE, UNTOUCHED);
}

/* A timer's callback comes once there is a thread: who keeps the time tries again. */
static void timer_that_comes_later(void)
{
    static LONG ticks;
    FILETIME at_once = { 0, 0 };
    TP_CALLBACK_ENVIRON environment = of_new_pool(), other = of_new_pool();
    PTP_WORK work = CreateThreadpoolWork(note_work, &ticks, &other);
    PTP_TIMER timer = CreateThreadpoolTimer(note_timer, &ticks, &environment);
    WriteRelease(&is_full, 1);
    SetThreadpoolTimer(timer, &at_once, 0, 0);
    SubmitThreadpoolWork(work);
    IS(later(&ticks), 0);
    WriteRelease(&is_full, 0);
    IS(settled(&ticks, 2), 2);
    CloseThreadpoolTimer(timer);
    CloseThreadpoolWork(work);
    CloseThreadpool(other.Pool);
    CloseThreadpool(environment.Pool);
}

/* A queue is deleted, without a thread, while one of its callbacks runs; and once. */
static void queue_deleted_without_thread(void)
{
    static LONG steps;
    HANDLE timer = NULL, done = CreateEvent(NULL, FALSE, FALSE, NULL);
    ResetEvent(GO);
    must(CreateTimerQueueTimer(&timer, QUEUE, stay, &steps, 1, 0, WT_EXECUTEINTIMERTHREAD));
    must(CreateTimerQueueTimer(&timer, QUEUE, note, &steps, 100000, 0, WT_EXECUTEDEFAULT));
    IS(settled(&steps, 1), 1);
    WriteRelease(&is_full, 1);
    ANSWERS(DeleteTimerQueueEx(QUEUE, done), FALSE, ERROR_IO_PENDING);
    IS(WaitForSingleObject(done, 0), WAIT_TIMEOUT);
    SetEvent(GO);
    IS(WaitForSingleObject(done, INFINITE), WAIT_OBJECT_0);
    WriteRelease(&is_full, 0);
    IS(later(&steps), 2);
    IS(WaitForSingleObject(done, 0), WAIT_TIMEOUT);
}

int main(void)
{
    HANDLE timer = NULL;
    must((GO = CreateEvent(NULL, TRUE, FALSE, NULL)) != NULL && (QUEUE = CreateTimerQueue()) != NULL);
    WriteRelease(&is_full, 1);
    ANSWERS(CreateTimerQueueTimer(&timer, QUEUE, note, NULL, 1, 0, WT_EXECUTEINTIMERTHREAD), FALSE, ERROR_NOT_ENOUGH_MEMORY);
    WriteRelease(&is_full, 0);
    timer_beside_one_refused();
    queue_deleted_without_thread();
    refused_callbacks();
    work_that_comes_later();
    timer_that_comes_later();
    return counted();
}
