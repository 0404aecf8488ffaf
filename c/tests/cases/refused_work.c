/* Within 20 s: 19 passed, 0 failed.
 *
 * The system refuses a pool a thread, once or for a while, and the program waits on an event of its own, which only a callback of that pool sets: so no
 * call of the pool's comes later. The callback comes all the same, since the thread that keeps the time tries again. Where that can't be had, what
 * would need it is refused before. */
#include "creating.h"
#include "../check.h"

/* (A thread of a pool may be on its way out as the process ends.) */
const char *__tsan_default_options(void);
UNSANITIZED const char *__tsan_default_options(void)
{
    return "report_thread_leaks=0";
}

enum { AT_THE_LONGEST = 10000 };

/* How many threads the system refuses from now on, and how many it has. */
static LONG to_refuse, refused;

int pthread_create(pthread_t *thread, const pthread_attr_t *attributes, void *(*start)(void *), void *argument)
{
    if (InterlockedDecrement(&to_refuse) < 0) {
        InterlockedIncrement(&to_refuse);
        return create_by_system(thread, attributes, start, argument);
    }
    InterlockedIncrement(&refused);
    return EAGAIN;
}

static HANDLE done, go;

/* The callback comes, though the program makes no call of the pool's. */
#define COMES(threads_refused) \
    do { \
        IS(WaitForSingleObject(done, AT_THE_LONGEST), WAIT_OBJECT_0); \
        IS(ReadAcquire(&refused), threads_refused); \
        WriteRelease(&refused, 0); \
    } while (0)

static void CALLBACK set_done(PTP_CALLBACK_INSTANCE instance, PVOID none, PTP_WORK work)
{
    (void)instance, (void)none, (void)work;
    SetEvent(done);
}

static void CALLBACK set_done_after_wait(PTP_CALLBACK_INSTANCE instance, PVOID none, PTP_WAIT wait, TP_WAIT_RESULT result)
{
    (void)instance, (void)none, (void)wait, (void)result;
    SetEvent(done);
}

static DWORD WINAPI set_done_as_item(LPVOID none)
{
    (void)none;
    SetEvent(done);
    return 0;
}

static DWORD WINAPI wait_for_done(LPVOID none)
{
    (void)none;
    SetEvent(go);
    must(WaitForSingleObject(done, INFINITE) == WAIT_OBJECT_0);
    SetEvent(go);
    return 0;
}

static TP_CALLBACK_ENVIRON of_new_pool(void)
{
    TP_CALLBACK_ENVIRON environment;
    InitializeThreadpoolEnvironment(&environment);
    SetThreadpoolCallbackPool(&environment, CreateThreadpool(NULL));
    return environment;
}

/* Nobody could try again: nothing is made that may need it. */
static void without_keeper(void)
{
    HANDLE wait = NULL;
    WriteRelease(&to_refuse, INT_MAX);
    IS(CreateThreadpoolWork(set_done, NULL, NULL) == NULL, 1);
    IS(GetLastError(), ERROR_NOT_ENOUGH_MEMORY);
    IS(CreateThreadpoolWait(set_done_after_wait, NULL, NULL) == NULL, 1);
    ANSWERS(QueueUserWorkItem(set_done_as_item, NULL, 0), FALSE, ERROR_NOT_ENOUGH_MEMORY);
    ANSWERS(RegisterWaitForSingleObject(&wait, go, (WAITORTIMERCALLBACK)(void (*)(void))set_done_as_item, NULL, INFINITE, 0), FALSE, ERROR_NOT_ENOUGH_MEMORY);
    WriteRelease(&to_refuse, 0);
    WriteRelease(&refused, 0);
}

/* The one thread of the pool waits for what the second callback does, and that is refused a thread. */
static void behind_a_callback_that_waits(void)
{
    must(QueueUserWorkItem(wait_for_done, NULL, 0) && WaitForSingleObject(go, INFINITE) == WAIT_OBJECT_0);
    WriteRelease(&to_refuse, 1);
    ANSWERS(QueueUserWorkItem(set_done_as_item, NULL, 0), TRUE, UNTOUCHED);
    IS(WaitForSingleObject(go, AT_THE_LONGEST), WAIT_OBJECT_0);
    IS(ReadAcquire(&refused), 1);
    WriteRelease(&refused, 0);
}

/* Work whose thread is refused this often, the first of the pool. */
static void refused_so_often(LONG times)
{
    TP_CALLBACK_ENVIRON environment = of_new_pool();
    PTP_WORK work = CreateThreadpoolWork(set_done, NULL, &environment);
    must(work != NULL);
    WriteRelease(&to_refuse, times);
    SetLastError(UNTOUCHED);
    SubmitThreadpoolWork(work);
    IS(GetLastError(), UNTOUCHED);
    COMES(times);
    CloseThreadpoolWork(work);
    CloseThreadpool(environment.Pool);
}

/* The thread that watches is there, and the one that is to call back is refused. */
static void a_wait_that_is_over(void)
{
    TP_CALLBACK_ENVIRON environment = of_new_pool();
    HANDLE object = CreateEvent(NULL, FALSE, FALSE, NULL);
    PTP_WAIT wait = CreateThreadpoolWait(set_done_after_wait, NULL, &environment);
    must(wait != NULL && object != NULL);
    SetThreadpoolWait(wait, object, NULL);
    WriteRelease(&to_refuse, 2);
    SetEvent(object);
    COMES(2);
    CloseThreadpoolWait(wait);
    CloseThreadpool(environment.Pool);
    CloseHandle(object);
}

int main(void)
{
    must((done = CreateEvent(NULL, FALSE, FALSE, NULL)) != NULL && (go = CreateEvent(NULL, FALSE, FALSE, NULL)) != NULL);
    without_keeper();
    refused_so_often(1);
    refused_so_often(5);
    behind_a_callback_that_waits();
    a_wait_that_is_over();
    return counted();
}
