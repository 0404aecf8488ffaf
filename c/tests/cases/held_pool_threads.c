/* Within 20 s: 8 passed, 0 failed.
 *
 * Who starts a thread of a pool is held up, before the thread is there or after: meanwhile one other thread does the pool's work, and the pool, which
 * may have one, does not start further ones again and again. */
#include "creating.h"
#include "../settled.h"

/* (A thread of a pool may be on its way out as the process ends.) */
const char *__tsan_default_options(void);
UNSANITIZED const char *__tsan_default_options(void)
{
    return "report_thread_leaks=0";
}

enum { CALLBACKS = 200, FEW = 10 };

/* While one of these is set, who starts a thread is held up, once. */
static LONG holds_before, holds_after;
static LONG is_held, goes_on, creations;

static void hold(void)
{
    raise_flag(&is_held);
    await(&goes_on);
}

int pthread_create(pthread_t *thread, const pthread_attr_t *attributes, void *(*start)(void *), void *argument)
{
    InterlockedIncrement(&creations);
    if (InterlockedExchange(&holds_before, 0))
        hold();
    const int error = create_by_system(thread, attributes, start, argument);
    if (InterlockedExchange(&holds_after, 0))
        hold();
    return error;
}

static LONG ran;

static void CALLBACK note(PTP_CALLBACK_INSTANCE instance, PVOID none, PTP_WORK work)
{
    (void)instance, (void)none, (void)work;
    InterlockedIncrement(&ran);
}

static void *submits(void *work)
{
    SubmitThreadpoolWork(work);
    return NULL;
}

/* Each of these callbacks ends before the next is submitted, and then as many are submitted together. */
static void submit_all(PTP_WORK work)
{
    for (int i = 0; i < CALLBACKS; i++) {
        SubmitThreadpoolWork(work);
        WaitForThreadpoolWorkCallbacks(work, FALSE);
    }
    for (int i = 0; i < CALLBACKS; i++)
        SubmitThreadpoolWork(work);
    WaitForThreadpoolWorkCallbacks(work, FALSE);
}

/* The first who starts a thread is held up, as this flag has it. */
static void beside_one_held(LONG *holds)
{
    pthread_t first;
    TP_CALLBACK_ENVIRON environment;
    InitializeThreadpoolEnvironment(&environment);
    SetThreadpoolCallbackPool(&environment, CreateThreadpool(NULL));
    SetThreadpoolThreadMaximum(environment.Pool, 1);
    PTP_WORK work = CreateThreadpoolWork(note, NULL, &environment);
    ran = is_held = goes_on = creations = 0;
    raise_flag(holds);
    must(create_by_system(&first, NULL, submits, work) == 0);
    await(&is_held);
    submit_all(work);
    IS(ReadAcquire(&ran), 2 * CALLBACKS + 1);
    IS(ReadAcquire(&creations) < FEW, 1);
    raise_flag(&goes_on);
    must(pthread_join(first, NULL) == 0);
    submit_all(work);
    IS(ReadAcquire(&ran), 4 * CALLBACKS + 1);
    IS(ReadAcquire(&creations) < FEW, 1);
    CloseThreadpoolWork(work);
    CloseThreadpool(environment.Pool);
}

int main(void)
{
    beside_one_held(&holds_before);
    beside_one_held(&holds_after);
    return counted();
}
