/* One-time initialization and barriers: what each call answers with its last error, row by row, from Microsoft's pages; and each under threads,
 * with what must always hold. */
#include <windows.h>

#include "crowd.h"

enum { ROUNDS = 4000 };

/* ---- One-time initialization. */

static LONG CALLS, FAILURES_LEFT;
static int MADE __attribute__((aligned(8)));

static BOOL CALLBACK make(PINIT_ONCE once, PVOID parameter, PVOID *context)
{
    (void)once;
    CALLS++;
    if (FAILURES_LEFT > 0) {
        FAILURES_LEFT--;
        SetLastError(77);
        return FALSE;
    }
    *context = parameter;
    return TRUE;
}

/* It has a context with a bit that is not its own, for the first few times. */
static BOOL CALLBACK make_badly(PINIT_ONCE once, PVOID parameter, PVOID *context)
{
    (void)once;
    CALLS++;
    *context = parameter;
    if (FAILURES_LEFT > 0) {
        FAILURES_LEFT--;
        *context = (char *)parameter + 1 + FAILURES_LEFT % 3;
    }
    return TRUE;
}

/* It finds what the caller has in its context, and where. */
static BOOL CALLBACK make_of_context(PINIT_ONCE once, PVOID parameter, PVOID *context)
{
    (void)once;
    IS((ULONG_PTR)context, (ULONG_PTR)parameter);
    IS((ULONG_PTR)*context, 40);
    *context = (PVOID)((ULONG_PTR)*context + 8);
    return TRUE;
}

static void *execute_badly(void *once)
{
    LPVOID context = NULL;
    while (!InitOnceExecuteOnce(once, make_badly, &MADE, &context))
        must(GetLastError() == ERROR_INVALID_PARAMETER);
    must(context == &MADE);
    return NULL;
}

/* What a callback makes is refused where it is no context, and the next tries; a callback finds the caller's context. */
static void contexts(void)
{
    INIT_ONCE once = INIT_ONCE_STATIC_INIT;
    LPVOID context = NULL;
    FAILURES_LEFT = 2;
    CALLS = 0;
    ANSWERS(InitOnceExecuteOnce(&once, make_badly, &MADE, &context), FALSE, ERROR_INVALID_PARAMETER);
    ANSWERS(InitOnceExecuteOnce(&once, make_badly, &MADE, NULL), FALSE, ERROR_INVALID_PARAMETER);
    ANSWERS(InitOnceExecuteOnce(&once, make_badly, &MADE, &context), TRUE, UNTOUCHED);
    IS((ULONG_PTR)context, (ULONG_PTR)&MADE);
    IS(CALLS, 3);
    InitOnceInitialize(&once);
    context = (LPVOID)40;
    ANSWERS(InitOnceExecuteOnce(&once, make_of_context, &context, &context), TRUE, UNTOUCHED);
    IS((ULONG_PTR)context, 48);
    ANSWERS(InitOnceExecuteOnce(&once, make_of_context, NULL, NULL), TRUE, UNTOUCHED);
    /* By many threads. */
    InitOnceInitialize(&once);
    FAILURES_LEFT = 9;
    CALLS = 0;
    for (int i = 0; i < THREADS; i++)
        start(execute_badly, &once);
    join_all();
    IS(CALLS, 10);
}

/* It fails, after a while in which another thread comes to wait; and then succeeds. */
static BOOL CALLBACK fail_slowly(PINIT_ONCE once, PVOID parameter, PVOID *context)
{
    (void)once;
    (void)parameter;
    (void)context;
    if (InterlockedIncrement(&CALLS) > 1)
        return TRUE;
    Sleep(30);
    return FALSE;
}

static void *execute_after_failure(void *once)
{
    AWAIT(ReadAcquire(&CALLS) > 0);
    must(InitOnceExecuteOnce(once, fail_slowly, NULL, NULL));
    return NULL;
}

/* Who waits for an initialization that fails goes on with one. */
static void failed_initialization(void)
{
    INIT_ONCE once = INIT_ONCE_STATIC_INIT;
    CALLS = 0;
    start(execute_after_failure, &once);
    start(execute_after_failure, &once);
    IS(InitOnceExecuteOnce(&once, fail_slowly, NULL, NULL), FALSE);
    join_all();
    IS(CALLS, 2);
}

static INIT_ONCE ONCE = INIT_ONCE_STATIC_INIT;

static void *execute_once(void *none)
{
    LPVOID context = NULL;
    (void)none;
    for (int i = 0; i < 100; i++)
        while (!InitOnceExecuteOnce(&ONCE, make, &MADE, &context))
            continue;
    must(context == &MADE);
    return NULL;
}

static void one_time_initialization(void)
{
    INIT_ONCE once = INIT_ONCE_STATIC_INIT;
    LPVOID context = NULL;
    BOOL pending = 9;
    ANSWERS(InitOnceBeginInitialize(&once, INIT_ONCE_CHECK_ONLY, &pending, &context), FALSE, ERROR_GEN_FAILURE);
    ANSWERS(InitOnceBeginInitialize(&once, INIT_ONCE_CHECK_ONLY | INIT_ONCE_ASYNC, &pending, &context), FALSE, ERROR_INVALID_PARAMETER);
    ANSWERS(InitOnceComplete(&once, 0, NULL), FALSE, ERROR_GEN_FAILURE);
    ANSWERS(InitOnceBeginInitialize(&once, 0, &pending, &context), TRUE, UNTOUCHED);
    IS(pending, TRUE);
    ANSWERS(InitOnceBeginInitialize(&once, INIT_ONCE_ASYNC, &pending, &context), FALSE, ERROR_INVALID_PARAMETER);
    ANSWERS(InitOnceComplete(&once, 0, (LPVOID)1), FALSE, ERROR_INVALID_PARAMETER);
    ANSWERS(InitOnceComplete(&once, INIT_ONCE_INIT_FAILED, &MADE), FALSE, ERROR_INVALID_PARAMETER);
    ANSWERS(InitOnceComplete(&once, INIT_ONCE_INIT_FAILED | INIT_ONCE_ASYNC, NULL), FALSE, ERROR_INVALID_PARAMETER);
    ANSWERS(InitOnceComplete(&once, INIT_ONCE_INIT_FAILED, NULL), TRUE, UNTOUCHED);
    ANSWERS(InitOnceBeginInitialize(&once, 0, &pending, &context), TRUE, UNTOUCHED);
    IS(pending, TRUE);
    ANSWERS(InitOnceComplete(&once, 0, &MADE), TRUE, UNTOUCHED);
    ANSWERS(InitOnceBeginInitialize(&once, INIT_ONCE_CHECK_ONLY, &pending, &context), TRUE, UNTOUCHED);
    IS(pending, FALSE);
    IS((ULONG_PTR)context, (ULONG_PTR)&MADE);
    ANSWERS(InitOnceComplete(&once, 0, NULL), FALSE, ERROR_GEN_FAILURE);
    /* More than one begins; who completes it first decides. */
    InitOnceInitialize(&once);
    ANSWERS(InitOnceBeginInitialize(&once, INIT_ONCE_ASYNC, &pending, NULL), TRUE, UNTOUCHED);
    IS(pending, TRUE);
    pending = FALSE;
    ANSWERS(InitOnceBeginInitialize(&once, INIT_ONCE_ASYNC, &pending, NULL), TRUE, UNTOUCHED);
    IS(pending, TRUE);
    ANSWERS(InitOnceBeginInitialize(&once, 0, &pending, NULL), FALSE, ERROR_INVALID_PARAMETER);
    ANSWERS(InitOnceComplete(&once, 0, &MADE), FALSE, ERROR_INVALID_PARAMETER);
    ANSWERS(InitOnceComplete(&once, INIT_ONCE_ASYNC, &MADE), TRUE, UNTOUCHED);
    ANSWERS(InitOnceComplete(&once, INIT_ONCE_ASYNC, NULL), FALSE, ERROR_GEN_FAILURE);
    /* A callback that fails leaves it as it was. */
    InitOnceInitialize(&once);
    FAILURES_LEFT = 1;
    CALLS = 0;
    ANSWERS(InitOnceExecuteOnce(&once, make, &MADE, &context), FALSE, 77);
    context = NULL;
    ANSWERS(InitOnceExecuteOnce(&once, make, &MADE, &context), TRUE, UNTOUCHED);
    IS((ULONG_PTR)context, (ULONG_PTR)&MADE);
    ANSWERS(InitOnceExecuteOnce(&once, make, NULL, NULL), TRUE, UNTOUCHED);
    IS(CALLS, 2);
    /* By many threads, of which one initializes, once three have failed. */
    FAILURES_LEFT = 3;
    CALLS = 0;
    for (int i = 0; i < THREADS; i++)
        start(execute_once, NULL);
    join_all();
    IS(CALLS, 4);
}

/* ---- Barriers. */

static SYNCHRONIZATION_BARRIER BARRIER;
static LONG COME[ROUNDS], LAST;
static DWORD HOW;

static LONG CAME;

static void *come_late(void *ms)
{
    Sleep((DWORD)(ULONG_PTR)ms);
    InterlockedIncrement(&CAME);
    EnterSynchronizationBarrier(&BARRIER, SYNCHRONIZATION_BARRIER_FLAGS_BLOCK_ONLY);
    return NULL;
}

/* Who deletes a barrier waits until all have left it. */
static void deleted_barrier(void)
{
    must(InitializeSynchronizationBarrier(&BARRIER, 2, 0));
    start(come_late, NULL);
    /* (The field in which a barrier counts who has come.) */
    AWAIT(__atomic_load_n(&BARRIER.Reserved2, __ATOMIC_ACQUIRE) == 1);
    start(come_late, (void *)40);
    ANSWERS(DeleteSynchronizationBarrier(&BARRIER), TRUE, UNTOUCHED);
    IS(ReadAcquire(&CAME), 2);
    join_all();
}

static void *come_to_barrier(void *none)
{
    (void)none;
    for (int i = 0; i < ROUNDS / 8; i++) {
        InterlockedIncrement(&COME[i]);
        if (EnterSynchronizationBarrier(&BARRIER, HOW))
            InterlockedIncrement(&LAST);
        must(ReadAcquire(&COME[i]) == THREADS);
    }
    return NULL;
}

static void barriers(void)
{
    const DWORD ways[] = { 0, SYNCHRONIZATION_BARRIER_FLAGS_BLOCK_ONLY, SYNCHRONIZATION_BARRIER_FLAGS_NO_DELETE };
    ANSWERS(InitializeSynchronizationBarrier(&BARRIER, 0, -1), FALSE, ERROR_INVALID_PARAMETER);
    ANSWERS(InitializeSynchronizationBarrier(&BARRIER, -1, -1), FALSE, ERROR_INVALID_PARAMETER);
    ANSWERS(InitializeSynchronizationBarrier(&BARRIER, 1, -2), FALSE, ERROR_INVALID_PARAMETER);
    ANSWERS(InitializeSynchronizationBarrier(&BARRIER, 1, 0), TRUE, UNTOUCHED);
    ANSWERS(EnterSynchronizationBarrier(&BARRIER, 0), TRUE, UNTOUCHED);
    ANSWERS(EnterSynchronizationBarrier(&BARRIER, SYNCHRONIZATION_BARRIER_FLAGS_SPIN_ONLY), TRUE, UNTOUCHED);
    ANSWERS(DeleteSynchronizationBarrier(&BARRIER), TRUE, UNTOUCHED);
    for (int i = 0; i < 3; i++) {
        HOW = ways[i];
        LAST = 0;
        memset(COME, 0, sizeof COME);
        IS(InitializeSynchronizationBarrier(&BARRIER, THREADS, i == 0 ? -1 : 10), TRUE);
        for (int thread = 0; thread < THREADS; thread++)
            start(come_to_barrier, NULL);
        join_all();
        IS(LAST, ROUNDS / 8);
        IS(DeleteSynchronizationBarrier(&BARRIER), TRUE);
    }
}

int main(void)
{
    one_time_initialization();
    contexts();
    failed_initialization();
    barriers();
    deleted_barrier();
    return counted();
}
