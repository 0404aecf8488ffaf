/* Critical sections and SRW locks: what each call answers with its last error, row by row, from Microsoft's pages; and each under threads, with
 * what must always hold. */
#ifndef _GNU_SOURCE
#define _GNU_SOURCE
#endif
#include <windows.h>

#include "crowd.h"

#include <sys/syscall.h>
#include <sys/wait.h>
#include <unistd.h>

enum { ROUNDS = 4000 };

/* ---- Critical sections. */

static CRITICAL_SECTION SECTION;

static void *try_section(void *answer)
{
    *(BOOL *)answer = TryEnterCriticalSection(&SECTION);
    if (*(BOOL *)answer)
        LeaveCriticalSection(&SECTION);
    return NULL;
}

static BOOL tried_by_another(void)
{
    BOOL answer;
    start(try_section, &answer);
    join_all();
    return answer;
}

static void critical_sections(void)
{
    const DWORD me = GetCurrentThreadId();
    memset(&SECTION, 0xCC, sizeof SECTION);
    InitializeCriticalSection(&SECTION);
    IS((LONG_PTR)SECTION.DebugInfo, -1);
    IS((ULONG_PTR)SECTION.LockSemaphore, 0);
    IS(SECTION.SpinCount, 0);
    SECTION_IS(SECTION, -1, 0, 0);
    SetLastError(UNTOUCHED);
    EnterCriticalSection(&SECTION);
    SECTION_IS(SECTION, 0, 1, me);
    EnterCriticalSection(&SECTION);
    IS(SECTION.RecursionCount, 2);
    ANSWERS(TryEnterCriticalSection(&SECTION), TRUE, UNTOUCHED);
    IS(SECTION.RecursionCount, 3);
    IS(tried_by_another(), FALSE);
    LeaveCriticalSection(&SECTION);
    LeaveCriticalSection(&SECTION);
    SECTION_IS(SECTION, 0, 1, me);
    IS(tried_by_another(), FALSE);
    LeaveCriticalSection(&SECTION);
    SECTION_IS(SECTION, -1, 0, 0);
    IS(tried_by_another(), TRUE);
    ANSWERS(SetCriticalSectionSpinCount(&SECTION, 4000), 0, UNTOUCHED);
    ANSWERS(SetCriticalSectionSpinCount(&SECTION, 0), 4000, UNTOUCHED);
    DeleteCriticalSection(&SECTION);
    IS((ULONG_PTR)SECTION.DebugInfo, 0);
    SECTION_IS(SECTION, -1, 0, 0);
    ANSWERS(InitializeCriticalSectionAndSpinCount(&SECTION, 0x80000400), TRUE, UNTOUCHED);
    IS(SECTION.SpinCount, 0x400);
    DeleteCriticalSection(&SECTION);
    ANSWERS(InitializeCriticalSectionEx(&SECTION, 100, CRITICAL_SECTION_NO_DEBUG_INFO), TRUE, UNTOUCHED);
    IS(SECTION.SpinCount, 100);
    DeleteCriticalSection(&SECTION);
    ANSWERS(InitializeCriticalSectionEx(&SECTION, 0, 0x80000000), FALSE, ERROR_INVALID_PARAMETER);
    ANSWERS(InitializeCriticalSectionEx(&SECTION, 0x01000000, 0), FALSE, ERROR_INVALID_PARAMETER);
}

static long COUNTED, INSIDE, MISTAKES;

static void *count_in_section(void *none)
{
    (void)none;
    for (int i = 0; i < ROUNDS; i++) {
        const bool again = i % 3 == 0;
        if (i % 5 == 0)
            AWAIT(TryEnterCriticalSection(&SECTION));
        else
            EnterCriticalSection(&SECTION);
        if (again)
            EnterCriticalSection(&SECTION);
        MISTAKES += ++INSIDE != 1 || SECTION.RecursionCount != 1 + again;
        COUNTED++;
        INSIDE--;
        if (again)
            LeaveCriticalSection(&SECTION);
        LeaveCriticalSection(&SECTION);
    }
    return NULL;
}

static void crowd_in_a_section(void)
{
    InitializeCriticalSection(&SECTION);
    COUNTED = INSIDE = MISTAKES = 0;
    for (int i = 0; i < THREADS; i++)
        start(count_in_section, NULL);
    join_all();
    IS(COUNTED, (long)THREADS * ROUNDS);
    IS(MISTAKES, 0);
    SECTION_IS(SECTION, -1, 0, 0);
    DeleteCriticalSection(&SECTION);
}

static CRITICAL_SECTION HELD, FREE_ONE;

/* The number in the system of a thread that asks for its id; 0 for its own. */
static pid_t NUMBER;

pid_t gettid(void)
{
    return NUMBER != 0 ? NUMBER : (pid_t)syscall(SYS_gettid);
}

static void *tries_held(void *none)
{
    (void)none;
    return TryEnterCriticalSection(&HELD) ? "had" : NULL;
}

/* Whether a thread that is made in a child, and has the number there that this one had in the parent, is another one. */
static bool is_another(pid_t number)
{
    pthread_t thread;
    void *had = NULL;
    NUMBER = number;
    return pthread_create(&thread, NULL, tries_held, NULL) == 0 && pthread_join(thread, &had) == 0 && had == NULL;
}

/* The thread that forked is the same in the child, as it is for POSIX: it owns what it had entered, by the same id. */
static int enters_in_child(DWORD parent, pid_t number)
{
    if (!TryEnterCriticalSection(&HELD))
        return 4;
    EnterCriticalSection(&HELD);
    EnterCriticalSection(&FREE_ONE);
    const HANDLE id = (HANDLE)(ULONG_PTR)GetCurrentThreadId();
    if (id != (HANDLE)(ULONG_PTR)parent || FREE_ONE.OwningThread != id || HELD.OwningThread != id || HELD.RecursionCount != 3)
        return 1;
    if (!is_another(number))
        return 2;
    for (int i = 0; i < 3; i++)
        LeaveCriticalSection(&HELD);
    return HELD.LockCount == -1 ? 7 : 3;
}

static int status_of(pid_t child)
{
    int status = 0;
    must(child > 0 && waitpid(child, &status, 0) == child);
    return WIFEXITED(status) ? WEXITSTATUS(status) : 1000;
}

static void entered_after_a_fork(void)
{
    InitializeCriticalSection(&HELD);
    InitializeCriticalSection(&FREE_ONE);
    EnterCriticalSection(&HELD);
    const DWORD parent = GetCurrentThreadId();
    const pid_t number = gettid(), child = fork();
    if (child == 0) {
        /* So it is in a child of the child. */
        const pid_t second = fork();
        _exit(second == 0 || status_of(second) == 7 ? enters_in_child(parent, number) : 5);
    }
    IS(status_of(child), 7);
    SECTION_IS(HELD, 0, 1, parent);
    LeaveCriticalSection(&HELD);
}

static pthread_barrier_t ENTERED;

static void *enters_held(void *none)
{
    (void)none;
    EnterCriticalSection(&HELD);
    pthread_barrier_wait(&ENTERED);
    pthread_barrier_wait(&ENTERED);
    LeaveCriticalSection(&HELD);
    return NULL;
}

/* What another thread had entered is still that one's. */
static void entered_by_another_at_a_fork(void)
{
    pthread_t other;
    must(pthread_barrier_init(&ENTERED, NULL, 2) == 0 && pthread_create(&other, NULL, enters_held, NULL) == 0);
    pthread_barrier_wait(&ENTERED);
    const pid_t child = fork();
    if (child == 0)
        _exit(TryEnterCriticalSection(&HELD) ? 1 : 7);
    IS(status_of(child), 7);
    pthread_barrier_wait(&ENTERED);
    must(pthread_join(other, NULL) == 0);
}

/* ---- SRW locks. */

static SRWLOCK LOCK = SRWLOCK_INIT;

static LONG HAS_IT;

static void *wait_for_lock(void *none)
{
    (void)none;
    AcquireSRWLockExclusive(&LOCK);
    InterlockedExchange(&HAS_IT, 1);
    ReleaseSRWLockExclusive(&LOCK);
    return NULL;
}

static void srw_locks(void)
{
    IS((ULONG_PTR)LOCK.Ptr, 0);
    InitializeSRWLock(&LOCK);
    tries(&LOCK, TRUE, TRUE);
    AcquireSRWLockShared(&LOCK);
    tries(&LOCK, TRUE, FALSE);
    AcquireSRWLockShared(&LOCK);
    tries(&LOCK, TRUE, FALSE);
    ReleaseSRWLockShared(&LOCK);
    tries(&LOCK, TRUE, FALSE);
    ReleaseSRWLockShared(&LOCK);
    tries(&LOCK, TRUE, TRUE);
    AcquireSRWLockExclusive(&LOCK);
    tries(&LOCK, FALSE, FALSE);
    ReleaseSRWLockExclusive(&LOCK);
    tries(&LOCK, TRUE, TRUE);
    /* One that waits for it alone goes before new ones that share. */
    AcquireSRWLockShared(&LOCK);
    start(wait_for_lock, NULL);
    while (TryAcquireSRWLockShared(&LOCK)) {
        ReleaseSRWLockShared(&LOCK);
        sched_yield();
    }
    tries(&LOCK, FALSE, FALSE);
    IS(ReadAcquire(&HAS_IT), 0);
    ReleaseSRWLockShared(&LOCK);
    AcquireSRWLockShared(&LOCK);
    IS(ReadAcquire(&HAS_IT), 1);
    ReleaseSRWLockShared(&LOCK);
    join_all();
}

/* As many share it as its word counts, one short of what stands for who has it alone; one more waits. */
static void shared_by_the_most(void)
{
    enum { MOST = 0xFFFF - 1 };
    for (int i = 0; i < MOST; i++)
        AcquireSRWLockShared(&LOCK);
    tries(&LOCK, FALSE, FALSE);
    ReleaseSRWLockShared(&LOCK);
    tries(&LOCK, TRUE, FALSE);
    for (int i = 1; i < MOST; i++)
        ReleaseSRWLockShared(&LOCK);
    tries(&LOCK, TRUE, TRUE);
}

static long PAIR[2];
static LONG SHARERS, MOST_SHARERS;

/* (One that is woken may find the lock taken once more, and then waits behind it.) */
static void *read_and_write(void *number)
{
    for (int i = 0; i < ROUNDS; i++) {
        if ((i + *(int *)number) % 4 == 0) {
            AcquireSRWLockExclusive(&LOCK);
            MISTAKES += ReadAcquire(&SHARERS) != 0;
            PAIR[0]++;
            PAIR[1]--;
            ReleaseSRWLockExclusive(&LOCK);
            continue;
        }
        AcquireSRWLockShared(&LOCK);
        const LONG sharers = InterlockedIncrement(&SHARERS);
        if (sharers > ReadNoFence(&MOST_SHARERS))
            WriteNoFence(&MOST_SHARERS, sharers);
        must(PAIR[0] == -PAIR[1]);
        InterlockedDecrement(&SHARERS);
        ReleaseSRWLockShared(&LOCK);
    }
    return NULL;
}

static void crowd_over_a_lock(void)
{
    static int numbers[THREADS];
    MISTAKES = 0;
    for (int i = 0; i < THREADS; i++) {
        numbers[i] = i;
        start(read_and_write, &numbers[i]);
    }
    join_all();
    IS(PAIR[0], (long)THREADS * ROUNDS / 4);
    IS(PAIR[1], -(long)THREADS * ROUNDS / 4);
    IS(MISTAKES, 0);
    IS(MOST_SHARERS >= 1 && MOST_SHARERS <= THREADS, 1);
    tries(&LOCK, TRUE, TRUE);
}

int main(void)
{
    critical_sections();
    crowd_in_a_section();
    DeleteCriticalSection(&SECTION);
    entered_after_a_fork();
    entered_by_another_at_a_fork();
    srw_locks();
    shared_by_the_most();
    crowd_over_a_lock();
    return counted();
}
