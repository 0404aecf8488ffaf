/* What each thread has of its own: its id, its stack, its keys, and errno. */
#include "case.h"

/* thread_ids. Within 20 s: 9 passed, 0 failed.
 *
 * GetCurrentThreadId answers 300 threads at once, that make no other call, with ids of which none is 0 and no two are the same. Asking takes
 * no place among those that the library has: after them threads still call, and are made. A thread of CreateThread has the id that this answered. */

enum { THREADS = 300 };

static pthread_barrier_t all;

static void *asks(void *id)
{
    *(DWORD *)id = GetCurrentThreadId();
    pthread_barrier_wait(&all);
    return NULL;
}

static DWORD asks_once_more(LPVOID id)
{
    *(DWORD *)id = GetCurrentThreadId();
    return GetCurrentThreadId() != *(DWORD *)id;
}

int case_thread_ids(void)
{
    pthread_t threads[THREADS];
    DWORD ids[THREADS], told, own;
    int zero = 0, same = 0;
    const DWORD before = GetCurrentThreadId();
    pthread_barrier_init(&all, NULL, THREADS);
    for (int i = 0; i < THREADS; i++)
        must(pthread_create(&threads[i], NULL, asks, &ids[i]) == 0);
    for (int i = 0; i < THREADS; i++)
        pthread_join(threads[i], NULL);
    for (int i = 0; i < THREADS; i++) {
        zero += ids[i] == 0;
        for (int j = 0; j < i; j++)
            same += ids[i] == ids[j];
    }
    IS(zero, 0);
    IS(same, 0);
    HANDLE event = CreateEvent(NULL, TRUE, FALSE, NULL);
    IS(event != NULL, 1);
    IS(before != 0, 1);
    IS(GetCurrentThreadId(), before);
    HANDLE thread = CreateThread(NULL, 0, asks_once_more, &own, 0, &told);
    IS(WaitForSingleObject(thread, INFINITE), WAIT_OBJECT_0);
    IS(own, told);
    IS(own != 0 && own != before, 1);
    IS(SetEvent(event), TRUE);
    return counted();
}

/* stack_sizes. Within 10 s: 9 passed, 0 failed.
 *
 * A stack's size is what is committed at first, and no limit, but with STACK_SIZE_PARAM_IS_A_RESERVATION: a thread with 4096 has room for
 * 400 KB. A size that no memory has fails. */

enum { ROOM = 400 * 1024 };

static DWORD fill(LPVOID last)
{
    volatile char room[ROOM];
    memset((char *)room, 7, sizeof room);
    *(int *)last = room[0] + room[ROOM / 2];
    return 0;
}

static void has_room(SIZE_T stack, DWORD flags)
{
    int last = 0;
    HANDLE thread = CreateThread(NULL, stack, fill, &last, flags, NULL);
    IS(WaitForSingleObject(thread, INFINITE), WAIT_OBJECT_0);
    IS(last, 14);
}

int case_stack_sizes(void)
{
    int last;
    has_room(1, 0);
    has_room(4096, 0);
    has_room(65536, 0);
    has_room(4 << 20, STACK_SIZE_PARAM_IS_A_RESERVATION);
    SetLastError(0);
    must(CreateThread(NULL, SIZE_MAX, fill, &last, 0, NULL) == NULL);
    IS(GetLastError(), ERROR_NOT_ENOUGH_MEMORY);
    return counted();
}

/* key_of_the_program. Within 10 s: 12 passed, 0 failed.
 *
 * A key that the program made after its first call has a destructor, which makes calls, and again in the next round of destructors. The
 * thread ends for the library after both, whether CreateThread made it or not. */

enum { ROUNDS = 2 };

static pthread_key_t key;
static HANDLE mutex;
static int round_of_call;
static BOOL answers[ROUNDS];

static void at_end(void *value)
{
    const BOOL answer = ReleaseMutex(mutex);
    answers[round_of_call++] = answer;
    if (round_of_call < ROUNDS)
        pthread_setspecific(key, value);
}

/* The thread holds the mutex as often as it will give it back. */
static DWORD run(LPVOID unused)
{
    (void)unused;
    for (int i = 0; i < ROUNDS; i++)
        IS(WaitForSingleObject(mutex, INFINITE), WAIT_OBJECT_0);
    pthread_setspecific(key, &key);
    return 0;
}

static void *run_foreign(void *unused)
{
    run(unused);
    return NULL;
}

static void check_end(void)
{
    IS(answers[0], TRUE);
    IS(answers[1], TRUE);
    IS(WaitForSingleObject(mutex, 0), WAIT_OBJECT_0);
    ReleaseMutex(mutex);
    memset(answers, 0, sizeof answers);
    round_of_call = 0;
}

int case_key_of_the_program(void)
{
    pthread_t thread;
    mutex = CreateMutex(NULL, FALSE, NULL);
    must(pthread_key_create(&key, at_end) == 0);
    IS(WaitForSingleObject(CreateThread(NULL, 0, run, NULL, 0, NULL), INFINITE), WAIT_OBJECT_0);
    check_end();
    must(pthread_create(&thread, NULL, run_foreign, NULL) == 0);
    IS(pthread_join(thread, NULL), 0);
    check_end();
    return counted();
}

/* errno_stays. Within 20 s: 22 passed, 0 failed.
 *
 * A call that sleeps leaves errno, as a program for Windows reads it after calls of its C library alone: whether it sleeps until its time
 * is up or until it is woken. */

enum { OWN_ERROR = 77, A_WHILE = 5 };

static HANDLE event;
static SRWLOCK lock;
static CRITICAL_SECTION section;
static CONDITION_VARIABLE variable;
static LONG word, zero;

/* The call answers that, and leaves errno. */
#define LEAVES_ERRNO(call, answer) \
    do { \
        errno = OWN_ERROR; \
        IS(call, answer); \
        IS(errno, OWN_ERROR); \
    } while (0)

static DWORD sleep_alertably(void)
{
    return SleepEx(A_WHILE, TRUE);
}

static DWORD sleep_for_a_while(void)
{
    Sleep(A_WHILE);
    return 0;
}

static BOOL wait_on_variable(void)
{
    AcquireSRWLockExclusive(&lock);
    const BOOL answer = SleepConditionVariableSRW(&variable, &lock, A_WHILE, 0);
    ReleaseSRWLockExclusive(&lock);
    return answer;
}

/* ---- What another thread has, for a while. */

static LONG has_all;

static void *have_all_for_a_while(void *none)
{
    EnterCriticalSection(&section);
    AcquireSRWLockExclusive(&lock);
    raise_flag(&has_all);
    rest_ms(4 * A_WHILE);
    LeaveCriticalSection(&section);
    rest_ms(4 * A_WHILE);
    ReleaseSRWLockExclusive(&lock);
    rest_ms(4 * A_WHILE);
    SetEvent(event);
    rest_ms(4 * A_WHILE);
    WriteRelease(&word, 1);
    WakeByAddressSingle(&word);
    return none;
}

static DWORD enter_and_leave(void)
{
    EnterCriticalSection(&section);
    LeaveCriticalSection(&section);
    return 0;
}

static DWORD share_and_give(void)
{
    AcquireSRWLockShared(&lock);
    ReleaseSRWLockShared(&lock);
    return 0;
}

static DWORD wait_for_word(void)
{
    while (ReadAcquire(&word) == 0)
        WaitOnAddress(&word, &zero, sizeof zero, INFINITE);
    return 0;
}

int case_errno_stays(void)
{
    pthread_t other;
    must((event = CreateEvent(NULL, FALSE, FALSE, NULL)) != NULL);
    InitializeCriticalSection(&section);
    LEAVES_ERRNO(WaitForSingleObject(event, A_WHILE), WAIT_TIMEOUT);
    LEAVES_ERRNO(WaitForMultipleObjectsEx(1, &event, TRUE, A_WHILE, TRUE), WAIT_TIMEOUT);
    LEAVES_ERRNO(sleep_for_a_while(), 0);
    LEAVES_ERRNO(sleep_alertably(), 0);
    LEAVES_ERRNO(WaitOnAddress(&word, &zero, sizeof zero, A_WHILE), FALSE);
    LEAVES_ERRNO(wait_on_variable(), FALSE);
    must(pthread_create(&other, NULL, have_all_for_a_while, NULL) == 0);
    await(&has_all);
    LEAVES_ERRNO(enter_and_leave(), 0);
    LEAVES_ERRNO(share_and_give(), 0);
    LEAVES_ERRNO(WaitForSingleObject(event, INFINITE), WAIT_OBJECT_0);
    LEAVES_ERRNO(WaitForSingleObject(event, 0), WAIT_TIMEOUT);
    LEAVES_ERRNO(wait_for_word(), 0);
    must(pthread_join(other, NULL) == 0);
    return counted();
}
