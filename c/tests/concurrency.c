/* How many threads a completion port lets run: who gets no packet while others have theirs, which sleeps let another run in a thread's place, and how many
 * run at once among many. A thread that is not let run leaves its test asleep. */
#define _GNU_SOURCE
#include <windows.h>

#include "crowd.h"

enum { PACKETS = 3000 };

static HANDLE PORT;

/* A port for this number of threads, with packets whose keys are 1, 2, and so on. */
static HANDLE port_for(DWORD threads, ULONG_PTR packets)
{
    HANDLE port = CreateIoCompletionPort(INVALID_HANDLE_VALUE, NULL, 0, threads);
    must(port != NULL);
    for (ULONG_PTR key = 1; key <= packets; key++)
        must(PostQueuedCompletionStatus(port, 0, key, NULL));
    return port;
}

/* The key of the packet that the caller gets; 0 where it gets none in time. */
static ULONG_PTR next(HANDLE port, DWORD ms)
{
    DWORD bytes;
    ULONG_PTR key;
    LPOVERLAPPED overlapped;
    if (GetQueuedCompletionStatus(port, &bytes, &key, &overlapped, ms))
        return key;
    must(GetLastError() == WAIT_TIMEOUT);
    return 0;
}

static void *poll_once(void *key)
{
    *(ULONG_PTR *)key = next(PORT, 0);
    return NULL;
}

/* The same, of a thread that has had none, asks once and ends. */
static ULONG_PTR polled(void)
{
    pthread_t thread;
    ULONG_PTR key = 99;
    must(pthread_create(&thread, NULL, poll_once, &key) == 0 && pthread_join(thread, NULL) == 0);
    return key;
}

static void one_runs(void)
{
    OVERLAPPED_ENTRY entries[2];
    ULONG removed;
    PORT = port_for(1, 6);
    IS(next(PORT, 0), 1);
    IS(polled(), 0);
    IS(next(PORT, 0), 2);
    IS(polled(), 0);
    /* Several packets are one thread's. */
    IS(GetQueuedCompletionStatusEx(PORT, entries, 2, &removed, 0, FALSE), TRUE);
    IS(removed, 2);
    IS(entries[1].lpCompletionKey, 4);
    IS(polled(), 0);
    IS(next(PORT, 0), 5);
    IS(next(PORT, 0), 6);
    /* Who asked in vain has none any longer, nor has a thread that has ended. */
    IS(next(PORT, 0), 0);
    must(PostQueuedCompletionStatus(PORT, 0, 7, NULL));
    IS(polled(), 7);
    must(PostQueuedCompletionStatus(PORT, 0, 8, NULL));
    IS(next(PORT, 0), 8);
    CloseHandle(PORT);
}

/* Who takes a packet of another port is done with that of the first. */
static void another_port(void)
{
    HANDLE other = port_for(1, 2);
    PORT = port_for(1, 2);
    IS(next(PORT, 0), 1);
    IS(polled(), 0);
    IS(next(other, 0), 1);
    IS(polled(), 2);
    CloseHandle(PORT);
    PORT = other;
    IS(polled(), 0);
    CloseHandle(other);
}

/* ---- As many as the port allows. */

static pthread_barrier_t HELD, LET_GO;

static void *hold_packet(void *none)
{
    (void)none;
    must(next(PORT, INFINITE) != 0);
    pthread_barrier_wait(&HELD);
    pthread_barrier_wait(&LET_GO);
    return NULL;
}

/* So many threads hold packets of a port that was created for `threads`, and the next gets none. */
static void as_many_run(DWORD threads, unsigned many)
{
    pthread_t *holders = calloc(many, sizeof *holders);
    PORT = port_for(threads, many + 1);
    must(holders != NULL && pthread_barrier_init(&HELD, NULL, many + 1) == 0 && pthread_barrier_init(&LET_GO, NULL, many + 1) == 0);
    for (unsigned i = 0; i < many; i++)
        must(pthread_create(&holders[i], NULL, hold_packet, NULL) == 0);
    pthread_barrier_wait(&HELD);
    IS(polled(), 0);
    pthread_barrier_wait(&LET_GO);
    for (unsigned i = 0; i < many; i++)
        must(pthread_join(holders[i], NULL) == 0);
    IS(polled(), many + 1);
    pthread_barrier_destroy(&HELD);
    pthread_barrier_destroy(&LET_GO);
    CloseHandle(PORT);
    free(holders);
}

/* ---- Sleeps. The first thread has a packet and sleeps in some way; the second gets the next packet only then, and ends that sleep. */

static LONG GOT, KEPT, CHANGED, DONE;
static HANDLE EVENT, SEMAPHORE, FIRST;
static CRITICAL_SECTION SECTION;
static SRWLOCK LOCK;
static CONDITION_VARIABLE VARIABLE;
static INIT_ONCE ONCE;
static SYNCHRONIZATION_BARRIER BARRIER;

static void CALLBACK nothing(ULONG_PTR none)
{
    (void)none;
}

static void for_object(void) { must(WaitForSingleObject(EVENT, INFINITE) == WAIT_OBJECT_0); }
static void set_event(void) { must(SetEvent(EVENT)); }
static void with_signal(void) { must(SignalObjectAndWait(SEMAPHORE, EVENT, INFINITE, FALSE) == WAIT_OBJECT_0); }
static void for_apc(void) { must(SleepEx(INFINITE, TRUE) == WAIT_IO_COMPLETION); }
static void queue_apc(void) { must(QueueUserAPC(nothing, FIRST, 0)); }

static void for_several(void)
{
    HANDLE both[] = { EVENT, FIRST };
    must(WaitForMultipleObjectsEx(2, both, FALSE, INFINITE, TRUE) == WAIT_IO_COMPLETION);
}

static void by_naps(void)
{
    while (ReadAcquire(&GOT) == 0)
        Sleep(1);
}

static void on_address(void)
{
    for (LONG none = 0; ReadAcquire(&CHANGED) == 0;)
        must(WaitOnAddress(&CHANGED, &none, sizeof none, INFINITE));
}

static void change_word(void)
{
    WriteRelease(&CHANGED, 1);
    WakeByAddressSingle(&CHANGED);
}

static void on_variable(void)
{
    EnterCriticalSection(&SECTION);
    while (DONE == 0)
        must(SleepConditionVariableCS(&VARIABLE, &SECTION, INFINITE));
    LeaveCriticalSection(&SECTION);
}

static void end_sleep_on_variable(void)
{
    EnterCriticalSection(&SECTION);
    DONE = 1;
    LeaveCriticalSection(&SECTION);
    WakeConditionVariable(&VARIABLE);
}

static void at_barrier(void)
{
    EnterSynchronizationBarrier(&BARRIER, SYNCHRONIZATION_BARRIER_FLAGS_BLOCK_ONLY);
}

/* A third thread keeps what the first wants until the second has its packet. */
static void enter(void) { EnterCriticalSection(&SECTION); LeaveCriticalSection(&SECTION); }
static void be_alone(void) { AcquireSRWLockExclusive(&LOCK); ReleaseSRWLockExclusive(&LOCK); }
static void share(void) { AcquireSRWLockShared(&LOCK); ReleaseSRWLockShared(&LOCK); }

static void keep_until_it_is_got(void)
{
    WriteRelease(&KEPT, 1);
    AWAIT(ReadAcquire(&GOT) != 0);
}

static void *keep_section(void *none)
{
    EnterCriticalSection(&SECTION);
    keep_until_it_is_got();
    LeaveCriticalSection(&SECTION);
    return none;
}

static void *keep_lock(void *none)
{
    AcquireSRWLockExclusive(&LOCK);
    keep_until_it_is_got();
    ReleaseSRWLockExclusive(&LOCK);
    return none;
}

static BOOL CALLBACK initialize(PINIT_ONCE once, PVOID parameter, PVOID *context)
{
    (void)once;
    (void)parameter;
    (void)context;
    keep_until_it_is_got();
    return TRUE;
}

static void be_initialized(void) { must(InitOnceExecuteOnce(&ONCE, initialize, NULL, NULL)); }

static void *keep_initializing(void *none)
{
    be_initialized();
    return none;
}

static const struct way {
    const char *name;
    void (*sleep)(void), (*end)(void); /* what the first thread does, and what the second does once it has its packet; */
    void *(*keep)(void *);             /* what a third does: null where there is none */
} WAYS[] = {
    { "a wait for an object", for_object, set_event, NULL },
    { "a signal and wait", with_signal, set_event, NULL },
    { "a wait for several objects", for_several, queue_apc, NULL },
    { "a sleep that an APC ends", for_apc, queue_apc, NULL },
    { "sleeps of a millisecond", by_naps, NULL, NULL },
    { "a wait on an address", on_address, change_word, NULL },
    { "a condition variable", on_variable, end_sleep_on_variable, NULL },
    { "a barrier", at_barrier, at_barrier, NULL },
    { "a critical section", enter, NULL, keep_section },
    { "an SRW lock, alone", be_alone, NULL, keep_lock },
    { "an SRW lock, shared", share, NULL, keep_lock },
    { "an initialization", be_initialized, NULL, keep_initializing },
};

static pthread_barrier_t AWAKE;

/* The second thread: once it has its packet, and the first is awake again, that counts and so it gets no other. */
static void *get_next(void *at)
{
    const struct way *way = at;
    check(way->name, next(PORT, INFINITE), 2, __FILE__, __LINE__);
    WriteRelease(&GOT, 1);
    if (way->end != NULL)
        way->end();
    pthread_barrier_wait(&AWAKE);
    check(way->name, next(PORT, 0), 0, __FILE__, __LINE__);
    return NULL;
}

static void sleeps(const struct way *way)
{
    PORT = port_for(1, 3);
    GOT = KEPT = CHANGED = DONE = 0;
    InitOnceInitialize(&ONCE);
    must(pthread_barrier_init(&AWAKE, NULL, 2) == 0);
    must(InitializeSynchronizationBarrier(&BARRIER, 2, 0));
    if (way->keep != NULL) {
        start(way->keep, NULL);
        AWAIT(ReadAcquire(&KEPT) != 0);
    }
    check(way->name, next(PORT, 0), 1, __FILE__, __LINE__);
    check(way->name, polled(), 0, __FILE__, __LINE__);
    start(get_next, (void *)(uintptr_t)way);
    way->sleep();
    pthread_barrier_wait(&AWAKE);
    join_all();
    check(way->name, next(PORT, 0), 3, __FILE__, __LINE__);
    DeleteSynchronizationBarrier(&BARRIER);
    pthread_barrier_destroy(&AWAKE);
    CloseHandle(PORT);
}

/* ---- Many. */

static LONG AT_ONCE, MOST_AT_ONCE, GOTTEN;
static LONG64 SUM;

static void raise_to(LONG volatile *most, LONG now)
{
    for (LONG seen = ReadAcquire(most), before; seen < now && (before = InterlockedCompareExchange(most, now, seen)) != seen;)
        seen = before;
}

/* Gets packets until one has the key 0. Where it is to sleep, it does with every fourth, by turns for an event that others set and a section. */
static void *get_many(void *to_sleep)
{
    for (LONG64 key; (key = (LONG64)next(PORT, INFINITE)) != PACKETS * THREADS + 1;) {
        raise_to(&MOST_AT_ONCE, InterlockedIncrement(&AT_ONCE));
        InterlockedExchangeAdd64(&SUM, key);
        InterlockedIncrement(&GOTTEN);
        if (to_sleep != NULL && key % 8 == 0)
            WaitForSingleObject(EVENT, 1);
        else if (to_sleep != NULL && key % 8 == 4)
            enter();
        else
            SetEvent(EVENT);
        InterlockedDecrement(&AT_ONCE);
    }
    return NULL;
}

static void *post_many(void *first)
{
    for (ULONG_PTR i = 0; i < PACKETS; i++)
        must(PostQueuedCompletionStatus(PORT, 0, (ULONG_PTR)first + i, NULL));
    return NULL;
}

/* Each packet is gotten once. Where none sleeps, no further threads run at once than the port allows; and in the end none counts any longer. */
static void by_many_threads(DWORD threads, void *to_sleep)
{
    const LONG all = PACKETS * THREADS;
    PORT = port_for(threads, 0);
    AT_ONCE = MOST_AT_ONCE = GOTTEN = 0;
    SUM = 0;
    for (ULONG_PTR i = 0; i < THREADS; i++)
        start(post_many, (void *)(i * PACKETS + 1));
    for (int i = 0; i < THREADS; i++)
        start(get_many, to_sleep);
    while (ReadAcquire(&GOTTEN) < all)
        Sleep(1);
    for (int i = 0; i < THREADS; i++)
        must(PostQueuedCompletionStatus(PORT, 0, (ULONG_PTR)all + 1, NULL));
    join_all();
    IS(SUM, (LONG64)all * (all + 1) / 2);
    IS(GOTTEN, all);
    IS(MOST_AT_ONCE <= (to_sleep != NULL ? THREADS : (LONG)threads), 1);
    for (DWORD i = 1; i <= threads + 1; i++)
        must(PostQueuedCompletionStatus(PORT, 0, i, NULL));
    IS(next(PORT, 0), 1);
    for (DWORD i = 2; i <= threads + 1; i++)
        IS(polled(), threads > 1 ? i : 0);
    CloseHandle(PORT);
}

int main(void)
{
    SYSTEM_INFO info;
    GetSystemInfo(&info);
    must((EVENT = CreateEvent(NULL, FALSE, FALSE, NULL)) != NULL);
    must(DuplicateHandle(GetCurrentProcess(), GetCurrentThread(), GetCurrentProcess(), &FIRST, 0, FALSE, DUPLICATE_SAME_ACCESS));
    must((SEMAPHORE = CreateSemaphore(NULL, 0, 1, NULL)) != NULL);
    InitializeCriticalSection(&SECTION);
    one_runs();
    another_port();
    as_many_run(3, 3);
    if (info.dwNumberOfProcessors <= 64)
        as_many_run(0, info.dwNumberOfProcessors);
    for (size_t i = 0; i < ARRAYSIZE(WAYS); i++)
        sleeps(&WAYS[i]);
    by_many_threads(1, NULL);
    by_many_threads(2, NULL);
    by_many_threads(1, &EVENT);
    by_many_threads(2, &EVENT);
    return counted();
}
