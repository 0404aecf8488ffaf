/* Waitable objects, as programs use them, for bench/users. */
#include "users.h"
#include <unistd.h>

enum { TIMERS = 10000 };

HANDLE event(BOOL set)
{
    HANDLE made = CreateEventA(NULL, TRUE, set, NULL);
    must(made != NULL);
    return made;
}

HANDLE semaphore(void)
{
    HANDLE made = CreateSemaphoreA(NULL, 0, INT32_MAX, NULL);
    must(made != NULL);
    return made;
}

bool take(HANDLE it)
{
    return WaitForSingleObject(it, INFINITE) == WAIT_OBJECT_0;
}

HANDLE start(LPTHREAD_START_ROUTINE what, void *with)
{
    HANDLE thread = CreateThread(NULL, 0, what, with, 0, NULL);
    must(thread != NULL);
    return thread;
}

/* ---- One thread calls: by itself, or beside a thread that waits. */

static HANDLE READY, LAST;

static DWORD WINAPI rest(LPVOID unused)
{
    (void)unused;
    must(SetEvent(READY) && take(LAST));
    return 0;
}

static void event_rounds(const char *name)
{
    HANDLE it = event(FALSE);
    TIME(name, 3, SetEvent(it) && take(it) && ResetEvent(it));
}

static void mutex_rounds(const char *name)
{
    HANDLE it = CreateMutexA(NULL, FALSE, NULL);
    TIME(name, 2, take(it) && ReleaseMutex(it));
}

static void semaphore_rounds(const char *name)
{
    HANDLE it = semaphore();
    TIME(name, 2, ReleaseSemaphore(it, 1, NULL) && take(it));
}

HANDLE start_to_rest(void)
{
    READY = event(FALSE);
    LAST = event(FALSE);
    HANDLE thread = start(rest, NULL);
    must(take(READY));
    Sleep(10);
    return thread;
}

void end_rest(HANDLE thread)
{
    must(SetEvent(LAST) && take(thread));
}

static void beside(void (*rounds)(const char *), const char *name)
{
    HANDLE thread = start_to_rest();
    rounds(name);
    end_rest(thread);
}

static void event_beside(const char *name) { beside(event_rounds, name); }
static void mutex_beside(const char *name) { beside(mutex_rounds, name); }
static void semaphore_beside(const char *name) { beside(semaphore_rounds, name); }

/* Waits for that number of events: for any, where the last one alone is set, or for all, where each one is. */
static void wait_for(const char *name, DWORD count, BOOL all)
{
    HANDLE events[MANY];
    for (DWORD i = 0; i < count; i++)
        events[i] = event(all || i == count - 1);
    TIME(name, 1, WaitForMultipleObjects(count, events, all, INFINITE) == (all ? WAIT_OBJECT_0 : WAIT_OBJECT_0 + count - 1));
}

static void any_of_8(const char *name) { wait_for(name, 8, FALSE); }
static void any_of_64(const char *name) { wait_for(name, 64, FALSE); }
static void all_of_8(const char *name) { wait_for(name, 8, TRUE); }
static void all_of_64(const char *name) { wait_for(name, 64, TRUE); }

static bool is_closed(HANDLE made)
{
    return made != NULL && CloseHandle(made);
}

static void event_made(const char *name)
{
    TIME(name, 2, is_closed(CreateEventA(NULL, TRUE, FALSE, NULL)));
}

static void mutex_made(const char *name)
{
    TIME(name, 2, is_closed(CreateMutexA(NULL, FALSE, NULL)));
}

#if !defined OVER_WINPR /* (It has these names, and does nothing.) */
static void duplicate(const char *name)
{
    HANDLE it = event(FALSE), other = NULL;
    TIME(name, 2, DuplicateHandle(GetCurrentProcess(), it, GetCurrentProcess(), &other, 0, FALSE, DUPLICATE_SAME_ACCESS) && CloseHandle(other));
}

static void opened(const char *name)
{
    must(CreateEventA(NULL, TRUE, FALSE, "users") != NULL);
    TIME(name, 2, is_closed(OpenEventA(EVENT_ALL_ACCESS, FALSE, "users")));
}

/* Signals an event that is reset by the wait for it. */
static void swap(const char *name)
{
    HANDLE it = CreateEventA(NULL, FALSE, FALSE, NULL);
    TIME(name, 1, SignalObjectAndWait(it, it, INFINITE, FALSE) == WAIT_OBJECT_0);
}
#endif

static const LARGE_INTEGER IN_AN_HOUR = { .QuadPart = -36000000000LL };
static HANDLE ALL[TIMERS];

static bool timer_is_made(int i) { return (ALL[i] = CreateWaitableTimerA(NULL, TRUE, NULL)) != NULL; }
static bool timer_is_set(int i) { return SetWaitableTimer(ALL[i], &IN_AN_HOUR, 0, NULL, NULL, FALSE); }
static bool timer_is_cancelled(int i) { return CancelWaitableTimer(ALL[i]); }
static bool timer_is_closed(int i) { return CloseHandle(ALL[i]); }

/* Ten thousand timers: all are made, then all set to an hour from now, all cancelled, and all closed. This several times over, since the
   first ones are made in memory that was never touched. */
static void timers(const char *name)
{
    static const struct {
        const char *name;
        bool (*does)(int i);
    } steps[] = { { "timers_made", timer_is_made }, { "timers_set", timer_is_set }, { "timers_cancelled", timer_is_cancelled },
                  { "timers_closed", timer_is_closed } };
    enum { STEPS = sizeof steps / sizeof *steps };
    struct moment least[STEPS];
    (void)name;
    for (uint64_t turn = 0; turn < ROUNDS; turn++)
        for (int step = 0; step < STEPS; step++) {
            const struct moment began = now();
            for (int i = 0; i < TIMERS; i++)
                must(steps[step].does(i));
            const struct moment ended = now(), took = { ended.time - began.time, ended.used - began.used };
            least[step] = turn == 0 || took.time < least[step].time ? took : least[step];
        }
    for (int step = 0; step < STEPS; step++)
        tell(steps[step].name, TIMERS, least[step]);
}

/* How many bytes of memory the process has at present. */
static long resident(void)
{
    long all = 0, held = 0;
    FILE *file = fopen("/proc/self/statm", "r");
    must(file != NULL && fscanf(file, "%ld %ld", &all, &held) == 2);
    fclose(file);
    return held * sysconf(_SC_PAGESIZE);
}

static void bytes(const char *name)
{
    HANDLE first = event(FALSE);
    const long before = resident();
    for (uint64_t i = 0; i < ROUNDS; i++)
        event(FALSE);
    const long after = resident();
    must(CloseHandle(first));
    printf("%s: %llu objects, %lld bytes each\n", name, (unsigned long long)ROUNDS, (long long)(after - before) / (long long)ROUNDS);
}

/* ---- Several threads. */

static HANDLE THERE, BACK;

static DWORD WINAPI answer(LPVOID unused)
{
    (void)unused;
    for (uint64_t i = 0; i < ROUNDS; i++)
        must(take(THERE) && ReleaseSemaphore(BACK, 1, NULL));
    return 0;
}

static void round_trip(const char *name)
{
    THERE = semaphore();
    BACK = semaphore();
    HANDLE other = start(answer, NULL);
    const struct moment began = now();
    for (uint64_t i = 0; i < ROUNDS; i++)
        must(ReleaseSemaphore(THERE, 1, NULL) && take(BACK));
    tell_since(name, 4 * ROUNDS, began);
    must(take(other));
}

/* Workers begin together. Each takes one mutex, releases a semaphore and releases the mutex; or takes and releases the mutex alone. */
static HANDLE SHARED, COUNTED, BEGIN;
static uint64_t SUM;

static DWORD WINAPI work(LPVOID unused)
{
    (void)unused;
    must(take(BEGIN));
    for (uint64_t i = 0; i < ROUNDS; i++) {
        must(take(SHARED));
        SUM++;
        must(ReleaseSemaphore(COUNTED, 1, NULL) && ReleaseMutex(SHARED));
    }
    return 0;
}

static DWORD WINAPI lock_alone(LPVOID unused)
{
    (void)unused;
    must(take(BEGIN));
    for (uint64_t i = 0; i < ROUNDS; i++) {
        must(take(SHARED));
        SUM++;
        must(ReleaseMutex(SHARED));
    }
    return 0;
}

static void together(const char *name, DWORD count, uint64_t calls, LPTHREAD_START_ROUTINE each)
{
    HANDLE threads[MANY];
    SHARED = CreateMutexA(NULL, FALSE, NULL);
    COUNTED = semaphore();
    BEGIN = event(FALSE);
    for (DWORD i = 0; i < count; i++)
        threads[i] = start(each, NULL);
    Sleep(20);
    const struct moment began = now();
    must(SetEvent(BEGIN));
    for (DWORD i = 0; i < count; i++)
        must(take(threads[i]));
    must(SUM == count * ROUNDS);
    tell_since(name, calls * count * ROUNDS, began);
}

static void workers_2(const char *name) { together(name, 2, 3, work); }
static void workers_8(const char *name) { together(name, 8, 3, work); }
static void workers_64(const char *name) { together(name, 64, 3, work); }
static void lock_2(const char *name) { together(name, 2, 2, lock_alone); }
static void lock_8(const char *name) { together(name, 8, 2, lock_alone); }
static void lock_64(const char *name) { together(name, 64, 2, lock_alone); }

const struct shape OBJECT_SHAPES[] = {
    { "event", event_rounds },
    { "event_beside", event_beside },
    { "mutex", mutex_rounds },
    { "mutex_beside", mutex_beside },
    { "semaphore", semaphore_rounds },
    { "semaphore_beside", semaphore_beside },
    { "any_of_8", any_of_8 },
    { "any_of_64", any_of_64 },
    { "all_of_8", all_of_8 },
    { "all_of_64", all_of_64 },
    { "round_trip", round_trip },
    { "workers_2", workers_2 },
    { "workers_8", workers_8 },
    { "workers_64", workers_64 },
    { "lock_2", lock_2 },
    { "lock_8", lock_8 },
    { "lock_64", lock_64 },
    { "event_made", event_made },
    { "mutex_made", mutex_made },
#if !defined OVER_WINPR
    { "swap", swap },
    { "duplicate", duplicate },
    { "opened", opened },
#endif
    { "timers", timers },
    { "bytes", bytes },
    { NULL, NULL },
};
