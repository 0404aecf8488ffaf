/* Why threads wait beside the dispatcher: ntwin_write_waits has a line for each that sleeps, and for those that hold each other. */
#include <windows.h>

#include "crowd.h"

static CRITICAL_SECTION ONE, OTHER;
static SRWLOCK LOCK = SRWLOCK_INIT, SHARED = SRWLOCK_INIT;
static CONDITION_VARIABLE VARIABLE = CONDITION_VARIABLE_INIT;
static LONG ADDRESS;
static SYNCHRONIZATION_BARRIER BARRIER;
static INIT_ONCE ONCE = INIT_ONCE_STATIC_INIT;
static LONG BEGUN;
static DWORD IDS[16];

/* (Two threads hold each other to the end, so those that end after them are not joined.) */
const char *__tsan_default_options(void);
const char *__tsan_default_options(void)
{
    return "report_thread_leaks=0";
}

static DWORD WINAPI take_both(LPVOID other)
{
    LPCRITICAL_SECTION first = other != NULL ? &OTHER : &ONE, second = other != NULL ? &ONE : &OTHER;
    EnterCriticalSection(first);
    InterlockedIncrement(&BEGUN);
    AWAIT(ReadAcquire(&BEGUN) >= 2);
    EnterCriticalSection(second);
    return 0;
}

static DWORD WINAPI have_alone(LPVOID lock)
{
    AcquireSRWLockExclusive(lock);
    ReleaseSRWLockExclusive(lock);
    return 0;
}

static DWORD WINAPI share(LPVOID lock)
{
    AcquireSRWLockShared(lock);
    return 0;
}

static DWORD WINAPI sleep_on_variable(LPVOID none)
{
    static SRWLOCK lock = SRWLOCK_INIT;
    AcquireSRWLockExclusive(&lock);
    SleepConditionVariableSRW(&VARIABLE, &lock, INFINITE, 0);
    (void)none;
    return 0;
}

static DWORD WINAPI wait_on_address(LPVOID none)
{
    LONG zero = 0;
    WaitOnAddress(&ADDRESS, &zero, sizeof zero, INFINITE);
    (void)none;
    return 0;
}

static DWORD WINAPI come_to_barrier(LPVOID none)
{
    EnterSynchronizationBarrier(&BARRIER, SYNCHRONIZATION_BARRIER_FLAGS_BLOCK_ONLY);
    (void)none;
    return 0;
}

static DWORD WINAPI wait_for_once(LPVOID none)
{
    BOOL pending;
    InitOnceBeginInitialize(&ONCE, 0, &pending, NULL);
    (void)none;
    return 0;
}

static void begin(DWORD number, LPTHREAD_START_ROUTINE run, LPVOID argument)
{
    HANDLE thread = CreateThread(NULL, 0, run, argument, 0, &IDS[number]);
    must(thread != NULL);
    CloseHandle(thread);
}

/* What is written. */
static char *told(void)
{
    static char text[1 << 14];
    FILE *file = tmpfile();
    must(file != NULL);
    ntwin_write_waits(file);
    rewind(file);
    text[fread(text, 1, sizeof text - 1, file)] = 0;
    fclose(file);
    return text;
}

/* What ntwin_why writes while no thread waits: how many wait and run, and that nobody waits. */
static void nobody_waits(void)
{
    char text[128];
    FILE *file = tmpfile();
    must(file != NULL);
    ntwin_why(file);
    rewind(file);
    text[fread(text, 1, sizeof text - 1, file)] = 0;
    fclose(file);
    IS(strcmp(text, "ntwin: 0 threads wait, 1 runs\n  nobody waits\n"), 0);
}

static int lines_told(void)
{
    int lines = 0;
    for (const char *at = told(); *at != 0; at++)
        lines += *at == '\n';
    return lines;
}

/* Whether a line is written, after a minute at the latest. */
static int is_told(const char *line)
{
    for (int i = 0; i < 60000; i++) {
        if (strstr(told(), line) != NULL)
            return 1;
        Sleep(1);
    }
    printf("%swas told, and not: %s", told(), line);
    return 0;
}

#define TOLD(...) \
    do { \
        char line[256]; \
        snprintf(line, sizeof line, __VA_ARGS__); \
        IS(is_told(line), 1); \
    } while (0)

int main(void)
{
    BOOL pending;
    IS(told()[0], 0);
    must(CloseHandle(CreateEventA(NULL, FALSE, FALSE, NULL)));
    nobody_waits();
    InitializeCriticalSection(&ONE);
    InitializeCriticalSection(&OTHER);
    InitializeSynchronizationBarrier(&BARRIER, 2, -1);
    must(InitOnceBeginInitialize(&ONCE, 0, &pending, NULL) && pending);
    begin(0, take_both, NULL);
    AWAIT(ReadAcquire(&BEGUN) == 1);
    begin(1, take_both, &OTHER);
    AcquireSRWLockExclusive(&LOCK);
    AcquireSRWLockShared(&SHARED);
    begin(2, have_alone, &LOCK);
    begin(3, share, &LOCK);
    begin(4, have_alone, &SHARED);
    begin(5, sleep_on_variable, NULL);
    begin(6, wait_on_address, NULL);
    begin(7, come_to_barrier, NULL);
    begin(8, wait_for_once, NULL);
    TOLD("thread %u waits for the critical section %p, which thread %u owns, 1 deep\n", IDS[0], (void *)&OTHER, IDS[1]);
    TOLD("thread %u waits for the critical section %p, which thread %u owns, 1 deep\n", IDS[1], (void *)&ONE, IDS[0]);
    TOLD("hold each other: thread %u, %u\n", IDS[0] < IDS[1] ? IDS[0] : IDS[1], IDS[0] < IDS[1] ? IDS[1] : IDS[0]);
    TOLD("thread %u waits for the SRW lock %p, to have it alone: a thread has it alone\n", IDS[2], (void *)&LOCK);
    TOLD("thread %u waits for the SRW lock %p, to share it: a thread has it alone\n", IDS[3], (void *)&LOCK);
    TOLD("thread %u waits for the SRW lock %p, to have it alone: 1 share it\n", IDS[4], (void *)&SHARED);
    TOLD("thread %u sleeps on the condition variable %p\n", IDS[5], (void *)&VARIABLE);
    TOLD("thread %u waits on the address %p\n", IDS[6], (void *)&ADDRESS);
    TOLD("thread %u waits at the barrier %p\n", IDS[7], (void *)&BARRIER);
    TOLD("thread %u waits for the one-time initialization %p to be done\n", IDS[8], (void *)&ONCE);
    /* Who waits no longer is not named. */
    ReleaseSRWLockShared(&SHARED);
    WakeConditionVariable(&VARIABLE);
    InterlockedIncrement(&ADDRESS);
    WakeByAddressAll(&ADDRESS);
    EnterSynchronizationBarrier(&BARRIER, 0);
    InitOnceComplete(&ONCE, 0, NULL);
    ReleaseSRWLockExclusive(&LOCK);
    for (int i = 0; i < 60000 && lines_told() > 3; i++)
        Sleep(1);
    IS(lines_told(), 3);
    return counted();
}
