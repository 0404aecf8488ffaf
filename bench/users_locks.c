/* Critical sections, SRW locks, condition variables and addresses, as programs use them, for bench/users. There is always a second thread, so that
   nobody leaves out what a process with one thread does not need. */
#include "users.h"

static CRITICAL_SECTION SECTION;
static uint64_t PLACE;

static bool is_entered(void)
{
    EnterCriticalSection(&SECTION);
    PLACE++;
    LeaveCriticalSection(&SECTION);
    return true;
}

static void section(const char *name)
{
    HANDLE thread = start_to_rest();
    InitializeCriticalSection(&SECTION);
    TIME(name, 2, is_entered());
    end_rest(thread);
}

/* What the caller has it takes once more. */
static void section_inner(const char *name)
{
    HANDLE thread = start_to_rest();
    InitializeCriticalSection(&SECTION);
    EnterCriticalSection(&SECTION);
    TIME(name, 2, is_entered());
    end_rest(thread);
}

/* ---- Several threads begin together, and each makes all rounds. */

static HANDLE BEGIN;

static DWORD WINAPI run_rounds(LPVOID round)
{
    must(take(BEGIN));
    for (uint64_t i = 0; i < ROUNDS; i++)
        must((*(bool (**)(void))round)());
    return 0;
}

static void together(const char *name, DWORD count, bool (*round)(void))
{
    HANDLE threads[MANY];
    InitializeCriticalSection(&SECTION);
    BEGIN = event(FALSE);
    for (DWORD i = 0; i < count; i++)
        threads[i] = start(run_rounds, &round);
    Sleep(20);
    const struct moment began = now();
    must(SetEvent(BEGIN));
    for (DWORD i = 0; i < count; i++)
        must(take(threads[i]));
    tell_since(name, 2 * count * ROUNDS, began);
}

static void section_2(const char *name) { together(name, 2, is_entered); }
static void section_4(const char *name) { together(name, 4, is_entered); }

#if !defined OVER_WINPR /* (It has none of these.) */
static SRWLOCK LOCK;

static bool is_written(void)
{
    AcquireSRWLockExclusive(&LOCK);
    PLACE++;
    ReleaseSRWLockExclusive(&LOCK);
    return true;
}

static bool is_read(void)
{
    AcquireSRWLockShared(&LOCK);
    ReleaseSRWLockShared(&LOCK);
    return true;
}

static void exclusive(const char *name)
{
    HANDLE thread = start_to_rest();
    TIME(name, 2, is_written());
    end_rest(thread);
}

static void shared(const char *name)
{
    HANDLE thread = start_to_rest();
    TIME(name, 2, is_read());
    end_rest(thread);
}

static void exclusive_4(const char *name) { together(name, 4, is_written); }
static void shared_4(const char *name) { together(name, 4, is_read); }

/* Two threads hand a turn to and fro. */
static CONDITION_VARIABLE VARIABLES[2];
static LONG volatile WANTED;

static DWORD WINAPI turn_by_variable(LPVOID mine)
{
    const LONG me = mine != NULL;
    for (uint64_t i = 0; i < ROUNDS; i++) {
        EnterCriticalSection(&SECTION);
        while (WANTED != me)
            must(SleepConditionVariableCS(&VARIABLES[me], &SECTION, INFINITE));
        WANTED = !me;
        LeaveCriticalSection(&SECTION);
        WakeConditionVariable(&VARIABLES[!me]);
    }
    return 0;
}

static DWORD WINAPI turn_by_address(LPVOID mine)
{
    const LONG me = mine != NULL;
    LONG other = !me;
    for (uint64_t i = 0; i < ROUNDS; i++) {
        while (WANTED != me)
            must(WaitOnAddress(&WANTED, &other, sizeof other, INFINITE));
        InterlockedExchange(&WANTED, other);
        WakeByAddressSingle((PVOID)&WANTED);
    }
    return 0;
}

static void to_and_fro(const char *name, LPTHREAD_START_ROUTINE turn)
{
    InitializeCriticalSection(&SECTION);
    HANDLE other = start(turn, &SECTION);
    const struct moment began = now();
    turn(NULL);
    must(take(other));
    tell_since(name, 2 * ROUNDS, began);
}

static void variable(const char *name) { to_and_fro(name, turn_by_variable); }
static void address(const char *name) { to_and_fro(name, turn_by_address); }
#endif

const struct shape LOCK_SHAPES[] = {
    { "section", section },
    { "section_mutex", section },
    { "section_inner", section_inner },
    { "section_2", section_2 },
    { "section_4", section_4 },
#if !defined OVER_WINPR
    { "exclusive", exclusive },
    { "exclusive_mutex", exclusive },
    { "shared", shared },
    { "exclusive_4", exclusive_4 },
    { "shared_4", shared_4 },
    { "variable", variable },
    { "address", address },
#endif
    { NULL, NULL },
};
