/* Condition variables and waits on an address: what each call answers with its last error, row by row, from Microsoft's pages; and each under
 * threads, with what must always hold. */
#include <windows.h>

#include "crowd.h"

enum { ROUNDS = 4000 };

static CRITICAL_SECTION SECTION;
static SRWLOCK LOCK = SRWLOCK_INIT;

/* ---- Condition variables. */

static CONDITION_VARIABLE VARIABLE = CONDITION_VARIABLE_INIT;
static LONG ASLEEP, WOKEN, ORDER[THREADS];

static void *sleep_in_turn(void *number)
{
    EnterCriticalSection(&SECTION);
    ASLEEP++;
    must(SleepConditionVariableCS(&VARIABLE, &SECTION, INFINITE));
    ORDER[WOKEN++] = *(int *)number;
    LeaveCriticalSection(&SECTION);
    return NULL;
}

static LONG value_in_section(const LONG *at)
{
    EnterCriticalSection(&SECTION);
    const LONG value = *at;
    LeaveCriticalSection(&SECTION);
    return value;
}

/* Each wake wakes one, the first that came; the last wakes all that are left. */
static void wakes_in_turn(void)
{
    static int numbers[THREADS];
    ASLEEP = WOKEN = 0;
    for (int i = 0; i < THREADS; i++) {
        numbers[i] = i;
        start(sleep_in_turn, &numbers[i]);
        AWAIT(value_in_section(&ASLEEP) == i + 1);
    }
    for (int i = 0; i < 2; i++) {
        WakeConditionVariable(&VARIABLE);
        AWAIT(value_in_section(&WOKEN) == i + 1);
        Sleep(5);
        IS(value_in_section(&WOKEN), i + 1);
        IS(ORDER[i], i);
    }
    WakeAllConditionVariable(&VARIABLE);
    join_all();
    IS(WOKEN, THREADS);
}

static void condition_variables(void)
{
    InitializeCriticalSection(&SECTION);
    InitializeConditionVariable(&VARIABLE);
    IS((ULONG_PTR)VARIABLE.Ptr, 0);
    WakeConditionVariable(&VARIABLE);
    WakeAllConditionVariable(&VARIABLE);
    EnterCriticalSection(&SECTION);
    ANSWERS(SleepConditionVariableCS(&VARIABLE, &SECTION, 0), FALSE, ERROR_TIMEOUT);
    SECTION_IS(SECTION, 0, 1, GetCurrentThreadId());
    const DWORD then = timeGetTime();
    ANSWERS(SleepConditionVariableCS(&VARIABLE, &SECTION, 20), FALSE, ERROR_TIMEOUT);
    IS(ms_since(then) >= 20, 1);
    LeaveCriticalSection(&SECTION);
    AcquireSRWLockExclusive(&LOCK);
    ANSWERS(SleepConditionVariableSRW(&VARIABLE, &LOCK, 1, 0), FALSE, ERROR_TIMEOUT);
    tries(&LOCK, FALSE, FALSE);
    ReleaseSRWLockExclusive(&LOCK);
    AcquireSRWLockShared(&LOCK);
    ANSWERS(SleepConditionVariableSRW(&VARIABLE, &LOCK, 1, CONDITION_VARIABLE_LOCKMODE_SHARED), FALSE, ERROR_TIMEOUT);
    tries(&LOCK, TRUE, FALSE);
    ANSWERS(SleepConditionVariableSRW(&VARIABLE, &LOCK, 1, 2), FALSE, ERROR_INVALID_PARAMETER);
    tries(&LOCK, TRUE, FALSE);
    ReleaseSRWLockShared(&LOCK);
    wakes_in_turn();
    IS((ULONG_PTR)VARIABLE.Ptr, 0);
}

/* Two rings of one place: what is put in is taken out once, by sections and by SRW locks. */
static CONDITION_VARIABLE FILLED = CONDITION_VARIABLE_INIT, EMPTIED = CONDITION_VARIABLE_INIT;
static long PLACE, TAKEN_OUT;
static bool IS_FULL;

static void *put_in(void *by_srw)
{
    for (int i = 1; i <= ROUNDS; i++) {
        if (by_srw != NULL)
            AcquireSRWLockExclusive(&LOCK);
        else
            EnterCriticalSection(&SECTION);
        while (IS_FULL)
            must(by_srw != NULL ? SleepConditionVariableSRW(&EMPTIED, &LOCK, INFINITE, 0)
                                : SleepConditionVariableCS(&EMPTIED, &SECTION, INFINITE));
        PLACE = i;
        IS_FULL = true;
        if (by_srw != NULL)
            ReleaseSRWLockExclusive(&LOCK);
        else
            LeaveCriticalSection(&SECTION);
        WakeConditionVariable(&FILLED);
    }
    return NULL;
}

static void *take_out(void *by_srw)
{
    for (int i = 1; i <= ROUNDS; i++) {
        if (by_srw != NULL)
            AcquireSRWLockExclusive(&LOCK);
        else
            EnterCriticalSection(&SECTION);
        while (!IS_FULL)
            must(by_srw != NULL ? SleepConditionVariableSRW(&FILLED, &LOCK, INFINITE, 0)
                                : SleepConditionVariableCS(&FILLED, &SECTION, INFINITE));
        TAKEN_OUT += PLACE;
        IS_FULL = false;
        if (by_srw != NULL)
            ReleaseSRWLockExclusive(&LOCK);
        else
            LeaveCriticalSection(&SECTION);
        WakeConditionVariable(&EMPTIED);
    }
    return NULL;
}

static void hand_overs(void *by_srw)
{
    TAKEN_OUT = 0;
    for (int i = 0; i < 2; i++) {
        start(put_in, by_srw);
        start(take_out, by_srw);
    }
    join_all();
    IS(TAKEN_OUT, (long)ROUNDS * (ROUNDS + 1));
    IS(IS_FULL, false);
    IS((ULONG_PTR)FILLED.Ptr | (ULONG_PTR)EMPTIED.Ptr, 0);
}

/* ---- Waits on an address. */

static volatile LONG TURN;

static void *take_turns(void *number)
{
    const LONG mine = *(int *)number;
    for (LONG i = 0; i < ROUNDS / 4; i++) {
        for (LONG seen; (seen = ReadAcquire(&TURN)) % THREADS != mine;)
            must(WaitOnAddress(&TURN, &seen, sizeof seen, INFINITE));
        InterlockedIncrement(&TURN);
        WakeByAddressAll((PVOID)&TURN);
    }
    return NULL;
}

static volatile BYTE FLAG;

static void *wait_for_flag(void *none)
{
    BYTE seen = 0;
    (void)none;
    InterlockedIncrement(&ASLEEP);
    while (__atomic_load_n(&FLAG, __ATOMIC_ACQUIRE) == 0)
        must(WaitOnAddress(&FLAG, &seen, sizeof seen, INFINITE));
    InterlockedIncrement(&WOKEN);
    return NULL;
}

static void waits_on_an_address(void)
{
    static volatile ULONGLONG value = UINT64_C(0x1122334455667788);
    ULONGLONG same = value, other_high = value ^ UINT64_C(1) << 63;
    const SIZE_T sizes[] = { 1, 2, 4, 8 };
    for (int i = 0; i < 4; i++) {
        ANSWERS(WaitOnAddress(&value, &same, sizes[i], 0), FALSE, ERROR_TIMEOUT);
        ANSWERS(WaitOnAddress(&value, &other_high, sizes[i], 0), sizes[i] == 8, sizes[i] == 8 ? UNTOUCHED : ERROR_TIMEOUT);
    }
    const DWORD then = timeGetTime();
    ANSWERS(WaitOnAddress(&value, &same, 8, 20), FALSE, ERROR_TIMEOUT);
    IS(ms_since(then) >= 20, 1);
    ANSWERS(WaitOnAddress(&value, &same, 3, 0), FALSE, ERROR_INVALID_PARAMETER);
    ANSWERS(WaitOnAddress(&value, &same, 0, 0), FALSE, ERROR_INVALID_PARAMETER);
    ANSWERS(WaitOnAddress(&value, &same, 16, 0), FALSE, ERROR_INVALID_PARAMETER);
    WakeByAddressSingle((PVOID)&value);
    WakeByAddressAll((PVOID)&value);
    ASLEEP = WOKEN = 0;
    for (int i = 0; i < 3; i++)
        start(wait_for_flag, NULL);
    AWAIT(ReadAcquire(&ASLEEP) == 3);
    Sleep(5);
    InterlockedExchange8((volatile CHAR *)&FLAG, 1);
    WakeByAddressSingle((PVOID)&FLAG);
    AWAIT(ReadAcquire(&WOKEN) >= 1);
    WakeByAddressAll((PVOID)&FLAG);
    join_all();
    IS(WOKEN, 3);
    static int numbers[THREADS];
    for (int i = 0; i < THREADS; i++) {
        numbers[i] = i;
        start(take_turns, &numbers[i]);
    }
    join_all();
    IS(TURN, ROUNDS / 4 * THREADS);
}

int main(void)
{
    InitializeCriticalSection(&SECTION);
    condition_variables();
    hand_overs(NULL);
    hand_overs(&LOCK);
    DeleteCriticalSection(&SECTION);
    waits_on_an_address();
    return counted();
}
