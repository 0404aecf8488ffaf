/* SPDX-License-Identifier: MIT OR Apache-2.0 */
/* ---- Condition variables. Who sleeps on one is parked at its address before it lets the lock go, so that no wake is missed and each wakes
 * one thread, the first that came. In the variable itself nothing is kept: it may be freed as soon as each that slept on it was woken. */
#include "internal.h"

void InitializeConditionVariable(PCONDITION_VARIABLE variable)
{
    variable->Ptr = NULL;
}

/* Parks the caller, which still has the lock. */
static struct parking *begin_to_sleep(PCONDITION_VARIABLE variable)
{
    struct parking *parking = parking_of(variable);
    atomic_fetch_add_explicit(&parking->count, 1, memory_order_relaxed);
    STEP_ON(variable, park, &parking->count, Counts, 0);
    take_latch(&parking->latch);
    STEP(park, &parking->latch, TakesToLook);
    STEP(park, NULL, LooksSame);
    park(parking, variable, ON_VARIABLE);
    give_latch(&parking->latch);
    STEP(park, &parking->latch, GivesToSleep);
    return parking;
}

BOOL SleepConditionVariableCS(PCONDITION_VARIABLE variable, PCRITICAL_SECTION section, DWORD ms)
{
    may_switch_at(variable);
    const uint64_t moment = moment_after(ms);
    struct parking *parking = begin_to_sleep(variable);
    LeaveCriticalSection(section);
    const bool was_woken = sleep_parked(parking, moment);
    EnterCriticalSection(section);
    return was_woken || ntw_fail(ERROR_TIMEOUT);
}

BOOL SleepConditionVariableSRW(PCONDITION_VARIABLE variable, PSRWLOCK lock, DWORD ms, ULONG flags)
{
    const bool is_shared = (flags & CONDITION_VARIABLE_LOCKMODE_SHARED) != 0;
    if ((flags & ~CONDITION_VARIABLE_LOCKMODE_SHARED) != 0)
        return ntw_fail(ERROR_INVALID_PARAMETER);
    may_switch_at(variable);
    const uint64_t moment = moment_after(ms);
    struct parking *parking = begin_to_sleep(variable);
    (is_shared ? ReleaseSRWLockShared : ReleaseSRWLockExclusive)(lock);
    const bool was_woken = sleep_parked(parking, moment);
    (is_shared ? AcquireSRWLockShared : AcquireSRWLockExclusive)(lock);
    return was_woken || ntw_fail(ERROR_TIMEOUT);
}

/* (Who sleeps there was counted before it let the lock go, which the caller has had since.) */
static void wake_sleepers(PCONDITION_VARIABLE variable, uint32_t most)
{
    may_switch_at(variable);
    if (atomic_load_explicit(&parking_of(variable)->count, memory_order_relaxed) != 0)
        unpark(variable, most);
    else
        STEP_ON(variable, park, &parking_of(variable)->count, most == 1 ? SeesNobody : SeesNobodyAll);
}

void WakeConditionVariable(PCONDITION_VARIABLE variable)
{
    wake_sleepers(variable, 1);
}

void WakeAllConditionVariable(PCONDITION_VARIABLE variable)
{
    wake_sleepers(variable, UINT32_MAX);
}
