/* SRW locks, condition variables and addresses in pairs (pairs.h): what a program has freed, by all that it may know, is not touched again, and no wake
 * is lost. */
#define TEST "steps.c"
#include "shared_page.h"

/* ---- An SRW lock is given back, and who takes it then frees it. */

static void take_alone_and_give(void)
{
    AcquireSRWLockExclusive(&shared->lock);
    ReleaseSRWLockExclusive(&shared->lock);
}

static void share_and_give(void)
{
    AcquireSRWLockShared(&shared->lock);
    ReleaseSRWLockShared(&shared->lock);
}

static void release_exclusive(void)
{
    ReleaseSRWLockExclusive(&shared->lock);
}

static void release_shared(void)
{
    ReleaseSRWLockShared(&shared->lock);
}

static void take_and_free(void)
{
    take_alone_and_give();
    free_shared();
}

/* It frees the lock once the waiter is done with it, too. */
static void take_and_free_after_waiter(void)
{
    take_alone_and_give();
    end_waiter();
    free_shared();
}

static act *const wants_alone = take_alone_and_give, *const wants_to_share = share_and_give;

static void held_alone(void)
{
    AcquireSRWLockExclusive(&shared->lock);
}

static void held_alone_and_wanted_alone(void)
{
    AcquireSRWLockExclusive(&shared->lock);
    begin_waiter(&wants_alone);
}

static void held_alone_and_wanted_by_sharer(void)
{
    AcquireSRWLockExclusive(&shared->lock);
    begin_waiter(&wants_to_share);
}

static void shared_and_wanted_alone(void)
{
    AcquireSRWLockShared(&shared->lock);
    begin_waiter(&wants_alone);
}

/* Three that want to share it, and each gives it back once all have it. */
enum { SHARERS_WAITING = 3 };
static pthread_t sharers[SHARERS_WAITING];
static LONG sharing;

static void share_until_all_do(void)
{
    AcquireSRWLockShared(&shared->lock);
    InterlockedIncrement(&sharing);
    while (ReadAcquire(&sharing) < SHARERS_WAITING)
        sched_yield();
    ReleaseSRWLockShared(&shared->lock);
}

static void held_alone_and_wanted_by_three(void)
{
    static act *const wants = share_until_all_do;
    AcquireSRWLockExclusive(&shared->lock);
    sharing = 0;
    for (int i = 0; i < SHARERS_WAITING; i++)
        must(pthread_create(&sharers[i], NULL, run_act, (void *)(uintptr_t)&wants) == 0);
    while (count_sleepers() < SHARERS_WAITING)
        sched_yield();
    usleep(100);
}

static void end_sharers(void)
{
    for (int i = 0; i < SHARERS_WAITING; i++)
        must(pthread_join(sharers[i], NULL) == 0);
}

static void shared_by_two(void)
{
    AcquireSRWLockShared(&shared->lock);
    AcquireSRWLockShared(&shared->lock);
}

static void release_shared_and_free(void)
{
    release_shared();
    take_and_free();
}

static void srw_locks(void)
{
    try_pair("ReleaseSRWLockExclusive", held_alone, release_exclusive, take_and_free, nothing, 5);
    try_pair("ReleaseSRWLockExclusive, wanted alone", held_alone_and_wanted_alone, release_exclusive, take_and_free_after_waiter, nothing, 10);
    try_pair("ReleaseSRWLockExclusive, wanted by a sharer", held_alone_and_wanted_by_sharer, release_exclusive, take_and_free_after_waiter, nothing, 10);
    try_pair("ReleaseSRWLockExclusive, wanted by three sharers", held_alone_and_wanted_by_three, release_exclusive, nothing, end_sharers, 10);
    try_pair("ReleaseSRWLockShared, wanted alone", shared_and_wanted_alone, release_shared, take_and_free_after_waiter, nothing, 10);
    try_pair("ReleaseSRWLockShared, shared by two", shared_by_two, release_shared, release_shared_and_free, nothing, 5);
    try_pair("AcquireSRWLockExclusive", held_alone, take_alone_and_give, release_exclusive, nothing, 20);
    try_pair("AcquireSRWLockShared", held_alone, share_and_give, release_exclusive, nothing, 20);
}

/* ---- A condition variable is freed once each that slept on it was woken; and each wake wakes one thread. (The lock lies elsewhere.) */

static SRWLOCK lock_of_variable;
static LONG sleeping, was_woken, other_was_woken;

static bool sleep_on_variable_for(DWORD ms)
{
    AcquireSRWLockExclusive(&lock_of_variable);
    sleeping++;
    const bool woken = SleepConditionVariableSRW(&shared->variable, &lock_of_variable, ms, 0);
    ReleaseSRWLockExclusive(&lock_of_variable);
    return woken;
}

static void sleep_on_variable(void)
{
    was_woken = sleep_on_variable_for(INFINITE);
}

/* Its time is up at once. */
static void look_at_variable(void)
{
    was_woken = sleep_on_variable_for(0);
}

/* Waits until that number have begun to sleep. The caller then has the lock. */
static void lock_once_they_sleep(LONG count)
{
    for (AcquireSRWLockExclusive(&lock_of_variable); sleeping < count; AcquireSRWLockExclusive(&lock_of_variable)) {
        ReleaseSRWLockExclusive(&lock_of_variable);
        sched_yield();
    }
}

static void wake_all_and_free(void)
{
    lock_once_they_sleep(1);
    WakeAllConditionVariable(&shared->variable);
    ReleaseSRWLockExclusive(&lock_of_variable);
    free_shared();
}

static void wake_and_free(void)
{
    lock_once_they_sleep(1);
    ReleaseSRWLockExclusive(&lock_of_variable);
    WakeConditionVariable(&shared->variable);
    free_shared();
}

static void nobody_sleeps(void)
{
    sleeping = was_woken = other_was_woken = 0;
}

static void was_woken_indeed(void)
{
    must(was_woken == TRUE);
}

static void sleep_behind(void)
{
    other_was_woken = sleep_on_variable_for(INFINITE);
}

/* A wake while two sleep, of whom the first may have slept long enough. */
static void wake_one_of_two(void)
{
    static act *const sleeps = sleep_behind;
    lock_once_they_sleep(1);
    ReleaseSRWLockExclusive(&lock_of_variable);
    must(pthread_create(&waiter, NULL, run_act, (void *)(uintptr_t)&sleeps) == 0);
    lock_once_they_sleep(2);
    WakeConditionVariable(&shared->variable);
    ReleaseSRWLockExclusive(&lock_of_variable);
}

/* Either was woken, and not both. */
static void one_was_woken(void)
{
    if (was_woken) {
        AcquireSRWLockExclusive(&lock_of_variable);
        must(!other_was_woken);
        ReleaseSRWLockExclusive(&lock_of_variable);
        WakeConditionVariable(&shared->variable);
    }
    end_waiter();
}

static void condition_variables(void)
{
    try_pair("SleepConditionVariableSRW", nobody_sleeps, sleep_on_variable, wake_all_and_free, was_woken_indeed, 50);
    try_pair("SleepConditionVariableSRW, woken without the lock", nobody_sleeps, sleep_on_variable, wake_and_free, was_woken_indeed, 50);
    try_pair("SleepConditionVariableSRW, for 0 ms", nobody_sleeps, look_at_variable, wake_one_of_two, one_was_woken, 50);
}

/* ---- Addresses. */

static void wait_for_word(void)
{
    LONG zero = 0;
    while (ReadAcquire(&shared->word) == 0)
        WaitOnAddress(&shared->word, &zero, sizeof zero, INFINITE);
}

static void wait_for_word_and_free(void)
{
    wait_for_word();
    free_shared();
}

static void write_word_and_wake(void)
{
    InterlockedExchange(&shared->word, 1);
    WakeByAddressSingle((PVOID)(uintptr_t)&shared->word);
}

static void write_word(void)
{
    WriteRelease(&shared->word, 1);
    WakeByAddressSingle((PVOID)(uintptr_t)&shared->word);
}

/* Two threads that wait at the word. The first, once it is woken, waits at another. */
static pthread_t first_waiter;
static _Atomic uint32_t *word_of_first;
static LONG elsewhere;

static void *wait_for_word_and_elsewhere(void *none)
{
    LONG zero = 0;
    word_of_first = &own_place.word;
    wait_for_word();
    while (ReadAcquire(&elsewhere) == 0)
        WaitOnAddress(&elsewhere, &zero, sizeof zero, INFINITE);
    return none;
}

static bool is_parked(const volatile void *address)
{
    struct parking *parking = parking_of(address);
    take_latch(&parking->latch);
    const bool is_there = parking->last != NULL && parking->last->address == address;
    give_latch(&parking->latch);
    return is_there;
}

static LONG count_at(const volatile void *address)
{
    return (LONG)atomic_load(&parking_of(address)->count);
}

static void two_wait_for_the_word(void)
{
    static act *const waits = wait_for_word;
    elsewhere = 0;
    must(pthread_create(&first_waiter, NULL, wait_for_word_and_elsewhere, NULL) == 0);
    while (!is_parked(&shared->word))
        sched_yield();
    must(pthread_create(&waiter, NULL, run_act, (void *)(uintptr_t)&waits) == 0);
    while (count_at(&shared->word) < 2)
        sched_yield();
    usleep(50);
    WriteRelease(&shared->word, 1);
}

static void wake_all_at_word(void)
{
    WakeByAddressAll((PVOID)(uintptr_t)&shared->word);
}

/* The first may go on before its wake, as a signal may have it. */
static void first_goes_on(void)
{
    wake_one(word_of_first);
    for (int i = 0; i < 100 && !is_parked(&elsewhere); i++)
        doze();
}

static void both_go_on(void)
{
    end_waiter();
    WriteRelease(&elsewhere, 1);
    WakeByAddressAll(&elsewhere);
    must(pthread_join(first_waiter, NULL) == 0);
}

static void addresses(void)
{
    try_pair("WaitOnAddress", nothing, wait_for_word, write_word_and_wake, nothing, 50);
    try_pair("WakeByAddressSingle", nothing, write_word, wait_for_word_and_free, nothing, 10);
    try_pair("WakeByAddressAll", two_wait_for_the_word, wake_all_at_word, first_goes_on, both_go_on, 50);
}

int main(void)
{
    begin_pairs();
    srw_locks();
    condition_variables();
    addresses();
    return counted_checks();
}
