/* SPDX-License-Identifier: MIT OR Apache-2.0 */
/* ---- Threads that wait at an address, the first that came first. Each sleeps on a word of its own, and is woken by itself alone. The addresses
 * are spread over lists; each list has a latch. (`nt_protocols` has laws of this: its specs/Parking.antt names the functions below.) */
#include "internal.h"
#include "../schedule/internal.h"

#ifndef own_place
NTW_INTERNAL _Thread_local struct parked own_place __attribute__((tls_model("initial-exec")));
#endif

NTW_INTERNAL struct parking parkings[PARKING_LISTS];

NTW_INTERNAL struct parking *parking_of(const volatile void *address)
{
    return &parkings[((uintptr_t)address >> 3) * UINT64_C(0x9E3779B97F4A7C15) >> 56];
}

/* The caller waits at this address from now on, under the latch. */
NTW_INTERNAL void park(struct parking *parking, const volatile void *address, enum why why)
{
    own_place.why = why;
    own_place.id = id_of_caller();
    atomic_store_explicit(&own_place.word, PARKED, memory_order_relaxed);
    own_place.address = address;
    own_place.later = NULL;
    own_place.earlier = parking->last;
    if (parking->last != NULL)
        parking->last->later = &own_place;
    else
        parking->first = &own_place;
    parking->last = &own_place;
    STEP(park, NULL, Parks);
}

/* Takes a thread out of the list, under the latch. */
static void leave_parking(struct parking *parking, struct parked *who)
{
    if (who->earlier != NULL)
        who->earlier->later = who->later;
    else
        parking->first = who->later;
    if (who->later != NULL)
        who->later->earlier = who->earlier;
    else
        parking->last = who->earlier;
    atomic_fetch_sub_explicit(&parking->count, 1, memory_order_relaxed);
}

static inline bool is_unparked(void)
{
    return atomic_load_explicit(&own_place.word, memory_order_acquire) == UNPARKED;
}

/* How often the caller looks at its word now. A try that was in vain makes the pause until the next twice as long. */
static uint32_t looks_when_parked(void)
{
    if (own_place.left-- > 0)
        return own_place.looks;
    own_place.pause = own_place.pause < LEAST_PAUSE ? LEAST_PAUSE : own_place.pause < MOST_PAUSE ? 2 * own_place.pause : MOST_PAUSE;
    own_place.left = own_place.pause;
    return process.looks ? LOOKS_AT_WORD : 0;
}

/* Looks at the caller's word before it sleeps, the next time half as often where that was in vain. */
static bool look_whether_unparked(void)
{
    const uint32_t looks = looks_when_parked();
    for (uint32_t i = 0; i < looks; i++) {
        if (is_unparked()) {
            own_place.looks = LOOKS_AT_WORD;
            own_place.pause = 0;
            return true;
        }
        rest();
    }
    own_place.looks = looks / 2;
    return is_unparked();
}

/* A moment of the monotonic clock that comes after this number of milliseconds, or NEVER. */
NTW_INTERNAL uint64_t moment_after(DWORD ms)
{
    return ms == INFINITE ? NEVER : monotonic() + (uint64_t)ms * (MOMENTS_PER_SECOND / 1000);
}

/* Sleeps until another thread unparks the caller, or that moment. Answers whether it was unparked: else it waits no longer. */
NTW_INTERNAL bool sleep_parked(struct parking *parking, uint64_t moment)
{
    const struct timespec until = {
        .tv_sec = (time_t)(moment / MOMENTS_PER_SECOND),
        .tv_nsec = (long)(moment % MOMENTS_PER_SECOND) * NANOSECONDS_PER_MOMENT,
    };
    bool was_unparked = moment == NEVER && look_whether_unparked();
    if (was_unparked)
        STEP(park, &own_place.word, SeesUnparked);
    if (!was_unparked)
        rest_with_packet();
    while (!was_unparked && (moment == NEVER || monotonic() < moment)) {
        TO_SLEEP(park, &own_place.word, FallsAsleep, FallsAsleep, Stirs, Restarts, 0);
        sleep_on(&own_place.word, PARKED, moment == NEVER ? NULL : &until);
        was_unparked = is_unparked();
        STEP(park, &own_place.word, Reads);
    }
    if (!was_unparked) {
        STEP(park, NULL, TimesOut);
        take_latch(&parking->latch);
        STEP(park, &parking->latch, TakesToLeave);
        was_unparked = is_unparked();
        STEP(park, &own_place.word, Leaves);
        if (!was_unparked) {
            leave_parking(parking, &own_place);
            atomic_store_explicit(&own_place.word, UNPARKED, memory_order_relaxed);
        }
        give_latch(&parking->latch);
        STEP(park, &parking->latch, GivesToGo);
    }
    comes_after(&own_place.word);
    if (own.rests)
        go_on_with_packet();
    return was_unparked;
}

/* Unparks those that wait at this address, up to `most` of them, the first that came first. */
NTW_INTERNAL void unpark(const volatile void *address, uint32_t most)
{
    _Atomic uint32_t *asleep[AWAKENED_AT_ONCE];
    uint32_t count = 0, unparked = 0;
    struct parking *parking = parking_of(address);
    STEP_ON(address, park, &parking->count, most == 1 ? SeesSome : SeesSomeAll);
    take_latch(&parking->latch);
    STEP(park, &parking->latch, most == 1 ? TakesToUnpark : TakesToUnparkAll);
    for (struct parked *at = parking->first, *next; at != NULL && unparked < most; at = next) {
        next = at->later;
        if (at->address != address)
            continue;
        STEP(park, NULL, most == 1 ? TakesOff : TakesOffAll, PARKED_THREAD(&at->word));
        leave_parking(parking, at);
        unparked++;
        comes_before(&at->word);
        atomic_store_explicit(&at->word, UNPARKED, memory_order_release);
        if (count < AWAKENED_AT_ONCE) {
            asleep[count++] = &at->word;
        } else {
            TO_WAKE(park, &at->word, Wakes, Wakes, PARKED_THREAD(&at->word));
            wake_one(&at->word);
        }
    }
    give_latch(&parking->latch);
    STEP(park, &parking->latch, most == 1 ? FinishesAndGives : FinishesAllAndGives);
    for (uint32_t i = 0; i < count; i++) {
        TO_WAKE(park, asleep[i], Wakes, Wakes, PARKED_THREAD(asleep[i]));
        wake_one(asleep[i]);
    }
    STEP(park, NULL, Returns);
}

/* ---- Waits on an address. */

static bool is_same(const volatile void *address, const void *compare, SIZE_T size)
{
    switch (size) {
    case 1:
        return __atomic_load_n((const volatile uint8_t *)address, __ATOMIC_SEQ_CST) == *(const uint8_t *)compare;
    case 2:
        return __atomic_load_n((const volatile uint16_t *)address, __ATOMIC_SEQ_CST) == *(const uint16_t *)compare;
    case 4:
        return __atomic_load_n((const volatile uint32_t *)address, __ATOMIC_SEQ_CST) == *(const uint32_t *)compare;
    default:
        return __atomic_load_n((const volatile uint64_t *)address, __ATOMIC_SEQ_CST) == *(const uint64_t *)compare;
    }
}

/* A point before that. (What the library itself waits for is changed with other things, which are not known here.) */
__attribute__((noinline, cold)) static void come_to_address(const volatile void *address, enum why why)
{
    if (why == ON_ADDRESS || why == FOR_ONCE)
        come_to_object(address);
    else
        come_to(AT_CALL);
}

/* As WaitOnAddress. */
NTW_INTERNAL BOOL wait_on(volatile void *address, const void *compare, SIZE_T size, DWORD ms, enum why why)
{
    if (size != 1 && size != 2 && size != 4 && size != 8)
        return ntw_fail(ERROR_INVALID_PARAMETER);
    if (by_schedule())
        come_to_address(address, why);
    if (!is_same(address, compare, size))
        return TRUE;
    const uint64_t moment = moment_after(ms);
    struct parking *parking = parking_of(address);
    /* (Who changes the value and then sees no thread counted here has changed it before it is looked at once more.) */
    atomic_fetch_add_explicit(&parking->count, 1, memory_order_seq_cst);
    STEP_ON(address, park, &parking->count, Counts, *(const uint8_t *)compare);
    take_latch(&parking->latch);
    STEP(park, &parking->latch, TakesToLook);
    const bool waits = is_same(address, compare, size);
    STEP(park, NULL, waits ? LooksSame : LooksOther);
    if (waits)
        park(parking, address, why);
    else
        atomic_fetch_sub_explicit(&parking->count, 1, memory_order_relaxed);
    give_latch(&parking->latch);
    STEP(park, &parking->latch, waits ? GivesToSleep : GivesToGo);
    return !waits || sleep_parked(parking, moment) || ntw_fail(ERROR_TIMEOUT);
}

BOOL WaitOnAddress(volatile VOID *address, PVOID compare, SIZE_T size, DWORD ms)
{
    return wait_on(address, compare, size, ms, ON_ADDRESS);
}

static void wake_by_address(PVOID address, uint32_t most)
{
    may_switch_at(address);
    atomic_thread_fence(memory_order_seq_cst);
    if (atomic_load_explicit(&parking_of(address)->count, memory_order_relaxed) != 0)
        unpark(address, most);
    else
        STEP_ON(address, park, &parking_of(address)->count, most == 1 ? SeesNobody : SeesNobodyAll);
}

void WakeByAddressSingle(PVOID address)
{
    wake_by_address(address, 1);
}

void WakeByAddressAll(PVOID address)
{
    wake_by_address(address, UINT32_MAX);
}
