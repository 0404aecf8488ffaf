/* SPDX-License-Identifier: MIT OR Apache-2.0 */
/* ---- What a program calls beside Win32's names: threads, locks, sleeps and clocks of POSIX, which the scheduler stands in for. Each object is the
 * system's own: it is tried, and where that would wait the caller sleeps by the scheduler until another thread gives it back. */
#include "posix.h"

NTW_INTERNAL struct real real;

/* Whether this is a call of the program in a run. The caller takes part in it then. */
NTW_INTERNAL bool is_in_run(void)
{
    if (!is_scheduled || schedule.makes || own_calls > 0 || is_apart())
        return false;
    come_in();
    return true;
}

/* The same, and the caller has come to a point then: it may touch anything from there on, */
NTW_INTERNAL bool comes_from_program(void)
{
    if (!is_in_run())
        return false;
    come_to(AT_CALL);
    return true;
}

/* or this object, or null, and what it is known to touch. */
NTW_INTERNAL bool comes_to(const volatile void *object)
{
    if (!is_in_run())
        return false;
    come_to_object(object);
    return true;
}

NTW_INTERNAL bool has_come_for(const struct scheduled *it)
{
    return it->blocked != NULL && it->blocked->has_come != NULL && it->blocked->has_come(it->blocked->object);
}

/* The caller sleeps, until another wakes those at the object that have one of these bits, what it waits for has come, or this moment has. Answers
 * whether it was woken. */
NTW_INTERNAL bool sleep_by_bits(const struct blocked *blocked, uint64_t until, uint32_t bits)
{
    const int error = errno;
    me->state = IS_SLEEPING;
    me->word = blocked->object;
    me->bits = bits;
    me->until = until;
    me->slept = ++schedule.sleeps;
    me->blocked = blocked;
    me->was_woken = false;
    tell_of_sleep(me);
    touch(blocked->object, true);
    hand_on(AT_SLEEP);
    touch(blocked->object, true);
    touch_own();
    me->word = NULL;
    me->blocked = NULL;
    errno = error;
    return me->was_woken;
}

NTW_INTERNAL bool sleep_in(const struct blocked *blocked, uint64_t until)
{
    return sleep_by_bits(blocked, until, FUTEX_BITSET_MATCH_ANY);
}

NTW_INTERNAL bool has_points(void)
{
    return &ntwin_points != NULL;
}

/* What the caller did comes before what those do that take or wait for the object later. */
NTW_INTERNAL void tell_before(const void *object)
{
    comes_before((_Atomic uint32_t *)(uintptr_t)object);
}

NTW_INTERNAL void tell_after(const void *object)
{
    comes_after((_Atomic uint32_t *)(uintptr_t)object);
}

NTW_INTERNAL void wake_at(const void *object, int count)
{
    wake_scheduled(object, count, FUTEX_BITSET_MATCH_ANY);
}

/* ---- Moments. */

NTW_INTERNAL const uint64_t since_1970 = (uint64_t)(INT64_C(134116992000000000) - INT64_C(116444736000000000)); /* where a run begins */

NTW_INTERNAL bool is_time(const struct timespec *time)
{
    return time != NULL && time->tv_sec >= 0 && time->tv_nsec >= 0 && time->tv_nsec < 1000000000;
}

NTW_INTERNAL bool is_clock_of_run(clockid_t clock)
{
    return clock == CLOCK_REALTIME || clock == CLOCK_MONOTONIC || clock == CLOCK_REALTIME_COARSE || clock == CLOCK_MONOTONIC_COARSE
        || clock == CLOCK_MONOTONIC_RAW || clock == CLOCK_BOOTTIME;
}

NTW_INTERNAL bool is_since_1970(clockid_t clock)
{
    return clock == CLOCK_REALTIME || clock == CLOCK_REALTIME_COARSE;
}

/* The first moment that is no sooner; NEVER where it is out of reach. */
static uint64_t length_of(const struct timespec *time)
{
    if (time->tv_sec >= (time_t)1 << 36)
        return NEVER;
    return in_moments(time) + (time->tv_nsec % NANOSECONDS_PER_MOMENT != 0);
}

NTW_INTERNAL uint64_t moment_by(clockid_t clock, const struct timespec *time)
{
    const uint64_t moment = length_of(time), start = is_since_1970(clock) ? since_1970 : 0;
    return moment == NEVER ? NEVER : moment > start ? moment - start : 0;
}

NTW_INTERNAL uint64_t moment_in(const struct timespec *time)
{
    const uint64_t length = length_of(time);
    return length == NEVER ? NEVER : schedule.now + length;
}
