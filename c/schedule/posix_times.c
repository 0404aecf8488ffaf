/* SPDX-License-Identifier: MIT OR Apache-2.0 */
/* ---- Clocks and sleeps of POSIX. */
#include "posix.h"

NTW_INTERNAL int hooked_clock_gettime(clockid_t clock, struct timespec *time)
{
    if (!is_clock_of_run(clock) || !is_in_run())
        return real.clock_gettime(clock, time);
    come_to_clock();
    *time = in_timespec(schedule.now + (is_since_1970(clock) ? since_1970 : 0));
    return 0;
}

NTW_INTERNAL int hooked_gettimeofday(struct timeval *time, void *zone)
{
    struct timespec now;
    if (time == NULL || !is_in_run())
        return real.gettimeofday(time, zone);
    hooked_clock_gettime(CLOCK_REALTIME, &now);
    *time = (struct timeval){ now.tv_sec, now.tv_nsec / 1000 };
    return 0;
}

NTW_INTERNAL time_t hooked_time(time_t *to)
{
    struct timespec now;
    if (!is_in_run())
        return real.time(to);
    hooked_clock_gettime(CLOCK_REALTIME, &now);
    if (to != NULL)
        *to = now.tv_sec;
    return now.tv_sec;
}

/* Sleeps to this moment; one that is past lets others go first. */
static void sleep_to_moment(const char *call, const void *place, uint64_t until)
{
    const struct blocked blocked = { call, NULL, place, NULL };
    if (until <= schedule.now)
        come_to(AT_YIELD);
    else
        sleep_in(&blocked, until);
}

NTW_INTERNAL int hooked_nanosleep(const struct timespec *time, struct timespec *left)
{
    if (!is_time(time) || !comes_to(NULL))
        return real.nanosleep(time, left);
    sleep_to_moment("nanosleep", __builtin_return_address(0), moment_in(time));
    return 0;
}

NTW_INTERNAL int hooked_clock_nanosleep(clockid_t clock, int flags, const struct timespec *time, struct timespec *left)
{
    if (!is_time(time) || !is_clock_of_run(clock) || !comes_to(NULL))
        return real.clock_nanosleep(clock, flags, time, left);
    sleep_to_moment("clock_nanosleep", __builtin_return_address(0), (flags & TIMER_ABSTIME) != 0 ? moment_by(clock, time) : moment_in(time));
    return 0;
}

NTW_INTERNAL int hooked_usleep(useconds_t microseconds)
{
    if (!comes_to(NULL))
        return real.usleep(microseconds);
    sleep_to_moment("usleep", __builtin_return_address(0), schedule.now + (uint64_t)microseconds * 10);
    return 0;
}

NTW_INTERNAL unsigned hooked_sleep(unsigned seconds)
{
    if (!comes_to(NULL))
        return real.sleep(seconds);
    sleep_to_moment("sleep", __builtin_return_address(0), schedule.now + (uint64_t)seconds * MOMENTS_PER_SECOND);
    return 0;
}

NTW_INTERNAL int hooked_sched_yield(void)
{
    if (!is_in_run())
        return real.sched_yield();
    come_to(AT_YIELD);
    return 0;
}
