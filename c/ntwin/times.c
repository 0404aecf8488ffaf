/* SPDX-License-Identifier: MIT OR Apache-2.0 */
#include "../schedule/internal.h"

/* ---- Errors. */

static DWORD error_of(uint32_t refused)
{
    switch (refused) {
    case NT_ERROR_RECURSION_LIMIT:
        return ERROR_MUTANT_LIMIT_EXCEEDED;
    case NT_ERROR_HANDLE_LIMIT:
        return ERROR_NO_SYSTEM_RESOURCES;
    default:
        return refused;
    }
}

/* Sets the last error, and answers FALSE. */
__attribute__((noinline, cold)) NTW_INTERNAL BOOL ntw_fail(uint32_t refused)
{
    own.last_error = error_of(refused);
    return FALSE;
}

DWORD GetLastError(void)
{
    return own.last_error;
}

void SetLastError(DWORD error)
{
    own.last_error = error;
}

/* ---- Time. */

/* From 1601 to 1970, in units of 100 ns. */
NTW_INTERNAL const int64_t unix_epoch = INT64_C(116444736000000000);

/* Where a scheduled run begins, in UTC: it depends on no clock. */
static const int64_t start_of_2026 = INT64_C(134116992000000000);

NTW_INTERNAL uint64_t in_moments(const struct timespec *time)
{
    return (uint64_t)time->tv_sec * MOMENTS_PER_SECOND + (uint64_t)time->tv_nsec / NANOSECONDS_PER_MOMENT;
}

/* The monotonic clock, in units of 100 ns. */
NTW_INTERNAL uint64_t monotonic(void)
{
    struct timespec now;
    if (by_schedule())
        return scheduled_time();
    clock_gettime(CLOCK_MONOTONIC, &now);
    return in_moments(&now);
}

/* How it stood some ms ago at the most, which takes less time to learn. */
NTW_INTERNAL uint64_t coarsely(void)
{
    struct timespec now;
    if (by_schedule())
        return scheduled_time();
    clock_gettime(CLOCK_MONOTONIC_COARSE, &now);
    return in_moments(&now);
}

NTW_INTERNAL struct timespec in_timespec(uint64_t time)
{
    return (struct timespec){
        .tv_sec = (time_t)(time / MOMENTS_PER_SECOND),
        .tv_nsec = (long)(time % MOMENTS_PER_SECOND) * NANOSECONDS_PER_MOMENT,
    };
}

/* UTC, in units of 100 ns since 1601. */
NTW_INTERNAL int64_t universal(void)
{
    struct timespec now;
    if (by_schedule())
        return start_of_2026 + (int64_t)scheduled_time();
    clock_gettime(CLOCK_REALTIME, &now);
    return unix_epoch + (int64_t)now.tv_sec * MOMENTS_PER_SECOND + (int64_t)now.tv_nsec / NANOSECONDS_PER_MOMENT;
}

/* The present moment of the dispatcher. */
NTW_INTERNAL uint64_t present(void)
{
    return monotonic() - process.start;
}

/* The moment of a time in UTC; moment 0 where that is before the dispatcher was opened, which is past too. */
NTW_INTERNAL int64_t moment_of(int64_t time)
{
    const int64_t since = time - universal() + (int64_t)present();
    return since > 0 ? since : 0;
}

/* (By the coarse clock: it is late by a tick of the system's timer at the most, as Windows' own is, and takes a quarter of the time.) */
ULONGLONG GetTickCount64(void)
{
    struct timespec now;
    if (by_schedule()) {
        come_to_clock();
        return scheduled_time() / (MOMENTS_PER_SECOND / 1000);
    }
    clock_gettime(CLOCK_MONOTONIC_COARSE, &now);
    return (ULONGLONG)now.tv_sec * 1000 + (ULONGLONG)now.tv_nsec / 1000000;
}

DWORD GetTickCount(void)
{
    return (DWORD)GetTickCount64();
}

BOOL QueryPerformanceCounter(LARGE_INTEGER *count)
{
    may_switch_at_clock();
    count->QuadPart = (LONGLONG)monotonic();
    return TRUE;
}

BOOL QueryPerformanceFrequency(LARGE_INTEGER *frequency)
{
    frequency->QuadPart = MOMENTS_PER_SECOND;
    return TRUE;
}

void GetSystemTimeAsFileTime(LPFILETIME now)
{
    may_switch_at_clock();
    const uint64_t time = (uint64_t)universal();
    now->dwLowDateTime = (DWORD)time;
    now->dwHighDateTime = (DWORD)(time >> 32);
}
