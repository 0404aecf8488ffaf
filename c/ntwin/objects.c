/* SPDX-License-Identifier: MIT OR Apache-2.0 */
/* ---- Events. */
#include "by_pointer.h"
#include "../win32/internal.h"

NTW_INTERNAL HANDLE create_event(struct given_name name, DWORD flags, DWORD access)
{
    return ntw_create(&(struct wanted){ .kind = KIND_EVENT, .make = nt_create_event, .flags = flags, .access = access, .place = name.place,
                                        .known_flags = CREATE_EVENT_MANUAL_RESET | CREATE_EVENT_INITIAL_SET }, name);
}

HANDLE CreateEventExA(LPSECURITY_ATTRIBUTES attributes, LPCSTR name, DWORD flags, DWORD access)
{
    (void)attributes;
    return create_event(NARROW(name), flags, access);
}

HANDLE CreateEventExW(LPSECURITY_ATTRIBUTES attributes, LPCWSTR name, DWORD flags, DWORD access)
{
    (void)attributes;
    return create_event(WIDE(name), flags, access);
}

NTW_INTERNAL DWORD event_flags(BOOL manual, BOOL set)
{
    return (manual ? CREATE_EVENT_MANUAL_RESET : 0) | (set ? CREATE_EVENT_INITIAL_SET : 0);
}

HANDLE CreateEventA(LPSECURITY_ATTRIBUTES attributes, BOOL manual, BOOL set, LPCSTR name)
{
    (void)attributes;
    return create_event(NARROW(name), event_flags(manual, set), EVENT_ALL_ACCESS);
}

HANDLE CreateEventW(LPSECURITY_ATTRIBUTES attributes, BOOL manual, BOOL set, LPCWSTR name)
{
    (void)attributes;
    return create_event(WIDE(name), event_flags(manual, set), EVENT_ALL_ACCESS);
}

/* What SetEvent answers that was refused. A handler of signals that has interrupted its thread's wait sets the event by the thread that is yet to
 * come, where one is. */
__attribute__((noinline, cold)) static BOOL set_event_beside_wait(struct seat *seat, uint32_t event, uint32_t refused)
{
    struct nt_reply reply;
    if (refused == NT_ERROR_THREAD_WAITING && waiting.seated < waiting.places)
        refused = nt_set_event(&waiting.dispatcher, waiting.places - 1, event, &reply);
    return ntw_finish(seat, refused);
}

BOOL SetEvent(HANDLE event)
{
    struct seat *seat = ntw_begin();
    if (seat == NULL)
        return FALSE;
    note_call(seat);
    const uint32_t number = number_of(seat, event), refused = nt_set_event(&waiting.dispatcher, seat->number, number, &seat->reply);
    if (__builtin_expect(refused != 0, false))
        return set_event_beside_wait(seat, number, refused);
    return ntw_finish(seat, 0);
}

BOOL ResetEvent(HANDLE event)
{
    struct seat *seat = ntw_begin();
    if (seat == NULL)
        return FALSE;
    note_call(seat);
    const uint32_t number = number_of(seat, event);
    return ntw_finish(seat, nt_reset_event(&waiting.dispatcher, seat->number, number, &seat->reply));
}

BOOL PulseEvent(HANDLE event)
{
    struct seat *seat = ntw_begin();
    if (seat == NULL)
        return FALSE;
    note_call(seat);
    const uint32_t number = number_of(seat, event);
    return ntw_finish(seat, nt_pulse_event(&waiting.dispatcher, seat->number, number, &seat->reply));
}

/* ---- Semaphores. */

NTW_INTERNAL HANDLE create_semaphore(struct given_name name, LONG initial, LONG maximum, DWORD flags, DWORD access)
{
    return ntw_create(&(struct wanted){ .kind = KIND_SEMAPHORE, .initial = initial, .maximum = maximum, .flags = flags, .access = access,
                                        .place = name.place }, name);
}

HANDLE CreateSemaphoreExA(LPSECURITY_ATTRIBUTES attributes, LONG initial, LONG maximum, LPCSTR name, DWORD flags, DWORD access)
{
    (void)attributes;
    return create_semaphore(NARROW(name), initial, maximum, flags, access);
}

HANDLE CreateSemaphoreExW(LPSECURITY_ATTRIBUTES attributes, LONG initial, LONG maximum, LPCWSTR name, DWORD flags, DWORD access)
{
    (void)attributes;
    return create_semaphore(WIDE(name), initial, maximum, flags, access);
}

HANDLE CreateSemaphoreA(LPSECURITY_ATTRIBUTES attributes, LONG initial, LONG maximum, LPCSTR name)
{
    (void)attributes;
    return create_semaphore(NARROW(name), initial, maximum, 0, SEMAPHORE_ALL_ACCESS);
}

HANDLE CreateSemaphoreW(LPSECURITY_ATTRIBUTES attributes, LONG initial, LONG maximum, LPCWSTR name)
{
    (void)attributes;
    return create_semaphore(WIDE(name), initial, maximum, 0, SEMAPHORE_ALL_ACCESS);
}

BOOL ReleaseSemaphore(HANDLE semaphore, LONG count, LPLONG previous)
{
    struct seat *seat = ntw_begin();
    if (seat == NULL)
        return FALSE;
    note_call(seat);
    const uint32_t number = number_of(seat, semaphore);
    const uint32_t refused = nt_release_semaphore(&waiting.dispatcher, seat->number, number, count, &seat->reply);
    const LONG before = seat->reply.previous;
    if (!ntw_finish(seat, refused))
        return FALSE;
    if (previous != NULL)
        *previous = before;
    return TRUE;
}

/* ---- Mutexes. */

NTW_INTERNAL HANDLE create_mutex(struct given_name name, DWORD flags, DWORD access)
{
    return ntw_create(&(struct wanted){ .kind = KIND_MUTEX, .make = nt_create_mutex, .flags = flags, .access = access, .place = name.place,
                                        .known_flags = CREATE_MUTEX_INITIAL_OWNER }, name);
}

HANDLE CreateMutexExA(LPSECURITY_ATTRIBUTES attributes, LPCSTR name, DWORD flags, DWORD access)
{
    (void)attributes;
    return create_mutex(NARROW(name), flags, access);
}

HANDLE CreateMutexExW(LPSECURITY_ATTRIBUTES attributes, LPCWSTR name, DWORD flags, DWORD access)
{
    (void)attributes;
    return create_mutex(WIDE(name), flags, access);
}

HANDLE CreateMutexA(LPSECURITY_ATTRIBUTES attributes, BOOL owned, LPCSTR name)
{
    (void)attributes;
    return create_mutex(NARROW(name), owned ? CREATE_MUTEX_INITIAL_OWNER : 0, MUTEX_ALL_ACCESS);
}

HANDLE CreateMutexW(LPSECURITY_ATTRIBUTES attributes, BOOL owned, LPCWSTR name)
{
    (void)attributes;
    return create_mutex(WIDE(name), owned ? CREATE_MUTEX_INITIAL_OWNER : 0, MUTEX_ALL_ACCESS);
}

BOOL ReleaseMutex(HANDLE mutex)
{
    struct seat *seat = ntw_begin();
    if (seat == NULL)
        return FALSE;
    const uint32_t number = number_of(seat, mutex);
    return ntw_finish(seat, nt_release_mutex(&waiting.dispatcher, seat->number, number, &seat->reply));
}

/* ---- Waitable timers. */

NTW_INTERNAL HANDLE create_timer(struct given_name name, DWORD flags, DWORD access)
{
    return ntw_create(&(struct wanted){ .kind = KIND_TIMER, .make = nt_create_timer, .flags = flags, .access = access, .place = name.place,
                                        .known_flags = CREATE_WAITABLE_TIMER_MANUAL_RESET }, name);
}

HANDLE CreateWaitableTimerExA(LPSECURITY_ATTRIBUTES attributes, LPCSTR name, DWORD flags, DWORD access)
{
    (void)attributes;
    return create_timer(NARROW(name), flags, access);
}

HANDLE CreateWaitableTimerExW(LPSECURITY_ATTRIBUTES attributes, LPCWSTR name, DWORD flags, DWORD access)
{
    (void)attributes;
    return create_timer(WIDE(name), flags, access);
}

HANDLE CreateWaitableTimerA(LPSECURITY_ATTRIBUTES attributes, BOOL manual, LPCSTR name)
{
    (void)attributes;
    return create_timer(NARROW(name), manual ? CREATE_WAITABLE_TIMER_MANUAL_RESET : 0, TIMER_ALL_ACCESS);
}

HANDLE CreateWaitableTimerW(LPSECURITY_ATTRIBUTES attributes, BOOL manual, LPCWSTR name)
{
    (void)attributes;
    return create_timer(WIDE(name), manual ? CREATE_WAITABLE_TIMER_MANUAL_RESET : 0, TIMER_ALL_ACCESS);
}

/* Sets a timer, under the lock, to a due time as `nt_set_timer` has it. */
static uint32_t set_timer(struct seat *seat, uint32_t timer, int64_t due, LONG period, PTIMERAPCROUTINE routine, LPVOID argument)
{
    struct nt *nt = &waiting.dispatcher;
    if (routine == NULL)
        return nt_set_timer(nt, seat->number, timer, due, period, &seat->reply);
    return nt_set_timer_apc(nt, seat->number, timer, due, period, (uint64_t)(uintptr_t)routine, (uint64_t)(uintptr_t)argument,
                            &seat->reply);
}

BOOL SetWaitableTimer(HANDLE timer, const LARGE_INTEGER *due, LONG period, PTIMERAPCROUTINE routine, LPVOID argument, BOOL resume)
{
    (void)resume;
    if (due == NULL)
        return ntw_fail(ERROR_INVALID_PARAMETER);
    const int64_t time = due->QuadPart;
    struct seat *seat = ntw_join();
    if (seat == NULL || !take_lock_for(seat))
        return FALSE;
    STEP_OF(seat, word, NULL, Enters);
    const uint64_t now = pass_time(seat);
    const int64_t moment = time < 0 ? time : moment_of(time);
    const uint32_t number = number_of(seat, timer), refused = set_timer(seat, number, moment, period, routine, argument);
    if (refused == 0) {
        ntw_note(seat);
        note_routine(seat, number, routine != NULL);
        note_timer(now, moment < 0 ? now - (uint64_t)moment : (uint64_t)moment);
    }
    unlock_and_wake(seat);
    return refused == 0 ? TRUE : ntw_fail(refused);
}

BOOL SetWaitableTimerEx(HANDLE timer, const LARGE_INTEGER *due, LONG period, PTIMERAPCROUTINE routine, LPVOID argument,
                        PREASON_CONTEXT context, ULONG delay)
{
    (void)context;
    (void)delay;
    return SetWaitableTimer(timer, due, period, routine, argument, FALSE);
}

BOOL CancelWaitableTimer(HANDLE timer)
{
    struct seat *seat = ntw_begin();
    if (seat == NULL)
        return FALSE;
    const uint32_t refused = nt_cancel_timer(&waiting.dispatcher, seat->number, number_of(seat, timer), &seat->reply);
    look_for_timers();
    return ntw_finish(seat, refused);
}

