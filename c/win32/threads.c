/* SPDX-License-Identifier: MIT OR Apache-2.0 */
/* ---- What a thread's handle answers. */
#include "../ntwin/by_pointer.h"
#include "internal.h"

/* The thread that this handle names, with the lock taken; null, with the last error set and the lock given back, where it names none. */
NTW_INTERNAL struct seat *begin_with_thread(HANDLE handle, struct seat **caller)
{
    struct seat *seat = *caller = ntw_begin();
    if (seat == NULL || handle == CURRENT_THREAD)
        return seat;
    const uint32_t number = listed_number_of(handle);
    if (number == NO_HANDLE || kind_of(number) != KIND_THREAD) {
        end_look(seat, ERROR_INVALID_HANDLE);
        return NULL;
    }
    return seat_of(number);
}

/* Reads it without the lock. False where that can't be: the caller has no seat, the handle names no thread, or one whose place was given to another,
 * before its code was read or since; or a scheduler has to learn of it, or a sanitizer. */
static inline bool read_exit_code(HANDLE thread, DWORD *code)
{
    const uint32_t number = unlocked_number_of(thread);
    if (number == NO_HANDLE || kind_of(number) != KIND_THREAD || own.seat == NULL || by_schedule() || is_told())
        return false;
    struct ending *ending = &endings[thread_of(number)];
    const bool has_left = atomic_load_explicit(&ending->has_left, memory_order_acquire);
    *code = has_left ? atomic_load_explicit(&ending->code, memory_order_acquire) : STILL_ACTIVE;
    return __atomic_load_n(&waiting.pasts[number], __ATOMIC_ACQUIRE) == NULL;
}

/* The same as a call. */
__attribute__((noinline, cold)) static BOOL ask_for_exit_code(HANDLE thread, LPDWORD code)
{
    struct seat *caller, *seat = begin_with_thread(thread, &caller);
    if (seat == NULL)
        return FALSE;
    const DWORD found = seat->has_left ? seat->exit_code : STILL_ACTIVE;
    unlock_and_wake(caller);
    *code = found;
    return TRUE;
}

BOOL GetExitCodeThread(HANDLE thread, LPDWORD code)
{
    DWORD read;
    if (!read_exit_code(thread, &read))
        return ask_for_exit_code(thread, code);
    *code = read;
    return TRUE;
}

DWORD GetThreadId(HANDLE thread)
{
    struct seat *caller, *seat = begin_with_thread(thread, &caller);
    if (seat == NULL)
        return 0;
    const DWORD id = seat->life.id;
    unlock_and_wake(caller);
    return id;
}

/* The thread with this id, under the lock, that has not ended; null where there is none, or it has made no call. */
static struct seat *seat_with_id(DWORD id)
{
    for (uint32_t i = 0; i < waiting.seated; i++)
        if (waiting.seats[i].life.id == id && !waiting.seats[i].has_left)
            return &waiting.seats[i];
    return NULL;
}

HANDLE OpenThread(DWORD access, BOOL inherit, DWORD id)
{
    struct nt_reply reply;
    struct seat *caller = ntw_begin();
    (void)inherit;
    if (caller == NULL)
        return NULL;
    const struct seat *seat = id != 0 ? seat_with_id(id) : NULL;
    if (seat == NULL) {
        end_look(caller, ERROR_INVALID_PARAMETER);
        return NULL;
    }
    HANDLE made = NULL;
    const uint32_t refused =
        nt_duplicate(&waiting.dispatcher, caller->number, seat->handle, rights_asked(KIND_THREAD, access), &reply);
    if (refused == 0) {
        name_thread(reply.number, seat);
        made = give_handle(reply.number);
    }
    return ntw_finish(caller, refused) ? made : NULL;
}

DWORD ResumeThread(HANDLE thread)
{
    struct seat *caller, *seat = begin_with_thread(thread, &caller);
    if (seat == NULL)
        return UINT32_MAX;
    const uint32_t before = atomic_load_explicit(&seat->suspended, memory_order_relaxed);
    if (before > 0) {
        comes_before(&seat->suspended);
        atomic_store_explicit(&seat->suspended, before - 1, memory_order_release);
        wake_one(&seat->suspended);
    }
    unlock_and_wake(caller);
    return before;
}

DWORD SuspendThread(HANDLE thread)
{
    struct seat *caller, *seat = begin_with_thread(thread, &caller);
    if (seat == NULL)
        return UINT32_MAX;
    const uint32_t before = atomic_load_explicit(&seat->suspended, memory_order_relaxed);
    uint32_t refused = 0;
    if (before == 0)
        refused = ERROR_NOT_SUPPORTED;
    else if (before == MAXIMUM_SUSPEND_COUNT)
        refused = ERROR_SIGNAL_REFUSED;
    else
        atomic_store_explicit(&seat->suspended, before + 1, memory_order_relaxed);
    return end_look(caller, refused) ? before : UINT32_MAX;
}

/* What the system has of a thread, or the process, after its name: that is in brackets, and may have any character. Null where it is gone. */
NTW_INTERNAL const char *read_state(const char *path, char line[1024])
{
    FILE *file = fopen(path, "re");
    if (file == NULL)
        return NULL;
    const char *rest = fgets(line, 1024, file) != NULL ? strrchr(line, ')') : NULL;
    fclose(file);
    return rest;
}

/* How long a thread ran that has not ended, as the program and in the system. */
static void read_times_used(const struct life *life, uint64_t used[2])
{
    char path[64], line[1024];
    unsigned long ticks[2] = { 0, 0 };
    snprintf(path, sizeof path, "/proc/self/task/%d/stat", (int)life->task);
    const char *rest = read_state(path, line);
    if (rest != NULL && sscanf(rest, ") %*c %*d %*d %*d %*d %*d %*u %*u %*u %*u %*u %lu %lu", &ticks[0], &ticks[1]) != 2)
        ticks[0] = ticks[1] = 0;
    for (int i = 0; i < 2; i++)
        used[i] = ticks[i] * (MOMENTS_PER_SECOND / (uint64_t)sysconf(_SC_CLK_TCK));
}

NTW_INTERNAL void set_file_time(LPFILETIME to, uint64_t moments)
{
    to->dwLowDateTime = (DWORD)moments;
    to->dwHighDateTime = (DWORD)(moments >> 32);
}

BOOL GetThreadTimes(HANDLE thread, LPFILETIME began, LPFILETIME ended, LPFILETIME system, LPFILETIME user)
{
    struct seat *caller, *seat = begin_with_thread(thread, &caller);
    if (seat == NULL)
        return FALSE;
    struct life life = seat->life;
    const bool has_left = seat->has_left;
    unlock_and_wake(caller);
    if (!has_left)
        read_times_used(&life, life.used);
    set_file_time(began, (uint64_t)life.began);
    set_file_time(ended, has_left ? (uint64_t)life.ended : 0);
    set_file_time(system, life.used[1]);
    set_file_time(user, life.used[0]);
    return TRUE;
}

BOOL SetThreadPriority(HANDLE thread, int priority)
{
    struct seat *caller, *seat = begin_with_thread(thread, &caller);
    if (seat == NULL)
        return FALSE;
    const bool is_mode = priority == THREAD_MODE_BACKGROUND_BEGIN || priority == THREAD_MODE_BACKGROUND_END;
    const bool is_level = (priority >= THREAD_PRIORITY_LOWEST && priority <= THREAD_PRIORITY_HIGHEST) || priority == THREAD_PRIORITY_IDLE
        || priority == THREAD_PRIORITY_TIME_CRITICAL;
    if (is_level)
        seat->life.priority = priority;
    return end_look(caller, is_level || is_mode ? 0 : ERROR_INVALID_PARAMETER);
}

int GetThreadPriority(HANDLE thread)
{
    struct seat *caller, *seat = begin_with_thread(thread, &caller);
    if (seat == NULL)
        return THREAD_PRIORITY_ERROR_RETURN;
    const int priority = seat->life.priority;
    unlock_and_wake(caller);
    return priority;
}

/* Whether waits raise the priority of threads for a while: one thread's own answer, or the process's for all that have none. It is kept, and that
 * is all. */
enum { AS_THE_PROCESS, BOOSTED, NOT_BOOSTED };
static _Atomic bool is_process_boosted = true;

BOOL SetThreadPriorityBoost(HANDLE thread, BOOL is_disabled)
{
    struct seat *caller, *seat = begin_with_thread(thread, &caller);
    if (seat == NULL)
        return FALSE;
    seat->life.boost = is_disabled ? NOT_BOOSTED : BOOSTED;
    unlock_and_wake(caller);
    return TRUE;
}

BOOL GetThreadPriorityBoost(HANDLE thread, PBOOL is_disabled)
{
    struct seat *caller, *seat = begin_with_thread(thread, &caller);
    if (seat == NULL)
        return FALSE;
    const bool is_boosted = seat->life.boost == AS_THE_PROCESS ? is_process_boosted : seat->life.boost == BOOSTED;
    unlock_and_wake(caller);
    *is_disabled = !is_boosted;
    return TRUE;
}

NTW_INTERNAL BOOL is_process(HANDLE handle)
{
    return handle == CURRENT_PROCESS || ntw_fail(ERROR_INVALID_HANDLE);
}

/* For all threads, whatever was said of one before. */
BOOL SetProcessPriorityBoost(HANDLE handle, BOOL is_disabled)
{
    struct seat *caller = is_process(handle) ? ntw_begin() : NULL;
    if (caller == NULL)
        return FALSE;
    is_process_boosted = !is_disabled;
    for (uint32_t i = 0; i < waiting.seated; i++)
        waiting.seats[i].life.boost = AS_THE_PROCESS;
    unlock_and_wake(caller);
    return TRUE;
}

BOOL GetProcessPriorityBoost(HANDLE handle, PBOOL is_disabled)
{
    if (!is_process(handle))
        return FALSE;
    *is_disabled = !is_process_boosted;
    return TRUE;
}

/* (No other thread has one at this address.) */
struct _TEB *NtCurrentTeb(void)
{
    return (struct _TEB *)(void *)&own;
}

/* What is answered where a handle names no thread: STATUS_INVALID_HANDLE as an HRESULT. */
#define NO_THREAD ((HRESULT)0xD0000008u)

HRESULT SetThreadDescription(HANDLE thread, PCWSTR description)
{
    const DWORD error = own.last_error;
    WCHAR *copy = wcsdup(description != NULL ? description : L"");
    if (copy == NULL)
        return E_OUTOFMEMORY;
    struct seat *caller, *seat = begin_with_thread(thread, &caller);
    if (seat == NULL) {
        free(copy);
        own.last_error = error;
        return NO_THREAD;
    }
    WCHAR *before = seat->life.description;
    const pid_t task = seat->has_left ? 0 : seat->life.task;
    seat->life.description = copy;
    write_description(seat->number, copy);
    unlock_and_wake(caller);
    if (task != 0)
        name_task(task, description != NULL ? description : L"");
    free(before);
    return S_OK;
}

HRESULT GetThreadDescription(HANDLE thread, PWSTR *description)
{
    const DWORD error = own.last_error;
    struct seat *caller, *seat = begin_with_thread(thread, &caller);
    if (seat == NULL) {
        own.last_error = error;
        return NO_THREAD;
    }
    *description = wcsdup(seat->life.description != NULL ? seat->life.description : L"");
    unlock_and_wake(caller);
    return *description != NULL ? S_OK : E_OUTOFMEMORY;
}
