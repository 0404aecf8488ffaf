/* SPDX-License-Identifier: MIT OR Apache-2.0 */
/* ---- Native calls: each as Win32's, with a state for its error, and the last error as it was. */
#include "../ntwin/by_pointer.h"
#include "../win/winternl.h"

static const struct {
    DWORD error;
    NTSTATUS status;
} states[] = {
    { ERROR_SUCCESS, STATUS_SUCCESS },
    { ERROR_INVALID_HANDLE, STATUS_INVALID_HANDLE },
    { ERROR_INVALID_HANDLE, STATUS_OBJECT_TYPE_MISMATCH },
    { ERROR_ACCESS_DENIED, STATUS_ACCESS_DENIED },
    { ERROR_INVALID_PARAMETER, STATUS_INVALID_PARAMETER },
    { ERROR_INVALID_PARAMETER, STATUS_INVALID_INFO_CLASS },
    { ERROR_BAD_LENGTH, STATUS_INFO_LENGTH_MISMATCH },
    { ERROR_NOT_ENOUGH_MEMORY, STATUS_NO_MEMORY },
    { ERROR_NO_SYSTEM_RESOURCES, STATUS_INSUFFICIENT_RESOURCES },
    { ERROR_NOT_SUPPORTED, STATUS_NOT_SUPPORTED },
    { ERROR_NOT_OWNER, STATUS_MUTANT_NOT_OWNED },
    { ERROR_TOO_MANY_POSTS, STATUS_SEMAPHORE_LIMIT_EXCEEDED },
    { ERROR_MUTANT_LIMIT_EXCEEDED, STATUS_MUTANT_LIMIT_EXCEEDED },
    { ERROR_OPERATION_ABORTED, STATUS_CANCELLED },
    { ERROR_IO_PENDING, STATUS_PENDING },
    { WAIT_TIMEOUT, STATUS_TIMEOUT },
    { ERROR_GEN_FAILURE, STATUS_UNSUCCESSFUL },
};

ULONG RtlNtStatusToDosError(NTSTATUS status)
{
    for (size_t i = 0; i < ARRAYSIZE(states); i++)
        if (states[i].status == status)
            return states[i].error;
    return ERROR_MR_MID_NOT_FOUND;
}

/* The state for the last error, which is again as it was before the call. */
static NTSTATUS state_of_error(DWORD before)
{
    const DWORD error = own.last_error;
    own.last_error = before;
    for (size_t i = 0; i < ARRAYSIZE(states); i++)
        if (states[i].error == error)
            return states[i].status;
    return STATUS_UNSUCCESSFUL;
}

/* The same of a call on this handle: where it names something, that is of another kind. */
static NTSTATUS state_of_call(BOOL is_done, HANDLE handle, DWORD before)
{
    DWORD flags;
    if (is_done) {
        own.last_error = before;
        return STATUS_SUCCESS;
    }
    const NTSTATUS status = state_of_error(before);
    const bool is_other = status == STATUS_INVALID_HANDLE && GetHandleInformation(handle, &flags);
    own.last_error = before;
    return is_other ? STATUS_OBJECT_TYPE_MISMATCH : status;
}

static DWORD ms_of_timeout(const LARGE_INTEGER *timeout)
{
    enum { MOMENTS_PER_MS = MOMENTS_PER_SECOND / 1000 };
    if (timeout == NULL)
        return INFINITE;
    const int64_t now = timeout->QuadPart > 0 ? universal() : 0;
    const uint64_t left = timeout->QuadPart <= 0 ? 0 - (uint64_t)timeout->QuadPart
        : timeout->QuadPart > now                ? (uint64_t)(timeout->QuadPart - now)
                                                 : 0;
    const uint64_t ms = left / MOMENTS_PER_MS + (left % MOMENTS_PER_MS != 0);
    return ms < INFINITE ? (DWORD)ms : INFINITE;
}

/* ---- Waits. */

static NTSTATUS state_of_wait(DWORD status, DWORD before)
{
    return status == WAIT_FAILED ? state_of_error(before) : (NTSTATUS)status;
}

NTSTATUS NtWaitForSingleObject(HANDLE object, BOOLEAN alertable, PLARGE_INTEGER timeout)
{
    const DWORD before = own.last_error;
    return state_of_wait(WaitForSingleObjectEx(object, ms_of_timeout(timeout), alertable), before);
}

NTSTATUS NtWaitForMultipleObjects(ULONG count, HANDLE *objects, WAIT_TYPE type, BOOLEAN alertable, PLARGE_INTEGER timeout)
{
    const DWORD before = own.last_error;
    if (type != WaitAll && type != WaitAny)
        return STATUS_INVALID_PARAMETER;
    return state_of_wait(WaitForMultipleObjectsEx(count, objects, type == WaitAll, ms_of_timeout(timeout), alertable), before);
}

NTSTATUS NtDelayExecution(BOOLEAN alertable, PLARGE_INTEGER interval)
{
    const DWORD before = own.last_error;
    return state_of_wait(SleepEx(ms_of_timeout(interval), alertable), before);
}

NTSTATUS NtYieldExecution(void)
{
    yield_to_others();
    return STATUS_SUCCESS;
}

/* ---- Signals. */

/* What this handle names, under the lock, if it names anything of this kind of the dispatcher's. */
static bool read_object(const struct seat *seat, HANDLE handle, uint32_t kind, struct nt_object *object)
{
    struct nt_opened opened;
    return nt_opened(&waiting.dispatcher, number_of(seat, handle), &opened) == 0 && nt_object(&waiting.dispatcher, opened.object, object) == 0
        && object->kind == kind;
}

/* The native calls on one object, which tell what it was before. */
enum signal { SET, RESET, PULSE, RELEASE };

static uint32_t make_signal(struct seat *seat, enum signal signal, uint32_t number)
{
    switch (signal) {
    case SET:
        return nt_set_event(&waiting.dispatcher, seat->number, number, &seat->reply);
    case RESET:
        return nt_reset_event(&waiting.dispatcher, seat->number, number, &seat->reply);
    case PULSE:
        return nt_pulse_event(&waiting.dispatcher, seat->number, number, &seat->reply);
    default:
        return nt_release_mutex(&waiting.dispatcher, seat->number, number, &seat->reply);
    }
}

/* (In line in each of them: so `note_call` knows where the program calls.) */
__attribute__((always_inline)) static inline NTSTATUS signal_object(HANDLE handle, enum signal signal, PLONG previous)
{
    const DWORD before = own.last_error;
    struct nt_object object = { 0 };
    struct seat *seat = ntw_begin();
    if (seat == NULL)
        return state_of_error(before);
    note_call(seat);
    read_object(seat, handle, signal == RELEASE ? NT_MUTEX : NT_EVENT, &object);
    const BOOL is_done = ntw_finish(seat, make_signal(seat, signal, number_of(seat, handle)));
    if (is_done && previous != NULL)
        *previous = signal == RELEASE ? 1 - (LONG)object.depth : object.set;
    return state_of_call(is_done, handle, before);
}

NTSTATUS NtSetEvent(HANDLE event, PLONG previous)
{
    return signal_object(event, SET, previous);
}

NTSTATUS NtResetEvent(HANDLE event, PLONG previous)
{
    return signal_object(event, RESET, previous);
}

NTSTATUS NtPulseEvent(HANDLE event, PLONG previous)
{
    return signal_object(event, PULSE, previous);
}

NTSTATUS NtClearEvent(HANDLE event)
{
    return signal_object(event, RESET, NULL);
}

NTSTATUS NtReleaseMutant(HANDLE mutant, PLONG previous)
{
    return signal_object(mutant, RELEASE, previous);
}

NTSTATUS NtReleaseSemaphore(HANDLE semaphore, LONG count, PLONG previous)
{
    const DWORD before = own.last_error;
    return state_of_call(ReleaseSemaphore(semaphore, count, previous), semaphore, before);
}

NTSTATUS NtClose(HANDLE handle)
{
    const DWORD before = own.last_error;
    return state_of_call(CloseHandle(handle), handle, before);
}

/* ---- What there is to read. */

/* Reads an object of this kind, and whether the caller owns it. There is one class of information on each. */
static NTSTATUS query(HANDLE handle, uint32_t kind, struct nt_object *object, bool *is_owner, bool is_class, bool is_size)
{
    const DWORD before = own.last_error;
    if (!is_class || !is_size)
        return is_class ? STATUS_INFO_LENGTH_MISMATCH : STATUS_INVALID_INFO_CLASS;
    struct seat *seat = ntw_begin();
    if (seat == NULL)
        return state_of_error(before);
    const bool is_there = read_object(seat, handle, kind, object);
    *is_owner = is_there && object->owned && object->owner == seat->number;
    return state_of_call(end_look(seat, is_there ? 0 : ERROR_INVALID_HANDLE), handle, before);
}

static NTSTATUS give_information(NTSTATUS status, PVOID to, const void *from, ULONG size, PULONG written)
{
    if (!NT_SUCCESS(status))
        return status;
    memcpy(to, from, size);
    if (written != NULL)
        *written = size;
    return status;
}

NTSTATUS NtQueryEvent(HANDLE event, EVENT_INFORMATION_CLASS what, PVOID information, ULONG size, PULONG written)
{
    struct nt_object found = { 0 };
    bool is_owner;
    const NTSTATUS status = query(event, NT_EVENT, &found, &is_owner, what == EventBasicInformation, size == sizeof(EVENT_BASIC_INFORMATION));
    const EVENT_BASIC_INFORMATION it = { found.manual ? NotificationEvent : SynchronizationEvent, found.set };
    return give_information(status, information, &it, sizeof it, written);
}

NTSTATUS NtQuerySemaphore(HANDLE semaphore, SEMAPHORE_INFORMATION_CLASS what, PVOID information, ULONG size, PULONG written)
{
    struct nt_object found = { 0 };
    bool is_owner;
    const NTSTATUS status =
        query(semaphore, NT_SEMAPHORE, &found, &is_owner, what == SemaphoreBasicInformation, size == sizeof(SEMAPHORE_BASIC_INFORMATION));
    const SEMAPHORE_BASIC_INFORMATION it = { (ULONG)found.count, (ULONG)found.maximum };
    return give_information(status, information, &it, sizeof it, written);
}

NTSTATUS NtQueryMutant(HANDLE mutant, MUTANT_INFORMATION_CLASS what, PVOID information, ULONG size, PULONG written)
{
    struct nt_object found = { 0 };
    bool is_owner;
    const NTSTATUS status = query(mutant, NT_MUTEX, &found, &is_owner, what == MutantBasicInformation, size == sizeof(MUTANT_BASIC_INFORMATION));
    const MUTANT_BASIC_INFORMATION it = { 1 - (LONG)found.depth, is_owner, found.abandoned };
    return give_information(status, information, &it, sizeof it, written);
}

/* ---- The clock. */

enum { COARSEST = 156250, FINEST = 5000 };

NTSTATUS NtQueryTimerResolution(PULONG coarsest, PULONG finest, PULONG present)
{
    *coarsest = COARSEST;
    *finest = *present = FINEST;
    return STATUS_SUCCESS;
}

NTSTATUS NtSetTimerResolution(ULONG wanted, BOOLEAN is_set, PULONG present)
{
    static _Atomic bool was_set;
    (void)wanted;
    *present = FINEST;
    const bool before = atomic_exchange(&was_set, is_set != FALSE);
    return is_set || before ? STATUS_SUCCESS : STATUS_TIMER_RESOLUTION_NOT_SET;
}
