/* SPDX-License-Identifier: MIT OR Apache-2.0 */
/* Native calls on the dispatcher's objects, as programs find them in ntdll. Each answers a state, and leaves the last error as it was. Times are in
 * units of 100 ns, from now on where negative, else in UTC since 1601, and null for ever; a wait lasts whole milliseconds. */
#ifndef NTWIN_WINTERNL_H
#define NTWIN_WINTERNL_H

#include "ntstatus.h"

#ifdef __cplusplus
extern "C" {
#endif

#define NT_SUCCESS(status) ((NTSTATUS)(status) >= 0)

typedef enum _WAIT_TYPE { WaitAll, WaitAny } WAIT_TYPE;
typedef enum _EVENT_TYPE { NotificationEvent, SynchronizationEvent } EVENT_TYPE;
typedef enum _EVENT_INFORMATION_CLASS { EventBasicInformation } EVENT_INFORMATION_CLASS;
typedef enum _SEMAPHORE_INFORMATION_CLASS { SemaphoreBasicInformation } SEMAPHORE_INFORMATION_CLASS;
typedef enum _MUTANT_INFORMATION_CLASS { MutantBasicInformation } MUTANT_INFORMATION_CLASS;

typedef struct _EVENT_BASIC_INFORMATION {
    EVENT_TYPE EventType;
    LONG EventState;
} EVENT_BASIC_INFORMATION, *PEVENT_BASIC_INFORMATION;

typedef struct _SEMAPHORE_BASIC_INFORMATION {
    ULONG CurrentCount;
    ULONG MaximumCount;
} SEMAPHORE_BASIC_INFORMATION, *PSEMAPHORE_BASIC_INFORMATION;

typedef struct _MUTANT_BASIC_INFORMATION {
    LONG CurrentCount;
    BOOLEAN OwnedByCaller;
    BOOLEAN AbandonedState;
} MUTANT_BASIC_INFORMATION, *PMUTANT_BASIC_INFORMATION;

NTSTATUS NtWaitForSingleObject(HANDLE object, BOOLEAN alertable, PLARGE_INTEGER timeout);
NTSTATUS NtWaitForMultipleObjects(ULONG count, HANDLE *objects, WAIT_TYPE type, BOOLEAN alertable, PLARGE_INTEGER timeout);
NTSTATUS NtDelayExecution(BOOLEAN alertable, PLARGE_INTEGER interval);
NTSTATUS NtYieldExecution(void);

/* `previous` may be null; else it gets the state before: whether the event was set, the semaphore's count, 1 less the mutant's depth. */
NTSTATUS NtSetEvent(HANDLE event, PLONG previous);
NTSTATUS NtResetEvent(HANDLE event, PLONG previous);
NTSTATUS NtPulseEvent(HANDLE event, PLONG previous);
NTSTATUS NtClearEvent(HANDLE event);
NTSTATUS NtReleaseSemaphore(HANDLE semaphore, LONG count, PLONG previous);
NTSTATUS NtReleaseMutant(HANDLE mutant, PLONG previous);
NTSTATUS NtClose(HANDLE handle);

/* `written`, which may be null, gets the size. */
NTSTATUS NtQueryEvent(HANDLE event, EVENT_INFORMATION_CLASS what, PVOID information, ULONG size, PULONG written);
NTSTATUS NtQuerySemaphore(HANDLE semaphore, SEMAPHORE_INFORMATION_CLASS what, PVOID information, ULONG size, PULONG written);
NTSTATUS NtQueryMutant(HANDLE mutant, MUTANT_INFORMATION_CLASS what, PVOID information, ULONG size, PULONG written);

/* The resolution changes nothing: waits are as exact as the system has them. */
NTSTATUS NtQueryTimerResolution(PULONG coarsest, PULONG finest, PULONG present);
NTSTATUS NtSetTimerResolution(ULONG wanted, BOOLEAN is_set, PULONG present);

/* ERROR_MR_MID_NOT_FOUND where there is none here. */
ULONG RtlNtStatusToDosError(NTSTATUS status);

#ifdef __cplusplus
}
#endif

#endif
