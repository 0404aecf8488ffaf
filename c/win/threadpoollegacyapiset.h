/* SPDX-License-Identifier: MIT OR Apache-2.0 */
/* Callbacks in threads of a pool: work, registered waits, and timers of queues. */
#ifndef NTWIN_THREADPOOLLEGACYAPISET_H
#define NTWIN_THREADPOOLLEGACYAPISET_H

#include "winnt.h"

#ifdef __cplusplus
extern "C" {
#endif

#define WT_EXECUTEDEFAULT 0x00000000u
#define WT_EXECUTEINIOTHREAD 0x00000001u
#define WT_EXECUTEINUITHREAD 0x00000002u
#define WT_EXECUTEINWAITTHREAD 0x00000004u
#define WT_EXECUTEONLYONCE 0x00000008u
#define WT_EXECUTELONGFUNCTION 0x00000010u
#define WT_EXECUTEINTIMERTHREAD 0x00000020u
#define WT_EXECUTEINPERSISTENTIOTHREAD 0x00000040u
#define WT_EXECUTEINPERSISTENTTHREAD 0x00000080u
#define WT_TRANSFER_IMPERSONATION 0x00000100u

typedef void(CALLBACK *WAITORTIMERCALLBACKFUNC)(PVOID parameter, BOOLEAN timed_out);
typedef WAITORTIMERCALLBACKFUNC WAITORTIMERCALLBACK;

BOOL QueueUserWorkItem(LPTHREAD_START_ROUTINE function, PVOID context, ULONG flags);

/* The callback is called each time that a wait for the object, of `ms` at the longest, ends; once with WT_EXECUTEONLYONCE. */
BOOL RegisterWaitForSingleObject(PHANDLE wait, HANDLE object, WAITORTIMERCALLBACK callback, PVOID context, ULONG ms, ULONG flags);
/* ERROR_IO_PENDING, and FALSE, where callbacks have yet to end. */
BOOL UnregisterWait(HANDLE wait);
/* The same, and the event is set once they have ended; with INVALID_HANDLE_VALUE for an event it waits for them. */
BOOL UnregisterWaitEx(HANDLE wait, HANDLE event);

HANDLE CreateTimerQueue(void);
/* A null queue is the process's own. The callback is called after `due` ms, and then each `period` ms where that is not 0. */
BOOL CreateTimerQueueTimer(PHANDLE timer, HANDLE queue, WAITORTIMERCALLBACK callback, PVOID parameter, DWORD due, DWORD period, ULONG flags);
/* A timer without a period that is over stays so. */
BOOL ChangeTimerQueueTimer(HANDLE queue, HANDLE timer, ULONG due, ULONG period);
/* As UnregisterWaitEx. */
BOOL DeleteTimerQueueTimer(HANDLE queue, HANDLE timer, HANDLE event);
BOOL DeleteTimerQueueEx(HANDLE queue, HANDLE event);
BOOL DeleteTimerQueue(HANDLE queue);

#ifdef __cplusplus
}
#endif

#endif
