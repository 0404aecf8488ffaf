/* SPDX-License-Identifier: MIT OR Apache-2.0 */
/* The thread pool: work, timers and waits whose callbacks run in its threads. */
#ifndef NTWIN_THREADPOOLAPISET_H
#define NTWIN_THREADPOOLAPISET_H

#include "synchapi.h"

#ifdef __cplusplus
extern "C" {
#endif

typedef struct _TP_POOL TP_POOL, *PTP_POOL;
typedef struct _TP_CALLBACK_INSTANCE TP_CALLBACK_INSTANCE, *PTP_CALLBACK_INSTANCE;
typedef struct _TP_WORK TP_WORK, *PTP_WORK;
typedef struct _TP_TIMER TP_TIMER, *PTP_TIMER;
typedef struct _TP_WAIT TP_WAIT, *PTP_WAIT;
typedef struct _TP_CLEANUP_GROUP TP_CLEANUP_GROUP, *PTP_CLEANUP_GROUP;
typedef DWORD TP_VERSION, *PTP_VERSION, TP_WAIT_RESULT;

typedef void(NTAPI *PTP_SIMPLE_CALLBACK)(PTP_CALLBACK_INSTANCE instance, PVOID context);
typedef void(NTAPI *PTP_WORK_CALLBACK)(PTP_CALLBACK_INSTANCE instance, PVOID context, PTP_WORK work);
typedef void(NTAPI *PTP_TIMER_CALLBACK)(PTP_CALLBACK_INSTANCE instance, PVOID context, PTP_TIMER timer);
typedef void(NTAPI *PTP_WAIT_CALLBACK)(PTP_CALLBACK_INSTANCE instance, PVOID context, PTP_WAIT wait, TP_WAIT_RESULT result);
typedef void(NTAPI *PTP_CLEANUP_GROUP_CANCEL_CALLBACK)(PVOID object_context, PVOID cleanup_context);

/* Which pool and which cleanup group an object is made for. What stands after them is ignored. */
typedef struct _TP_CALLBACK_ENVIRON_V3 {
    TP_VERSION Version;
    PTP_POOL Pool;
    PTP_CLEANUP_GROUP CleanupGroup;
    PTP_CLEANUP_GROUP_CANCEL_CALLBACK CleanupGroupCancelCallback;
    PVOID RaceDll;
    PVOID ActivationContext;
    PTP_SIMPLE_CALLBACK FinalizationCallback;
    DWORD Flags;
    DWORD CallbackPriority;
    DWORD Size;
} TP_CALLBACK_ENVIRON, *PTP_CALLBACK_ENVIRON;

void InitializeThreadpoolEnvironment(PTP_CALLBACK_ENVIRON environment);
void DestroyThreadpoolEnvironment(PTP_CALLBACK_ENVIRON environment);
void SetThreadpoolCallbackPool(PTP_CALLBACK_ENVIRON environment, PTP_POOL pool);
void SetThreadpoolCallbackCleanupGroup(PTP_CALLBACK_ENVIRON environment, PTP_CLEANUP_GROUP group, PTP_CLEANUP_GROUP_CANCEL_CALLBACK cancel);
void SetThreadpoolCallbackRunsLong(PTP_CALLBACK_ENVIRON environment);

PTP_POOL CreateThreadpool(PVOID reserved);
void SetThreadpoolThreadMaximum(PTP_POOL pool, DWORD most);
BOOL SetThreadpoolThreadMinimum(PTP_POOL pool, DWORD least);
/* The pool is gone once its callbacks have ended. */
void CloseThreadpool(PTP_POOL pool);

BOOL TrySubmitThreadpoolCallback(PTP_SIMPLE_CALLBACK callback, PVOID context, PTP_CALLBACK_ENVIRON environment);

PTP_WORK CreateThreadpoolWork(PTP_WORK_CALLBACK callback, PVOID context, PTP_CALLBACK_ENVIRON environment);
void SubmitThreadpoolWork(PTP_WORK work);
/* Waits until no callback is running or to come; those that have not begun are dropped first where `cancels`. */
void WaitForThreadpoolWorkCallbacks(PTP_WORK work, BOOL cancels);
/* It is gone once its callbacks have ended. */
void CloseThreadpoolWork(PTP_WORK work);

PTP_TIMER CreateThreadpoolTimer(PTP_TIMER_CALLBACK callback, PVOID context, PTP_CALLBACK_ENVIRON environment);
/* Due in units of 100 ns, from now on where negative, else in UTC since 1601; the period in ms, 0 for none. A null time stops it. */
void SetThreadpoolTimer(PTP_TIMER timer, PFILETIME due, DWORD period, DWORD window);
BOOL IsThreadpoolTimerSet(PTP_TIMER timer);
void WaitForThreadpoolTimerCallbacks(PTP_TIMER timer, BOOL cancels);
void CloseThreadpoolTimer(PTP_TIMER timer);

PTP_WAIT CreateThreadpoolWait(PTP_WAIT_CALLBACK callback, PVOID context, PTP_CALLBACK_ENVIRON environment);
/* One wait for the object, to that time at the longest as above where one is given. A null object ends the wait. */
void SetThreadpoolWait(PTP_WAIT wait, HANDLE object, PFILETIME timeout);
void WaitForThreadpoolWaitCallbacks(PTP_WAIT wait, BOOL cancels);
void CloseThreadpoolWait(PTP_WAIT wait);

PTP_CLEANUP_GROUP CreateThreadpoolCleanupGroup(void);
/* Waits for the callbacks of all its members, and closes them; those that have not begun are dropped, and `cancel` is called, where `cancels`. */
void CloseThreadpoolCleanupGroupMembers(PTP_CLEANUP_GROUP group, BOOL cancels, PVOID context);
void CloseThreadpoolCleanupGroup(PTP_CLEANUP_GROUP group);

/* What is done once the callback has returned. */
void SetEventWhenCallbackReturns(PTP_CALLBACK_INSTANCE instance, HANDLE event);
void ReleaseSemaphoreWhenCallbackReturns(PTP_CALLBACK_INSTANCE instance, HANDLE semaphore, DWORD count);
void ReleaseMutexWhenCallbackReturns(PTP_CALLBACK_INSTANCE instance, HANDLE mutex);
void LeaveCriticalSectionWhenCallbackReturns(PTP_CALLBACK_INSTANCE instance, PCRITICAL_SECTION section);
/* TRUE: another thread comes for what waits. */
BOOL CallbackMayRunLong(PTP_CALLBACK_INSTANCE instance);
/* Who waits for the object's callbacks no longer waits for this one. */
void DisassociateCurrentThreadFromCallback(PTP_CALLBACK_INSTANCE instance);

#ifdef __cplusplus
}
#endif

#endif
