/* SPDX-License-Identifier: MIT OR Apache-2.0 */
/* Slots with a value for each thread, and what else concerns threads and the process; CreateThread and its like stand in ntwin.h. */
#ifndef NTWIN_PROCESSTHREADSAPI_H
#define NTWIN_PROCESSTHREADSAPI_H

#include "processtopologyapi.h"
#include "winnt.h"

#ifdef __cplusplus
extern "C" {
#endif

#define TLS_OUT_OF_INDEXES 0xFFFFFFFFu

DWORD TlsAlloc(void);
BOOL TlsFree(DWORD index);
/* Sets the last error to 0 where it succeeds, since null may be the value. */
LPVOID TlsGetValue(DWORD index);
BOOL TlsSetValue(DWORD index, LPVOID value);

#define STILL_ACTIVE 259u
#define THREAD_PRIORITY_IDLE (-15)
#define THREAD_PRIORITY_LOWEST (-2)
#define THREAD_PRIORITY_BELOW_NORMAL (-1)
#define THREAD_PRIORITY_NORMAL 0
#define THREAD_PRIORITY_ABOVE_NORMAL 1
#define THREAD_PRIORITY_HIGHEST 2
#define THREAD_PRIORITY_TIME_CRITICAL 15
#define THREAD_PRIORITY_ERROR_RETURN 0x7FFFFFFF
#define THREAD_MODE_BACKGROUND_BEGIN 0x00010000
#define THREAD_MODE_BACKGROUND_END 0x00020000

/* STILL_ACTIVE while the thread runs. */
BOOL GetExitCodeThread(HANDLE thread, LPDWORD code);
DWORD GetThreadId(HANDLE thread);
/* A handle of the thread with this id; ERROR_INVALID_PARAMETER where none has it, or that has ended or has made no call. */
HANDLE OpenThread(DWORD access, BOOL inherit, DWORD id);
/* A thread that was created suspended begins once it was resumed as often as it was suspended. They answer how often that was before, or
 * 0xFFFFFFFF. A thread that has begun is not suspended: ERROR_NOT_SUPPORTED. */
DWORD ResumeThread(HANDLE thread);
DWORD SuspendThread(HANDLE thread);
/* In units of 100 ns: when the thread began and ended, since 1601, and how long it ran in the system and as the program. */
BOOL GetThreadTimes(HANDLE thread, LPFILETIME began, LPFILETIME ended, LPFILETIME system, LPFILETIME user);
/* A priority is kept, and has no effect. */
BOOL SetThreadPriority(HANDLE thread, int priority);
int GetThreadPriority(HANDLE thread);
/* Whether a wait's end raises its thread's priority for a while: kept, without effect. */
BOOL SetThreadPriorityBoost(HANDLE thread, BOOL is_disabled);
BOOL GetThreadPriorityBoost(HANDLE thread, PBOOL is_disabled);
/* The system shows the first 15 characters. LocalFree frees what is answered. */
HRESULT SetThreadDescription(HANDLE thread, PCWSTR description);
HRESULT GetThreadDescription(HANDLE thread, PWSTR *description);
/* The processor is kept, without effect: the number before, MAXIMUM_PROCESSORS where there was none, or -1; by MAXIMUM_PROCESSORS it stays. */
DWORD SetThreadIdealProcessor(HANDLE thread, DWORD processor);
/* Where the caller's stack begins and ends. */
void GetCurrentThreadStackLimits(PULONG_PTR low, PULONG_PTR high);
/* An address that no other thread has. (What is there is no concern of a program's.) */
struct _TEB *NtCurrentTeb(void);
/* Lets other threads run. Answers TRUE, whether one did or not. */
BOOL SwitchToThread(void);
/* Whether the processor has it, and FALSE where this is not known. */
BOOL IsProcessorFeaturePresent(DWORD feature);

/* ---- The process: these are for the process itself alone, whose handle is GetCurrentProcess(). */

#define NORMAL_PRIORITY_CLASS 0x00000020u
#define IDLE_PRIORITY_CLASS 0x00000040u
#define HIGH_PRIORITY_CLASS 0x00000080u
#define REALTIME_PRIORITY_CLASS 0x00000100u
#define BELOW_NORMAL_PRIORITY_CLASS 0x00004000u
#define ABOVE_NORMAL_PRIORITY_CLASS 0x00008000u
#define PROCESS_MODE_BACKGROUND_BEGIN 0x00100000u
#define PROCESS_MODE_BACKGROUND_END 0x00200000u

/* Another process is refused with ERROR_ACCESS_DENIED, and an id that none has with ERROR_INVALID_PARAMETER. */
HANDLE OpenProcess(DWORD access, BOOL inherit, DWORD id);
DWORD GetProcessId(HANDLE process);
/* STILL_ACTIVE. */
BOOL GetExitCodeProcess(HANDLE process, LPDWORD code);
/* As GetThreadTimes, for all threads together. */
BOOL GetProcessTimes(HANDLE process, LPFILETIME began, LPFILETIME ended, LPFILETIME system, LPFILETIME user);
/* A class of priorities is kept, and has no effect. */
BOOL SetPriorityClass(HANDLE process, DWORD priority_class);
DWORD GetPriorityClass(HANDLE process);
BOOL SetProcessPriorityBoost(HANDLE process, BOOL is_disabled);
BOOL GetProcessPriorityBoost(HANDLE process, PBOOL is_disabled);

#ifdef __cplusplus
}
#endif

#endif
