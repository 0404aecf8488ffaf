/* SPDX-License-Identifier: MIT OR Apache-2.0 */
/* Win32's waitable objects, waits and APCs for the threads of one process, on POSIX threads. Link with libntwin.
 *
 * A program that includes <windows.h> for these calls compiles unchanged with -isystem of the folder `win` beside this. Which waits end,
 * in which order and with which status is decided by the proved dispatcher (nt.h); this layer puts threads to sleep and wakes them.
 *
 * What differs from Windows:
 *   - A process makes as many handles and threads in its life as it likes. At once 61,440 handles are open at the most, and 4,096 threads make
 *     calls, the first thread among them; then CreateEvent and its like, or each call of one thread more, fail with ERROR_NO_SYSTEM_RESOURCES.
 *     A thread's place is another's once the thread has ended, though its handles may be open; its id is then another's too.
 *   - A handle that was closed is refused with ERROR_INVALID_HANDLE though its number is another handle's now, until that number was given
 *     16,382 times more.
 *   - Names are the process's own (win/synchapi.h opens objects by them). Security attributes are ignored. Nothing is shared with other
 *     processes. In a child that is forked beside other threads that have called, each call fails with ERROR_NOT_SUPPORTED, but for those beside the
 *     dispatcher (critical sections and their like), where the child finds nobody that sleeps.
 *   - DWORD, LONG and ULONG have 32 bits, as on Windows, and so are no `long` here: print them with %u and %d.
 *   - A wait names no object twice, in both modes, by whichever handles.
 *   - No thread is suspended once it has begun, or terminated; a priority has no effect.
 *   - No thread is made to keep the time. Each sleeps to its own deadline; for timers one of those that wait for one keeps it for all of
 *     them, and a handler of signals that runs long in that thread delays the timers.
 *   - A handler of signals makes no calls but exit and those that set an event, release a semaphore or mutex or queue an APC. It does not leave by
 *     siglongjmp. One that has interrupted a call of its own thread under the library's lock is refused with ERROR_POSSIBLE_DEADLOCK, and does not
 *     hang; and in a thread that waits the dispatcher refuses all but SetEvent.
 *   - pthread_cancel acts once a wait has ended, and does not end it; a thread that is canceled asynchronously while it waits keeps its mutexes.
 *   - ExitThread unwinds a thread that CreateThread did not make, as pthread_exit does.
 * docs/WIN32.md has each call. Each is made as Microsoft's page says, otherwise. */
#ifndef NTWIN_H
#define NTWIN_H

#define NTWIN_VERSION "1.0"

#include <stddef.h>
#include <stdint.h>
#include <stdio.h>
#include <wchar.h>

#include "win/utf16.h"

#ifdef __cplusplus
extern "C" {
#endif

/* 1 where the dispatcher in this library is the proved one, and 0 where it was built without proofs. */
int ntwin_is_proved(void);

/* Writes a line for each thread that sleeps beside the dispatcher, with its id: for which critical section and who owns it, for which SRW lock,
 * on which condition variable or address, at which barrier, for which initialization; and which threads hold each other by sections. */
void ntwin_write_waits(FILE *to);

/* Writes why threads wait: for each that does its name, for what and where in the program; of each object its name, its state and where it was
 * created; which threads hold each other, so that none of them ever goes on; and if there are none, what comes next. It holds what
 * ntwin_write_waits writes, too. With NTWIN_WHY=signal in the environment the process writes this to standard error at SIGQUIT; with NTWIN_WHY=knot
 * also at the call that ties a knot; with NTWIN_WHY=abort it then aborts. NTWIN_JOURNAL=FILE writes each call to FILE, as a script for `ntrun` and
 * `ntlook`. */
void ntwin_why(FILE *to);

/* Names an object for that, or a thread, as SetThreadDescription does: by at most 64 bytes. Where it can't, it sets the last error. */
void ntwin_name(void *object, const char *name);

/* ---- Types. */

#define VOID void
#define CONST const
#define WINAPI
#define CALLBACK
#define NTAPI
#define APIENTRY
#define FALSE 0
#define TRUE 1

typedef int BOOL;
typedef unsigned char BYTE, BOOLEAN, UCHAR;
typedef char CHAR;
typedef wchar_t WCHAR;
typedef int16_t SHORT;
typedef uint16_t WORD, USHORT;
typedef int INT;
typedef unsigned UINT;
typedef int32_t LONG;
typedef uint32_t DWORD, ULONG;
typedef int64_t LONGLONG, LONG64;
typedef uint64_t ULONGLONG, DWORD64, ULONG64, DWORDLONG;
typedef intptr_t LONG_PTR, INT_PTR;
typedef uintptr_t ULONG_PTR, UINT_PTR, DWORD_PTR;
typedef size_t SIZE_T;
typedef void *PVOID, *LPVOID, *HANDLE;
typedef const void *LPCVOID;
typedef HANDLE *PHANDLE, *LPHANDLE;
typedef BOOL *PBOOL, *LPBOOL;
typedef BYTE *PBYTE, *LPBYTE;
typedef LONG *PLONG, *LPLONG;
typedef DWORD *PDWORD, *LPDWORD;
typedef CHAR *PSTR, *LPSTR;
typedef const CHAR *PCSTR, *LPCSTR;
typedef WCHAR *PWSTR, *LPWSTR;
typedef const WCHAR *PCWSTR, *LPCWSTR;

#ifdef UNICODE
typedef WCHAR TCHAR;
typedef LPWSTR LPTSTR;
typedef LPCWSTR LPCTSTR;
#define TEXT(quoted) L##quoted
#else
typedef CHAR TCHAR;
typedef LPSTR LPTSTR;
typedef LPCSTR LPCTSTR;
#define TEXT(quoted) quoted
#endif

typedef union _LARGE_INTEGER {
    struct {
        DWORD LowPart;
        LONG HighPart;
    } u;
    LONGLONG QuadPart;
    __extension__ struct {
        DWORD LowPart;
        LONG HighPart;
    };
} LARGE_INTEGER, *PLARGE_INTEGER;

typedef struct _FILETIME {
    DWORD dwLowDateTime;
    DWORD dwHighDateTime;
} FILETIME, *PFILETIME, *LPFILETIME;

typedef struct _SECURITY_ATTRIBUTES {
    DWORD nLength;
    LPVOID lpSecurityDescriptor;
    BOOL bInheritHandle;
} SECURITY_ATTRIBUTES, *PSECURITY_ATTRIBUTES, *LPSECURITY_ATTRIBUTES;

typedef struct _REASON_CONTEXT *PREASON_CONTEXT;

typedef DWORD (*PTHREAD_START_ROUTINE)(LPVOID parameter);
typedef PTHREAD_START_ROUTINE LPTHREAD_START_ROUTINE;
typedef void (*PAPCFUNC)(ULONG_PTR parameter);
typedef void (*PTIMERAPCROUTINE)(LPVOID argument, DWORD low, DWORD high);

/* ---- Constants. */

#define INVALID_HANDLE_VALUE ((HANDLE)(intptr_t)-1)
#define INFINITE 0xFFFFFFFFu
#define MAXIMUM_WAIT_OBJECTS 64
#define STATUS_WAIT_0 0x00000000u
#define WAIT_OBJECT_0 0x00000000u
#define WAIT_ABANDONED 0x00000080u
#define WAIT_ABANDONED_0 0x00000080u
#define WAIT_IO_COMPLETION 0x000000C0u
#define WAIT_TIMEOUT 0x00000102u
#define WAIT_FAILED 0xFFFFFFFFu

#define ERROR_SUCCESS 0u
#define NO_ERROR 0u
#define ERROR_ACCESS_DENIED 5u
#define ERROR_INVALID_HANDLE 6u
#define ERROR_NOT_ENOUGH_MEMORY 8u
#define ERROR_GEN_FAILURE 31u
#define ERROR_NOT_SUPPORTED 50u
#define ERROR_INVALID_PARAMETER 87u
#define ERROR_NOT_OWNER 288u
#define ERROR_TOO_MANY_POSTS 298u
#define ERROR_MUTANT_LIMIT_EXCEEDED 587u
#define ERROR_NO_SYSTEM_RESOURCES 1450u

#define CREATE_SUSPENDED 0x4u
#define CREATE_EVENT_MANUAL_RESET 0x1u
#define CREATE_EVENT_INITIAL_SET 0x2u
#define CREATE_MUTEX_INITIAL_OWNER 0x1u
#define CREATE_WAITABLE_TIMER_MANUAL_RESET 0x1u
#define STACK_SIZE_PARAM_IS_A_RESERVATION 0x00010000u
#define DUPLICATE_CLOSE_SOURCE 0x1u
#define DUPLICATE_SAME_ACCESS 0x2u

#define SYNCHRONIZE 0x00100000u
#define STANDARD_RIGHTS_REQUIRED 0x000F0000u
#define MAXIMUM_ALLOWED 0x02000000u
#define GENERIC_READ 0x80000000u
#define GENERIC_WRITE 0x40000000u
#define GENERIC_EXECUTE 0x20000000u
#define GENERIC_ALL 0x10000000u
#define EVENT_MODIFY_STATE 0x0002u
#define EVENT_ALL_ACCESS 0x001F0003u
#define SEMAPHORE_MODIFY_STATE 0x0002u
#define SEMAPHORE_ALL_ACCESS 0x001F0003u
#define MUTEX_MODIFY_STATE 0x0001u
#define MUTANT_QUERY_STATE 0x0001u
#define MUTEX_ALL_ACCESS 0x001F0001u
#define TIMER_QUERY_STATE 0x0001u
#define TIMER_MODIFY_STATE 0x0002u
#define TIMER_ALL_ACCESS 0x001F0003u
#define THREAD_SET_CONTEXT 0x0010u
#define THREAD_ALL_ACCESS 0x001FFFFFu

/* ---- Events, semaphores, mutexes, waitable timers. */

HANDLE CreateEventA(LPSECURITY_ATTRIBUTES attributes, BOOL manual, BOOL set, LPCSTR name);
HANDLE CreateEventW(LPSECURITY_ATTRIBUTES attributes, BOOL manual, BOOL set, LPCWSTR name);
HANDLE CreateEventExA(LPSECURITY_ATTRIBUTES attributes, LPCSTR name, DWORD flags, DWORD access);
HANDLE CreateEventExW(LPSECURITY_ATTRIBUTES attributes, LPCWSTR name, DWORD flags, DWORD access);
BOOL SetEvent(HANDLE event);
BOOL ResetEvent(HANDLE event);
BOOL PulseEvent(HANDLE event);

HANDLE CreateSemaphoreA(LPSECURITY_ATTRIBUTES attributes, LONG initial, LONG maximum, LPCSTR name);
HANDLE CreateSemaphoreW(LPSECURITY_ATTRIBUTES attributes, LONG initial, LONG maximum, LPCWSTR name);
HANDLE CreateSemaphoreExA(LPSECURITY_ATTRIBUTES attributes, LONG initial, LONG maximum, LPCSTR name, DWORD flags, DWORD access);
HANDLE CreateSemaphoreExW(LPSECURITY_ATTRIBUTES attributes, LONG initial, LONG maximum, LPCWSTR name, DWORD flags, DWORD access);
BOOL ReleaseSemaphore(HANDLE semaphore, LONG count, LPLONG previous);

HANDLE CreateMutexA(LPSECURITY_ATTRIBUTES attributes, BOOL owned, LPCSTR name);
HANDLE CreateMutexW(LPSECURITY_ATTRIBUTES attributes, BOOL owned, LPCWSTR name);
HANDLE CreateMutexExA(LPSECURITY_ATTRIBUTES attributes, LPCSTR name, DWORD flags, DWORD access);
HANDLE CreateMutexExW(LPSECURITY_ATTRIBUTES attributes, LPCWSTR name, DWORD flags, DWORD access);
BOOL ReleaseMutex(HANDLE mutex);

HANDLE CreateWaitableTimerA(LPSECURITY_ATTRIBUTES attributes, BOOL manual, LPCSTR name);
HANDLE CreateWaitableTimerW(LPSECURITY_ATTRIBUTES attributes, BOOL manual, LPCWSTR name);
HANDLE CreateWaitableTimerExA(LPSECURITY_ATTRIBUTES attributes, LPCSTR name, DWORD flags, DWORD access);
HANDLE CreateWaitableTimerExW(LPSECURITY_ATTRIBUTES attributes, LPCWSTR name, DWORD flags, DWORD access);
/* Due in units of 100 ns, from now on where negative, else in UTC since 1601; the period in milliseconds. `resume` is ignored. */
BOOL SetWaitableTimer(HANDLE timer, const LARGE_INTEGER *due, LONG period, PTIMERAPCROUTINE routine, LPVOID argument, BOOL resume);
/* `delay` and `context` are ignored. */
BOOL SetWaitableTimerEx(HANDLE timer, const LARGE_INTEGER *due, LONG period, PTIMERAPCROUTINE routine, LPVOID argument,
                        PREASON_CONTEXT context, ULONG delay);
BOOL CancelWaitableTimer(HANDLE timer);

/* ---- Waits. APCs run inside a wait that ends with WAIT_IO_COMPLETION. */

DWORD WaitForSingleObject(HANDLE object, DWORD ms);
DWORD WaitForSingleObjectEx(HANDLE object, DWORD ms, BOOL alertable);
DWORD WaitForMultipleObjects(DWORD count, const HANDLE *objects, BOOL all, DWORD ms);
DWORD WaitForMultipleObjectsEx(DWORD count, const HANDLE *objects, BOOL all, DWORD ms, BOOL alertable);
DWORD SignalObjectAndWait(HANDLE signal, HANDLE object, DWORD ms, BOOL alertable);
void Sleep(DWORD ms);
DWORD SleepEx(DWORD ms, BOOL alertable);
DWORD QueueUserAPC(PAPCFUNC routine, HANDLE thread, ULONG_PTR argument);

/* ---- Threads and the process. */

HANDLE CreateThread(LPSECURITY_ATTRIBUTES attributes, SIZE_T stack, LPTHREAD_START_ROUTINE start, LPVOID parameter, DWORD flags,
                    LPDWORD id);
void ExitThread(DWORD code) __attribute__((noreturn));
HANDLE GetCurrentThread(void);
DWORD GetCurrentThreadId(void);
HANDLE GetCurrentProcess(void);
DWORD GetCurrentProcessId(void);
BOOL TerminateProcess(HANDLE process, UINT code);
void ExitProcess(UINT code) __attribute__((noreturn));

/* ---- Handles and errors. */

BOOL DuplicateHandle(HANDLE from, HANDLE handle, HANDLE to, LPHANDLE duplicate, DWORD access, BOOL inherit, DWORD options);
BOOL CloseHandle(HANDLE handle);
DWORD GetLastError(void);
void SetLastError(DWORD error);

/* ---- Time. */

DWORD GetTickCount(void);
ULONGLONG GetTickCount64(void);
BOOL QueryPerformanceCounter(LARGE_INTEGER *count);
BOOL QueryPerformanceFrequency(LARGE_INTEGER *frequency);
void GetSystemTimeAsFileTime(LPFILETIME now);

/* ---- Names without A or W. */

#ifdef UNICODE
#define CreateEvent CreateEventW
#define CreateEventEx CreateEventExW
#define CreateSemaphore CreateSemaphoreW
#define CreateSemaphoreEx CreateSemaphoreExW
#define CreateMutex CreateMutexW
#define CreateMutexEx CreateMutexExW
#define CreateWaitableTimer CreateWaitableTimerW
#define CreateWaitableTimerEx CreateWaitableTimerExW
#else
#define CreateEvent CreateEventA
#define CreateEventEx CreateEventExA
#define CreateSemaphore CreateSemaphoreA
#define CreateSemaphoreEx CreateSemaphoreExA
#define CreateMutex CreateMutexA
#define CreateMutexEx CreateMutexExA
#define CreateWaitableTimer CreateWaitableTimerA
#define CreateWaitableTimerEx CreateWaitableTimerExA
#endif

#ifdef __cplusplus
}
#endif

#include "win/counts.h"
#include "win/interlocked.h"

#endif
