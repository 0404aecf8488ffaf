/* SPDX-License-Identifier: MIT OR Apache-2.0 */
/* Fibers, and slots with a value for each fiber, or thread that runs none, which a callback takes back. */
#ifndef NTWIN_FIBERSAPI_H
#define NTWIN_FIBERSAPI_H

#include "winnt.h"

#ifdef __cplusplus
extern "C" {
#endif

typedef void(WINAPI *PFLS_CALLBACK_FUNCTION)(PVOID value);
#define FLS_OUT_OF_INDEXES 0xFFFFFFFFu

DWORD FlsAlloc(PFLS_CALLBACK_FUNCTION callback);
/* The callback is called for each thread's value that is not null. */
BOOL FlsFree(DWORD index);
PVOID FlsGetValue(DWORD index);
BOOL FlsSetValue(DWORD index, PVOID value);

#define FIBER_FLAG_FLOAT_SWITCH 0x1u
typedef void(WINAPI *PFIBER_START_ROUTINE)(LPVOID data);
typedef PFIBER_START_ROUTINE LPFIBER_START_ROUTINE;

/* The thread becomes a fiber, with which it can switch to others: ERROR_ALREADY_FIBER where it is one. */
LPVOID ConvertThreadToFiber(LPVOID data);
LPVOID ConvertThreadToFiberEx(LPVOID data, DWORD flags);
/* ERROR_ALREADY_THREAD where it is none; ERROR_NOT_SUPPORTED from another fiber than the thread's first. */
BOOL ConvertFiberToThread(void);
/* With a stack of `reserve` bytes, 0 for a megabyte, or of `commit` where that is more. */
LPVOID CreateFiber(SIZE_T stack, LPFIBER_START_ROUTINE start, LPVOID data);
LPVOID CreateFiberEx(SIZE_T commit, SIZE_T reserve, DWORD flags, LPFIBER_START_ROUTINE start, LPVOID data);
/* A fiber that deletes itself, or that returns, ends its thread. */
void DeleteFiber(LPVOID fiber);
/* The fiber may have been made by another thread, and have run there; it runs nowhere now. */
void SwitchToFiber(LPVOID fiber);
BOOL IsThreadAFiber(void);
PVOID GetCurrentFiber(void);
/* What its creation was given. */
#define GetFiberData() (*(PVOID *)GetCurrentFiber())

#ifdef __cplusplus
}
#endif

#endif
