/* SPDX-License-Identifier: MIT OR Apache-2.0 */
/* Errors that a program tells the system of; GetLastError stands in ntwin.h. */
#ifndef NTWIN_ERRHANDLINGAPI_H
#define NTWIN_ERRHANDLINGAPI_H

#include "winnt.h"

#ifdef __cplusplus
extern "C" {
#endif

#define SEM_FAILCRITICALERRORS 0x0001u
#define SEM_NOGPFAULTERRORBOX 0x0002u
#define SEM_NOALIGNMENTFAULTEXCEPT 0x0004u
#define SEM_NOOPENFILEERRORBOX 0x8000u

/* Kept, and no error shows a box. They answer the mode before, and the mode. */
UINT SetErrorMode(UINT mode);
UINT GetErrorMode(void);
/* Calls the handlers of below, until one answers EXCEPTION_CONTINUE_EXECUTION. If none does the process ends, by SIGABRT; but 0x406D1388, by which a
 * debugger learns a thread's name, then changes nothing. */
void RaiseException(DWORD code, DWORD flags, DWORD count, const ULONG_PTR *arguments);
/* A handler, as the first or the last, of exceptions that are raised by this call: what the processor finds wrong is a signal. Answers what removes
 * it; null where memory was refused. */
PVOID AddVectoredExceptionHandler(ULONG first, PVECTORED_EXCEPTION_HANDLER handler);
ULONG RemoveVectoredExceptionHandler(PVOID handler);

#ifdef __cplusplus
}
#endif

#endif
