/* SPDX-License-Identifier: MIT OR Apache-2.0 */
/* What a program tells a debugger: there is no way to, so it hears nothing. */
#ifndef NTWIN_DEBUGAPI_H
#define NTWIN_DEBUGAPI_H

#include "winnt.h"

#ifdef __cplusplus
extern "C" {
#endif

/* Whether the system has the process traced. */
BOOL IsDebuggerPresent(void);
void OutputDebugStringA(LPCSTR text);
void OutputDebugStringW(LPCWSTR text);

#ifdef UNICODE
#define OutputDebugString OutputDebugStringW
#else
#define OutputDebugString OutputDebugStringA
#endif

#ifdef __cplusplus
}
#endif

#endif
