/* SPDX-License-Identifier: MIT OR Apache-2.0 */
/* What stands in no header of its own, and the others' names. */
#ifndef NTWIN_WINBASE_H
#define NTWIN_WINBASE_H

#include "slist.h"
#include "lstrings.h"
#include "debugapi.h"
#include "errhandlingapi.h"
#include "fibersapi.h"
#include "handleapi.h"
#include "heapapi.h"
#include "ioapiset.h"
#include "libloaderapi.h"
#include "processthreadsapi.h"
#include "stringapiset.h"
#include "synchapi.h"
#include "sysinfoapi.h"
#include "threadpoolapiset.h"
#include "threadpoollegacyapiset.h"
#include "winerror.h"

#include <stdarg.h>

#ifdef __cplusplus
extern "C" {
#endif

/* ---- The texts of errors. */

#define FORMAT_MESSAGE_ALLOCATE_BUFFER 0x00000100u
#define FORMAT_MESSAGE_IGNORE_INSERTS 0x00000200u
#define FORMAT_MESSAGE_FROM_STRING 0x00000400u
#define FORMAT_MESSAGE_FROM_HMODULE 0x00000800u
#define FORMAT_MESSAGE_FROM_SYSTEM 0x00001000u
#define FORMAT_MESSAGE_ARGUMENT_ARRAY 0x00002000u
#define FORMAT_MESSAGE_MAX_WIDTH_MASK 0x000000FFu

/* Answers the length of the text, in English, with its line's end; 0, with the last error set, where there is none. */
DWORD FormatMessageA(DWORD flags, LPCVOID source, DWORD error, DWORD language, LPSTR buffer, DWORD size, va_list *arguments);
DWORD FormatMessageW(DWORD flags, LPCVOID source, DWORD error, DWORD language, LPWSTR buffer, DWORD size, va_list *arguments);

/* ---- Files: there are none, and each handle is refused with ERROR_INVALID_HANDLE. */

#define FILE_SKIP_COMPLETION_PORT_ON_SUCCESS 0x1u
#define FILE_SKIP_SET_EVENT_ON_HANDLE 0x2u

typedef void(WINAPI *LPOVERLAPPED_COMPLETION_ROUTINE)(DWORD error, DWORD bytes, LPOVERLAPPED overlapped);
BOOL SetFileCompletionNotificationModes(HANDLE file, UCHAR flags);
BOOL BindIoCompletionCallback(HANDLE file, LPOVERLAPPED_COMPLETION_ROUTINE routine, ULONG flags);

/* ---- Waits of a thread with a queue of messages. There is none, so these are the waits without it, for up to 63 objects. */

#define QS_KEY 0x0001u
#define QS_TIMER 0x0010u
#define QS_POSTMESSAGE 0x0008u
#define QS_SENDMESSAGE 0x0040u
#define QS_ALLEVENTS 0x04BFu
#define QS_ALLINPUT 0x04FFu
#define MWMO_WAITALL 0x0001u
#define MWMO_ALERTABLE 0x0002u
#define MWMO_INPUTAVAILABLE 0x0004u

DWORD MsgWaitForMultipleObjects(DWORD count, const HANDLE *objects, BOOL all, DWORD ms, DWORD mask);
DWORD MsgWaitForMultipleObjectsEx(DWORD count, const HANDLE *objects, DWORD ms, DWORD mask, DWORD flags);

#ifdef UNICODE
#define FormatMessage FormatMessageW
#else
#define FormatMessage FormatMessageA
#endif

#ifdef __cplusplus
}
#endif

#endif
