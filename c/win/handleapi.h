/* SPDX-License-Identifier: MIT OR Apache-2.0 */
/* Handles; CloseHandle and DuplicateHandle stand in ntwin.h. */
#ifndef NTWIN_HANDLEAPI_H
#define NTWIN_HANDLEAPI_H

#include "winnt.h"

#ifdef __cplusplus
extern "C" {
#endif

#define HANDLE_FLAG_INHERIT 0x1u
#define HANDLE_FLAG_PROTECT_FROM_CLOSE 0x2u

/* HANDLE_FLAG_INHERIT is kept, without effect; a handle can't be kept from CloseHandle: ERROR_NOT_SUPPORTED. */
BOOL GetHandleInformation(HANDLE handle, LPDWORD flags);
BOOL SetHandleInformation(HANDLE handle, DWORD mask, DWORD flags);

#ifdef __cplusplus
}
#endif

#endif
