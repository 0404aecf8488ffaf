/* SPDX-License-Identifier: MIT OR Apache-2.0 */
/* Text in UTF-8 and in WCHAR, which has 32 bits here: a character each, and no surrogates. (With -fshort-wchar it is UTF-16: utf16.h.) */
#ifndef NTWIN_STRINGAPISET_H
#define NTWIN_STRINGAPISET_H

#include "winerror.h"
#include "winnt.h"

#ifdef __cplusplus
extern "C" {
#endif

/* The system's pages are UTF-8, too. */
#define CP_ACP 0u
#define CP_OEMCP 1u
#define CP_THREAD_ACP 3u
#define CP_UTF8 65001u
#define MB_PRECOMPOSED 0x1u
#define MB_ERR_INVALID_CHARS 0x8u
#define WC_ERR_INVALID_CHARS 0x80u
#define WC_NO_BEST_FIT_CHARS 0x400u

/* They answer how many WCHARs or bytes the text takes, or 0. A length of -1 is that up to its null, which then counts; with a size of 0 nothing is
 * written. What is no text becomes U+FFFD, or is refused with ERROR_NO_UNICODE_TRANSLATION where the flags ask for that. */
int MultiByteToWideChar(UINT page, DWORD flags, LPCSTR text, int length, LPWSTR wide, int size);
int WideCharToMultiByte(UINT page, DWORD flags, LPCWSTR wide, int length, LPSTR text, int size, LPCSTR other, BOOL *used_other);

#ifdef __cplusplus
}
#endif

#endif
