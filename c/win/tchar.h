/* SPDX-License-Identifier: MIT OR Apache-2.0 */
/* Text that is CHAR or WCHAR, as UNICODE says. */
#ifndef NTWIN_TCHAR_H
#define NTWIN_TCHAR_H

#include "windef.h"

#include <stdio.h>
#include <string.h>

#define _T(quoted) TEXT(quoted)
#define _TEXT(quoted) TEXT(quoted)
#define __T(quoted) TEXT(quoted)
typedef TCHAR _TCHAR, _TSCHAR, _TXCHAR;

#ifdef UNICODE
#define _tmain wmain
#define _tprintf wprintf
#define _ftprintf fwprintf
#define _fputts fputws
#define _tcslen wcslen
#define _tcscpy wcscpy
#define _tcscat wcscat
#define _tcscmp wcscmp
#define _tcsncmp wcsncmp
#define _tcschr wcschr
#define _tcsrchr wcsrchr
#define _tcsstr wcsstr
#else
#define _tmain main
#define _tprintf printf
#define _ftprintf fprintf
#define _fputts fputs
#define _tcslen strlen
#define _tcscpy strcpy
#define _tcscat strcat
#define _tcscmp strcmp
#define _tcsncmp strncmp
#define _tcschr strchr
#define _tcsrchr strrchr
#define _tcsstr strstr
#endif

#endif
