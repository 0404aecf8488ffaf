/* SPDX-License-Identifier: MIT OR Apache-2.0 */
/* The time of day in milliseconds, as the C runtime of Windows has it. */
#ifndef NTWIN_SYS_TIMEB_H
#define NTWIN_SYS_TIMEB_H

#include "../windows.h"

#include <time.h>

struct _timeb {
    time_t time;             /* seconds since 1970 */
    unsigned short millitm;
    short timezone;          /* 0, and so is the next: nobody asks them for the zone */
    short dstflag;
};

static __inline__ __attribute__((__unused__)) void _ftime(struct _timeb *now)
{
    FILETIME time;
    ULARGE_INTEGER moments;
    GetSystemTimeAsFileTime(&time);
    moments.u.LowPart = time.dwLowDateTime;
    moments.u.HighPart = time.dwHighDateTime;
    now->time = (time_t)(moments.QuadPart / 10000000u - 11644473600u);
    now->millitm = (unsigned short)(moments.QuadPart / 10000u % 1000u);
    now->timezone = now->dstflag = 0;
}

#define _timeb64 _timeb
#define _ftime64 _ftime

#endif
