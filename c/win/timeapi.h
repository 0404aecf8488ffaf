/* SPDX-License-Identifier: MIT OR Apache-2.0 */
/* The clock of milliseconds. */
#ifndef NTWIN_TIMEAPI_H
#define NTWIN_TIMEAPI_H

#include "windef.h"

#ifdef __cplusplus
extern "C" {
#endif

typedef UINT MMRESULT;

typedef struct timecaps_tag {
    UINT wPeriodMin;
    UINT wPeriodMax;
} TIMECAPS, *PTIMECAPS, *LPTIMECAPS;

#define TIMERR_BASE 96
#define TIMERR_NOERROR 0u
#define TIMERR_NOCANDO 97u

/* The same as GetTickCount. */
DWORD timeGetTime(void);
/* Waits are as exact as the system has them, so these change nothing; a period of 0 ms is refused with 97. */
MMRESULT timeBeginPeriod(UINT ms);
MMRESULT timeEndPeriod(UINT ms);
MMRESULT timeGetDevCaps(LPTIMECAPS caps, UINT size);

#ifdef __cplusplus
}
#endif

#endif
