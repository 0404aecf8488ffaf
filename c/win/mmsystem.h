/* SPDX-License-Identifier: MIT OR Apache-2.0 */
/* The clock of milliseconds, and timers with callbacks. */
#ifndef NTWIN_MMSYSTEM_H
#define NTWIN_MMSYSTEM_H

#include "timeapi.h"

#ifdef __cplusplus
extern "C" {
#endif

/* (The message and the two last are 0.) */
typedef void (TIMECALLBACK)(UINT timer, UINT message, DWORD_PTR user, DWORD_PTR first, DWORD_PTR second);
typedef TIMECALLBACK *LPTIMECALLBACK;

#define MMSYSERR_BASE 0
#define MMSYSERR_NOERROR 0
#define MMSYSERR_INVALPARAM 11u

#define TIME_ONESHOT 0x0000u
#define TIME_PERIODIC 0x0001u
#define TIME_CALLBACK_FUNCTION 0x0000u
#define TIME_CALLBACK_EVENT_SET 0x0010u
#define TIME_CALLBACK_EVENT_PULSE 0x0020u
#define TIME_KILL_SYNCHRONOUS 0x0100u

/* The callback, or the event in its place, comes after `ms`, once or in each such period. Answers the timer's number; 0 where that is refused, as
 * it is past 16 timers. The resolution is as the system has it. */
MMRESULT timeSetEvent(UINT ms, UINT resolution, LPTIMECALLBACK callback, DWORD_PTR user, UINT how);
/* Refused with 11 where there is no such timer, or it came and was for once. */
MMRESULT timeKillEvent(UINT timer);

#ifdef __cplusplus
}
#endif

#endif
