/* SPDX-License-Identifier: MIT OR Apache-2.0 */
/* The machine, and the time of day. */
#ifndef NTWIN_SYSINFOAPI_H
#define NTWIN_SYSINFOAPI_H

#include "winnt.h"

#ifdef __cplusplus
extern "C" {
#endif

typedef struct _SYSTEM_INFO {
    __extension__ union {
        DWORD dwOemId;
        __extension__ struct {
            WORD wProcessorArchitecture;
            WORD wReserved;
        };
    };
    DWORD dwPageSize;
    LPVOID lpMinimumApplicationAddress;
    LPVOID lpMaximumApplicationAddress;
    DWORD_PTR dwActiveProcessorMask;
    DWORD dwNumberOfProcessors;
    DWORD dwProcessorType;
    DWORD dwAllocationGranularity;
    WORD wProcessorLevel;
    WORD wProcessorRevision;
} SYSTEM_INFO, *LPSYSTEM_INFO;

typedef struct _SYSTEMTIME {
    WORD wYear;
    WORD wMonth;
    WORD wDayOfWeek;
    WORD wDay;
    WORD wHour;
    WORD wMinute;
    WORD wSecond;
    WORD wMilliseconds;
} SYSTEMTIME, *PSYSTEMTIME, *LPSYSTEMTIME;

/* Sizes in bytes. */
typedef struct _MEMORYSTATUSEX {
    DWORD dwLength;     /* sizeof(MEMORYSTATUSEX), before the call */
    DWORD dwMemoryLoad; /* how much of the memory is in use, of 100 */
    DWORDLONG ullTotalPhys;
    DWORDLONG ullAvailPhys;
    DWORDLONG ullTotalPageFile;
    DWORDLONG ullAvailPageFile;
    DWORDLONG ullTotalVirtual;
    DWORDLONG ullAvailVirtual;
    DWORDLONG ullAvailExtendedVirtual;
} MEMORYSTATUSEX, *LPMEMORYSTATUSEX;

typedef struct _MEMORYSTATUS {
    DWORD dwLength;
    DWORD dwMemoryLoad;
    SIZE_T dwTotalPhys;
    SIZE_T dwAvailPhys;
    SIZE_T dwTotalPageFile;
    SIZE_T dwAvailPageFile;
    SIZE_T dwTotalVirtual;
    SIZE_T dwAvailVirtual;
} MEMORYSTATUS, *LPMEMORYSTATUS;

#define PROCESSOR_INTEL_PENTIUM 586
#define PROCESSOR_AMD_X8664 8664

void GetSystemInfo(LPSYSTEM_INFO info);
void GetNativeSystemInfo(LPSYSTEM_INFO info);
/* That of Windows 10, a workstation. */
DWORD GetVersion(void);
BOOL GetVersionExA(LPOSVERSIONINFOA version);
BOOL GetVersionExW(LPOSVERSIONINFOW version);
/* (Sources get it by its name, from ntdll.) */
NTSTATUS RtlGetVersion(PRTL_OSVERSIONINFOW version);
BOOL GlobalMemoryStatusEx(LPMEMORYSTATUSEX status);
void GlobalMemoryStatus(LPMEMORYSTATUS status);
/* UTC, and the time of the zone. */
void GetSystemTime(LPSYSTEMTIME time);
void GetLocalTime(LPSYSTEMTIME time);
/* UTC since 1601 in units of 100 ns. */
void GetSystemTimePreciseAsFileTime(LPFILETIME time);
/* By how much the time of day grows in a step of its clock, in units of 100 ns; the system sees to its rate. */
BOOL GetSystemTimeAdjustment(PDWORD adjustment, PDWORD increment, PBOOL is_disabled);
BOOL FileTimeToSystemTime(const FILETIME *from, LPSYSTEMTIME to);
BOOL SystemTimeToFileTime(const SYSTEMTIME *from, LPFILETIME to);
/* By what the zone is ahead of UTC at that time. */
BOOL FileTimeToLocalFileTime(const FILETIME *from, LPFILETIME to);
BOOL LocalFileTimeToFileTime(const FILETIME *from, LPFILETIME to);

#ifdef UNICODE
#define GetVersionEx GetVersionExW
#else
#define GetVersionEx GetVersionExA
#endif

#ifdef __cplusplus
}
#endif

#endif
