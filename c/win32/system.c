/* SPDX-License-Identifier: MIT OR Apache-2.0 */
/* ---- The library, the machine, and the time of day. */
#include "internal.h"

/* (c/kit/unproved defines it, in a dispatcher that it builds without proofs.) */
extern const char nt_unproved __attribute__((weak));

int ntwin_is_proved(void)
{
    return &nt_unproved == NULL;
}

BOOL SwitchToThread(void)
{
    yield_to_others();
    return TRUE;
}

void GetSystemInfo(LPSYSTEM_INFO info)
{
    *info = (SYSTEM_INFO){
        .dwPageSize = (DWORD)sysconf(_SC_PAGESIZE),
        .lpMinimumApplicationAddress = (LPVOID)(uintptr_t)0x10000,
        .lpMaximumApplicationAddress = (LPVOID)(uintptr_t)0x7FFFFFFEFFFF,
        .dwActiveProcessorMask = processors_here(),
        .dwNumberOfProcessors = (DWORD)sysconf(_SC_NPROCESSORS_ONLN),
        .dwAllocationGranularity = 0x10000,
        .wProcessorLevel = 6,
    };
#ifdef __aarch64__
    info->wProcessorArchitecture = PROCESSOR_ARCHITECTURE_ARM64;
#else
    info->wProcessorArchitecture = PROCESSOR_ARCHITECTURE_AMD64;
    info->dwProcessorType = PROCESSOR_AMD_X8664;
#endif
}

void GetNativeSystemInfo(LPSYSTEM_INFO info)
{
    GetSystemInfo(info);
}

enum { MAJOR = 10, MINOR = 0, BUILD = 19045 };

DWORD GetVersion(void)
{
    return MAJOR | MINOR << 8 | (DWORD)BUILD << 16;
}

/* The fields of a version; what begins each of the longer structures is the shorter one. How many characters its text has. */
enum { CHARACTERS_OF_VERSION = sizeof(((OSVERSIONINFOA *)0)->szCSDVersion), LONGER = sizeof(OSVERSIONINFOEXA) - sizeof(OSVERSIONINFOA) };

/* Writes the structure of this size, whose characters have this number of bytes. False where it is none. */
static bool write_version(void *to, DWORD size, size_t bytes)
{
    const OSVERSIONINFOA found = { size, MAJOR, MINOR, BUILD, VER_PLATFORM_WIN32_NT, "" };
    const size_t text = CHARACTERS_OF_VERSION * bytes, begin = offsetof(OSVERSIONINFOA, szCSDVersion);
    if (size != begin + text && size != begin + text + LONGER)
        return false;
    memset(to, 0, size);
    memcpy(to, &found, begin);
    if (size == begin + text + LONGER)
        ((BYTE *)to)[begin + text + offsetof(OSVERSIONINFOEXA, wProductType) - sizeof found] = VER_NT_WORKSTATION;
    return true;
}

BOOL GetVersionExA(LPOSVERSIONINFOA version)
{
    return write_version(version, version->dwOSVersionInfoSize, 1) || ntw_fail(ERROR_INSUFFICIENT_BUFFER);
}

/* (The characters of a program may have 16 bits: utf16.c.) */
BOOL GetVersionExW(LPOSVERSIONINFOW version)
{
    const DWORD size = version->dwOSVersionInfoSize;
    return write_version(version, size, sizeof(WCHAR)) || write_version(version, size, sizeof(uint16_t)) || ntw_fail(ERROR_INSUFFICIENT_BUFFER);
}

/* (Where the size is none, what each structure has is written.) */
NTSTATUS RtlGetVersion(PRTL_OSVERSIONINFOW version)
{
    const DWORD size = version->dwOSVersionInfoSize;
    if (!write_version(version, size, sizeof(WCHAR)) && !write_version(version, size, sizeof(uint16_t))) {
        write_version(version, offsetof(OSVERSIONINFOA, szCSDVersion) + CHARACTERS_OF_VERSION * sizeof(uint16_t), sizeof(uint16_t));
        version->dwOSVersionInfoSize = size;
    }
    return 0;
}

BOOL GlobalMemoryStatusEx(LPMEMORYSTATUSEX status)
{
    struct sysinfo found;
    if (status->dwLength != sizeof *status || sysinfo(&found) != 0)
        return ntw_fail(ERROR_INVALID_PARAMETER);
    const uint64_t unit = found.mem_unit, all = found.totalram * unit, rest = found.freeram * unit;
    *status = (MEMORYSTATUSEX){
        .dwLength = sizeof *status,
        .dwMemoryLoad = all == 0 ? 0 : (DWORD)((all - rest) * 100 / all),
        .ullTotalPhys = all,
        .ullAvailPhys = rest,
        .ullTotalPageFile = all + found.totalswap * unit,
        .ullAvailPageFile = rest + found.freeswap * unit,
        .ullTotalVirtual = UINT64_C(0x7FFFFFFE0000),
        .ullAvailVirtual = UINT64_C(0x7FFFFFFE0000),
    };
    return TRUE;
}

void GlobalMemoryStatus(LPMEMORYSTATUS status)
{
    MEMORYSTATUSEX found = { .dwLength = sizeof found };
    GlobalMemoryStatusEx(&found);
    *status = (MEMORYSTATUS){ sizeof *status, found.dwMemoryLoad, found.ullTotalPhys, found.ullAvailPhys, found.ullTotalPageFile,
                              found.ullAvailPageFile, found.ullTotalVirtual, found.ullAvailVirtual };
}

void GetSystemTimePreciseAsFileTime(LPFILETIME time)
{
    GetSystemTimeAsFileTime(time);
}

BOOL GetSystemTimeAdjustment(PDWORD adjustment, PDWORD increment, PBOOL is_disabled)
{
    struct timespec step = { 0 };
    clock_getres(CLOCK_REALTIME_COARSE, &step);
    *adjustment = *increment = (DWORD)(step.tv_nsec / NANOSECONDS_PER_MOMENT);
    *is_disabled = TRUE;
    return TRUE;
}

static void set_system_time(LPSYSTEMTIME to, const struct tm *from, uint64_t moments)
{
    *to = (SYSTEMTIME){
        .wYear = (WORD)(from->tm_year + 1900),
        .wMonth = (WORD)(from->tm_mon + 1),
        .wDayOfWeek = (WORD)from->tm_wday,
        .wDay = (WORD)from->tm_mday,
        .wHour = (WORD)from->tm_hour,
        .wMinute = (WORD)from->tm_min,
        .wSecond = (WORD)from->tm_sec,
        .wMilliseconds = (WORD)(moments % MOMENTS_PER_SECOND / (MOMENTS_PER_SECOND / 1000)),
    };
}

static int64_t moments_of(const FILETIME *time)
{
    return (int64_t)((uint64_t)time->dwHighDateTime << 32 | time->dwLowDateTime);
}

/* Seconds since 1970 of a time since 1601. */
static time_t seconds_of(int64_t moments)
{
    return (time_t)(moments / MOMENTS_PER_SECOND - unix_epoch / MOMENTS_PER_SECOND);
}

void GetSystemTime(LPSYSTEMTIME time)
{
    struct tm parts;
    const int64_t now = universal();
    const time_t seconds = seconds_of(now);
    set_system_time(time, gmtime_r(&seconds, &parts), (uint64_t)now);
}

void GetLocalTime(LPSYSTEMTIME time)
{
    struct tm parts;
    const int64_t now = universal();
    const time_t seconds = seconds_of(now);
    set_system_time(time, localtime_r(&seconds, &parts), (uint64_t)now);
}

BOOL FileTimeToSystemTime(const FILETIME *from, LPSYSTEMTIME to)
{
    struct tm parts;
    const int64_t moments = moments_of(from);
    if (moments < 0)
        return ntw_fail(ERROR_INVALID_PARAMETER);
    const time_t seconds = seconds_of(moments);
    set_system_time(to, gmtime_r(&seconds, &parts), (uint64_t)moments);
    return TRUE;
}

static bool is_leap(int year)
{
    return year % 4 == 0 && (year % 100 != 0 || year % 400 == 0);
}

BOOL SystemTimeToFileTime(const SYSTEMTIME *from, LPFILETIME to)
{
    static const uint8_t days[] = { 31, 28, 31, 30, 31, 30, 31, 31, 30, 31, 30, 31 };
    if (from->wYear < 1601 || from->wYear > 30827 || from->wMonth < 1 || from->wMonth > 12 || from->wDay < 1
        || from->wDay > days[from->wMonth - 1] + (from->wMonth == 2 && is_leap(from->wYear)) || from->wHour > 23 || from->wMinute > 59
        || from->wSecond > 59 || from->wMilliseconds > 999)
        return ntw_fail(ERROR_INVALID_PARAMETER);
    struct tm parts = {
        .tm_year = from->wYear - 1900,
        .tm_mon = from->wMonth - 1,
        .tm_mday = from->wDay,
        .tm_hour = from->wHour,
        .tm_min = from->wMinute,
        .tm_sec = from->wSecond,
    };
    const int64_t seconds = (int64_t)timegm(&parts) + unix_epoch / MOMENTS_PER_SECOND;
    const uint64_t moments = (uint64_t)seconds * MOMENTS_PER_SECOND + (uint64_t)from->wMilliseconds * (MOMENTS_PER_SECOND / 1000);
    set_file_time(to, moments);
    return TRUE;
}

/* By how much the zone is ahead of UTC at this time, which is UTC. (The sum may be beyond the last time: it is a number of 64 bits then.) */
static int64_t moments_ahead(int64_t moments)
{
    struct tm parts;
    const time_t seconds = seconds_of(moments);
    return localtime_r(&seconds, &parts) == NULL ? 0 : (int64_t)parts.tm_gmtoff * MOMENTS_PER_SECOND;
}

BOOL FileTimeToLocalFileTime(const FILETIME *from, LPFILETIME to)
{
    const int64_t moments = moments_of(from);
    if (moments < 0)
        return ntw_fail(ERROR_INVALID_PARAMETER);
    set_file_time(to, (uint64_t)moments + (uint64_t)moments_ahead(moments));
    return TRUE;
}

BOOL LocalFileTimeToFileTime(const FILETIME *from, LPFILETIME to)
{
    const int64_t moments = moments_of(from);
    if (moments < 0)
        return ntw_fail(ERROR_INVALID_PARAMETER);
    const uint64_t near = (uint64_t)moments - (uint64_t)moments_ahead(moments);
    set_file_time(to, (uint64_t)moments - (uint64_t)moments_ahead((int64_t)near));
    return TRUE;
}

/* (Of programs that ask for a period of 1 ms: to the ms.) */
DWORD timeGetTime(void)
{
    may_switch_at_clock();
    return (DWORD)(monotonic() / (MOMENTS_PER_SECOND / 1000));
}

MMRESULT timeBeginPeriod(UINT ms)
{
    return ms == 0 ? TIMERR_NOCANDO : TIMERR_NOERROR;
}

MMRESULT timeEndPeriod(UINT ms)
{
    return timeBeginPeriod(ms);
}

MMRESULT timeGetDevCaps(LPTIMECAPS caps, UINT size)
{
    if (caps == NULL || size != sizeof *caps)
        return TIMERR_NOCANDO;
    *caps = (TIMECAPS){ .wPeriodMin = 1, .wPeriodMax = 1000000 };
    return TIMERR_NOERROR;
}
