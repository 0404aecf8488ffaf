/* The machine, memory and text: what each call answers with its last error. The values are those of Microsoft's pages and docs/WIN32.md. */
#define _GNU_SOURCE /* (for time zones) */
#include <windows.h>

#include <errno.h>
#include <malloc.h>
#include <sys/timeb.h>
#include <time.h>

#include "check.h"

static DWORD WINAPI wait_for(LPVOID event)
{
    return WaitForSingleObject(event, INFINITE);
}

static void processors(void)
{
    DWORD_PTR mask, system, one, other;
    GROUP_AFFINITY before, now = { 0 };
    PROCESSOR_NUMBER number;
    HANDLE event = CreateEvent(NULL, TRUE, FALSE, NULL), thread = CreateThread(NULL, 0, wait_for, event, 0, NULL);
    ANSWERS(GetProcessAffinityMask(GetCurrentProcess(), &mask, &system), TRUE, UNTOUCHED);
    ANSWERS(GetProcessAffinityMask(NULL, &mask, &system), FALSE, ERROR_INVALID_HANDLE);
    IS(mask != 0 && (mask & ~system) == 0, TRUE);
    one = mask & (~mask + 1);
    ANSWERS(SetThreadAffinityMask(thread, one), mask, UNTOUCHED);
    ANSWERS(SetThreadAffinityMask(thread, mask), one, UNTOUCHED);
    ANSWERS(SetThreadAffinityMask(thread, 0), 0, ERROR_INVALID_PARAMETER);
    ANSWERS(SetThreadAffinityMask(thread, one), mask, UNTOUCHED);
    /* (All bits are all processors, whichever there are; for a group they are not.) */
    ANSWERS(SetThreadAffinityMask(thread, ~(DWORD_PTR)0), one, UNTOUCHED);
    ANSWERS(SetThreadAffinityMask(thread, mask), mask, UNTOUCHED);
    if (system != ~(DWORD_PTR)0) {
        now.Mask = ~(DWORD_PTR)0;
        ANSWERS(SetThreadGroupAffinity(thread, &now, NULL), FALSE, ERROR_INVALID_PARAMETER);
    }
    ANSWERS(SetThreadAffinityMask(event, mask), 0, ERROR_INVALID_HANDLE);
    ANSWERS(GetProcessAffinityMask(GetCurrentProcess(), &system, &system), TRUE, UNTOUCHED);
    ANSWERS(SetProcessAffinityMask(GetCurrentProcess(), one), TRUE, UNTOUCHED);
    IS(GetProcessAffinityMask(GetCurrentProcess(), &other, &system) && other == one, TRUE);
    ANSWERS(SetThreadAffinityMask(thread, one), one, UNTOUCHED);
    ANSWERS(SetProcessAffinityMask(GetCurrentProcess(), mask), TRUE, UNTOUCHED);
    ANSWERS(SetThreadAffinityMask(thread, mask), mask, UNTOUCHED);
    ANSWERS(SetProcessAffinityMask(GetCurrentProcess(), 0), FALSE, ERROR_INVALID_PARAMETER);
    if (system != ~(DWORD_PTR)0)
        ANSWERS(SetProcessAffinityMask(GetCurrentProcess(), ~(DWORD_PTR)0), FALSE, ERROR_INVALID_PARAMETER);
    ANSWERS(SetProcessAffinityMask(NULL, mask), FALSE, ERROR_INVALID_HANDLE);
    now.Mask = one;
    ANSWERS(SetThreadGroupAffinity(GetCurrentThread(), &now, &before), TRUE, UNTOUCHED);
    IS(before.Mask, mask);
    IS(GetCurrentProcessorNumber() < 64 && (one >> GetCurrentProcessorNumber() & 1) == 1, TRUE);
    ANSWERS(GetThreadGroupAffinity(GetCurrentThread(), &now), TRUE, UNTOUCHED);
    IS(now.Mask, one);
    GetCurrentProcessorNumberEx(&number);
    IS(number.Group, 0);
    IS(number.Number, GetCurrentProcessorNumber());
    ANSWERS(SetThreadGroupAffinity(GetCurrentThread(), &before, NULL), TRUE, UNTOUCHED);
    before.Group = 1;
    ANSWERS(SetThreadGroupAffinity(GetCurrentThread(), &before, NULL), FALSE, ERROR_INVALID_PARAMETER);
    SetEvent(event);
    WaitForSingleObject(thread, INFINITE);
    ANSWERS(SetThreadAffinityMask(thread, mask), 0, ERROR_ACCESS_DENIED);
}

static void groups_and_nodes(void)
{
    SYSTEM_INFO info, native;
    GROUP_AFFINITY node;
    ULONGLONG mask;
    ULONG highest;
    UCHAR number;
    GetSystemInfo(&info);
    GetNativeSystemInfo(&native);
    IS(memcmp(&info, &native, sizeof info), 0);
    ANSWERS(GetActiveProcessorCount(0), info.dwNumberOfProcessors, UNTOUCHED);
    ANSWERS(GetActiveProcessorCount(ALL_PROCESSOR_GROUPS), info.dwNumberOfProcessors, UNTOUCHED);
    ANSWERS(GetActiveProcessorCount(1), 0, ERROR_INVALID_PARAMETER);
    ANSWERS(GetMaximumProcessorCount(0) >= info.dwNumberOfProcessors, TRUE, UNTOUCHED);
    ANSWERS(GetActiveProcessorGroupCount(), 1, UNTOUCHED);
    ANSWERS(GetMaximumProcessorGroupCount(), 1, UNTOUCHED);
    ANSWERS(GetNumaHighestNodeNumber(&highest), TRUE, UNTOUCHED);
    IS(highest, 0);
    ANSWERS(GetNumaNodeProcessorMask(0, &mask), TRUE, UNTOUCHED);
    ANSWERS(GetNumaNodeProcessorMaskEx(0, &node), TRUE, UNTOUCHED);
    IS(node.Mask, mask);
    ANSWERS(GetNumaNodeProcessorMask(1, &mask), FALSE, ERROR_INVALID_PARAMETER);
    ANSWERS(GetNumaNodeProcessorMaskEx(1, &node), FALSE, ERROR_INVALID_PARAMETER);
    ANSWERS(GetNumaProcessorNode(0, &number), TRUE, UNTOUCHED);
    IS(number, 0);
    ANSWERS(IsProcessorFeaturePresent(PF_FLOATING_POINT_EMULATED), FALSE, UNTOUCHED);
}

/* Each processor is in one core, one package and the node. */
static void told_processors(void)
{
    SYSTEM_LOGICAL_PROCESSOR_INFORMATION told[192];
    DWORD length = 0, room = sizeof told;
    DWORD_PTR seen[4] = { 0 };
    ULONGLONG all;
    GetNumaNodeProcessorMask(0, &all);
    ANSWERS(GetLogicalProcessorInformation(told, &length), FALSE, ERROR_INSUFFICIENT_BUFFER);
    ANSWERS(GetLogicalProcessorInformation(told, &room), TRUE, UNTOUCHED);
    IS(room, length);
    for (DWORD i = 0; i < room / sizeof told[0]; i++) {
        must(told[i].Relationship <= RelationProcessorPackage && (seen[told[i].Relationship] & told[i].ProcessorMask) == 0);
        seen[told[i].Relationship] |= told[i].ProcessorMask;
    }
    IS(seen[RelationProcessorCore], all);
    IS(seen[RelationProcessorPackage], all);
    IS(seen[RelationNumaNode], all);
}

/* An entry of each relationship: how many bytes it takes on Microsoft's page, and the mask in it. */
static DWORD_PTR mask_in(const SYSTEM_LOGICAL_PROCESSOR_INFORMATION_EX *entry)
{
    switch (entry->Relationship) {
    case RelationProcessorCore:
    case RelationProcessorPackage:
        must(entry->Size == 48 && entry->Processor.GroupCount == 1 && entry->Processor.EfficiencyClass == 0 && entry->Processor.GroupMask[0].Group == 0);
        must(entry->Relationship == RelationProcessorPackage ? entry->Processor.Flags == 0 : entry->Processor.Flags <= 1);
        return entry->Processor.GroupMask[0].Mask;
    case RelationNumaNode:
        must(entry->Size == 48 && entry->NumaNode.NodeNumber == 0 && entry->NumaNode.GroupCount == 1);
        return entry->NumaNode.GroupMask.Mask;
    default:
        must(entry->Size == 80 && entry->Relationship == RelationGroup && entry->Group.MaximumGroupCount == 1 && entry->Group.ActiveGroupCount == 1);
        must(entry->Group.GroupInfo[0].ActiveProcessorCount <= entry->Group.GroupInfo[0].MaximumProcessorCount);
        must(entry->Group.GroupInfo[0].ActiveProcessorCount == __builtin_popcountl(entry->Group.GroupInfo[0].ActiveProcessorMask));
        return entry->Group.GroupInfo[0].ActiveProcessorMask;
    }
}

/* What is answered of one relationship, or of all: each processor is in one entry of each. Answers how many bytes that takes. */
static DWORD told_by_relationship(LOGICAL_PROCESSOR_RELATIONSHIP relationship, DWORD_PTR seen[5])
{
    static union {
        SYSTEM_LOGICAL_PROCESSOR_INFORMATION_EX first;
        BYTE bytes[200 * 48];
    } told;
    DWORD length = 0, room = sizeof told, at = 0;
    memset(seen, 0, 5 * sizeof *seen);
    ANSWERS(GetLogicalProcessorInformationEx(relationship, NULL, &length), FALSE, ERROR_INSUFFICIENT_BUFFER);
    ANSWERS(GetLogicalProcessorInformationEx(relationship, &told.first, &room), TRUE, UNTOUCHED);
    IS(room, length);
    while (at < room) {
        const SYSTEM_LOGICAL_PROCESSOR_INFORMATION_EX *entry = (const void *)(told.bytes + at);
        must((seen[entry->Relationship] & mask_in(entry)) == 0);
        seen[entry->Relationship] |= mask_in(entry);
        at += entry->Size;
    }
    IS(at, room);
    return room;
}

static void told_processors_with_groups(void)
{
    static const LOGICAL_PROCESSOR_RELATIONSHIP relationships[] = { RelationProcessorCore, RelationProcessorPackage, RelationNumaNode, RelationGroup };
    DWORD_PTR seen[5];
    DWORD sum = 0, none = 0;
    ULONGLONG all;
    GetNumaNodeProcessorMask(0, &all);
    for (size_t i = 0; i < sizeof relationships / sizeof *relationships; i++) {
        sum += told_by_relationship(relationships[i], seen);
        for (size_t j = 0; j < 5; j++)
            IS(seen[j], j == relationships[i] ? all : 0);
    }
    IS(told_by_relationship(RelationAll, seen), sum);
    for (size_t i = 0; i < sizeof relationships / sizeof *relationships; i++)
        IS(seen[relationships[i]], all);
    IS(seen[RelationCache], 0);
    ANSWERS(GetLogicalProcessorInformationEx(RelationCache, NULL, &none), TRUE, UNTOUCHED);
    ANSWERS(GetLogicalProcessorInformationEx((LOGICAL_PROCESSOR_RELATIONSHIP)99, NULL, &none), FALSE, ERROR_INVALID_PARAMETER);
}

static void memory(void)
{
    MEMORYSTATUSEX status = { .dwLength = sizeof status };
    MEMORYSTATUS before;
    HANDLE heap = GetProcessHeap();
    ANSWERS(GlobalMemoryStatusEx(&status), TRUE, UNTOUCHED);
    IS(status.dwMemoryLoad <= 100 && status.ullAvailPhys <= status.ullTotalPhys && status.ullTotalPhys <= status.ullTotalPageFile, TRUE);
    GlobalMemoryStatus(&before);
    IS(before.dwTotalPhys, status.ullTotalPhys);
    status.dwLength = 1;
    ANSWERS(GlobalMemoryStatusEx(&status), FALSE, ERROR_INVALID_PARAMETER);
    char *bytes = HeapAlloc(heap, HEAP_ZERO_MEMORY, 100);
    must(bytes != NULL && (uintptr_t)bytes % 16 == 0);
    IS(bytes[0] | bytes[99], 0);
    ANSWERS(HeapSize(heap, 0, bytes), 100, UNTOUCHED);
    ANSWERS(HeapReAlloc(heap, HEAP_REALLOC_IN_PLACE_ONLY, bytes, 101), NULL, UNTOUCHED);
    ANSWERS(HeapReAlloc(heap, HEAP_REALLOC_IN_PLACE_ONLY, bytes, 90), bytes, UNTOUCHED);
    bytes[89] = 1;
    bytes = HeapReAlloc(heap, HEAP_ZERO_MEMORY, bytes, 5000);
    must(bytes != NULL);
    IS(bytes[89], 1);
    IS(bytes[90] | bytes[4999], 0);
    ANSWERS(HeapAlloc(heap, 0, SIZE_MAX), NULL, UNTOUCHED);
    ANSWERS(HeapAlloc(NULL, 0, 1), NULL, UNTOUCHED);
    ANSWERS(HeapReAlloc(heap, 0, NULL, 1), NULL, UNTOUCHED);
    ANSWERS(HeapSize(NULL, 0, bytes), SIZE_MAX, UNTOUCHED);
    ANSWERS(HeapFree(NULL, 0, bytes), FALSE, ERROR_INVALID_HANDLE);
    ANSWERS(HeapFree(heap, 0, bytes), TRUE, UNTOUCHED);
    ANSWERS(HeapFree(heap, 0, NULL), TRUE, UNTOUCHED);
    int *zero = LocalAlloc(LPTR, sizeof *zero);
    IS(*zero, 0);
    ANSWERS(LocalFree(zero), NULL, UNTOUCHED);
    ANSWERS(LocalAlloc(2, 1), NULL, ERROR_INVALID_PARAMETER);
}

#define ALIGNS_NONE(size, alignment, error) \
    do { \
        errno = 0; \
        IS((uintptr_t)_aligned_malloc(size, alignment), 0); \
        IS(errno, error); \
    } while (0)

static void aligned_memory(void)
{
    for (size_t alignment = 1; alignment <= 4096; alignment *= 2) {
        char *bytes = _aligned_malloc(100, alignment);
        must(bytes != NULL);
        memset(bytes, 1, 100);
        IS((uintptr_t)bytes % alignment, 0);
        _aligned_free(bytes);
    }
    _aligned_free(NULL);
    ALIGNS_NONE(100, 24, EINVAL);
    ALIGNS_NONE(100, 0, EINVAL);
    ALIGNS_NONE(0, 16, EINVAL);
}

static const WCHAR WIDE[] = { 'a', 0xE9, 0x20AC, 0x1F600, 0 };
#define BYTES "a\xC3\xA9\xE2\x82\xAC\xF0\x9F\x98\x80"

/* What is no text, and how many characters stand for it. */
static const struct {
    const char *bytes;
    int characters;
} FAULTS[] = {
    { "\xFF", 1 },
    { "\x80", 1 },
    { "\xC0\x80", 2 },
    { "\xE2\x82", 1 },
    { "\xED\xA0\x80", 1 },
    { "\xF4\x90\x80\x80", 1 },
    { "\xC3(", 2 },
};

static void text(void)
{
    WCHAR wide[16];
    char bytes[16];
    const WCHAR surrogate[] = { 0xD800, 0 };
    BOOL is_other = 9;
    ANSWERS(MultiByteToWideChar(CP_UTF8, 0, BYTES, -1, NULL, 0), 5, UNTOUCHED);
    ANSWERS(MultiByteToWideChar(CP_ACP, MB_PRECOMPOSED, BYTES, -1, wide, 16), 5, UNTOUCHED);
    IS(memcmp(wide, WIDE, sizeof WIDE), 0);
    ANSWERS(MultiByteToWideChar(CP_UTF8, 0, BYTES, 3, wide, 2), 2, UNTOUCHED);
    ANSWERS(MultiByteToWideChar(CP_UTF8, 0, BYTES, -1, wide, 4), 0, ERROR_INSUFFICIENT_BUFFER);
    ANSWERS(MultiByteToWideChar(CP_UTF8, MB_PRECOMPOSED, BYTES, -1, wide, 16), 0, ERROR_INVALID_FLAGS);
    ANSWERS(MultiByteToWideChar(1252, 0, BYTES, -1, wide, 16), 0, ERROR_INVALID_PARAMETER);
    ANSWERS(MultiByteToWideChar(CP_UTF8, 0, BYTES, 0, wide, 16), 0, ERROR_INVALID_PARAMETER);
    ANSWERS(MultiByteToWideChar(CP_UTF8, 0, NULL, -1, wide, 16), 0, ERROR_INVALID_PARAMETER);
    for (size_t i = 0; i < ARRAYSIZE(FAULTS); i++) {
        const int length = (int)strlen(FAULTS[i].bytes);
        ANSWERS(MultiByteToWideChar(CP_UTF8, MB_ERR_INVALID_CHARS, FAULTS[i].bytes, length, wide, 16), 0, ERROR_NO_UNICODE_TRANSLATION);
        ANSWERS(MultiByteToWideChar(CP_UTF8, 0, FAULTS[i].bytes, length, wide, 16), FAULTS[i].characters, UNTOUCHED);
        IS(wide[0], 0xFFFD);
    }
    ANSWERS(WideCharToMultiByte(CP_UTF8, 0, WIDE, -1, NULL, 0, NULL, NULL), sizeof BYTES, UNTOUCHED);
    ANSWERS(WideCharToMultiByte(CP_UTF8, 0, WIDE, -1, bytes, 16, NULL, NULL), sizeof BYTES, UNTOUCHED);
    IS(strcmp(bytes, BYTES), 0);
    ANSWERS(WideCharToMultiByte(CP_UTF8, 0, WIDE, -1, bytes, 10, NULL, NULL), 0, ERROR_INSUFFICIENT_BUFFER);
    ANSWERS(WideCharToMultiByte(CP_UTF8, 0, WIDE, -1, bytes, 16, "?", NULL), 0, ERROR_INVALID_PARAMETER);
    ANSWERS(WideCharToMultiByte(CP_ACP, 0, surrogate, 1, bytes, 16, NULL, &is_other), 3, UNTOUCHED);
    IS(is_other, TRUE);
    ANSWERS(WideCharToMultiByte(CP_UTF8, WC_ERR_INVALID_CHARS, surrogate, 1, bytes, 16, NULL, NULL), 0, ERROR_NO_UNICODE_TRANSLATION);
    ANSWERS(WideCharToMultiByte(CP_ACP, WC_ERR_INVALID_CHARS, WIDE, 1, bytes, 16, NULL, NULL), 0, ERROR_INVALID_FLAGS);
}

static void handles(void)
{
    HANDLE event = CreateEvent(NULL, FALSE, FALSE, NULL);
    DWORD flags = 9;
    ANSWERS(GetHandleInformation(event, &flags), TRUE, UNTOUCHED);
    IS(flags, 0);
    ANSWERS(GetHandleInformation(GetCurrentThread(), &flags), TRUE, UNTOUCHED);
    ANSWERS(GetHandleInformation(GetCurrentProcess(), &flags), TRUE, UNTOUCHED);
    CloseHandle(event);
    ANSWERS(GetHandleInformation(event, &flags), FALSE, ERROR_INVALID_HANDLE);
    ANSWERS(GetHandleInformation(NULL, &flags), FALSE, ERROR_INVALID_HANDLE);
}

static void clocks(void)
{
    TIMECAPS caps = { 0 };
    struct _timeb now;
    FILETIME before, after;
    IS(timeGetDevCaps(&caps, sizeof caps), TIMERR_NOERROR);
    IS(caps.wPeriodMin, 1);
    IS(caps.wPeriodMax >= 1000, 1);
    IS(timeGetDevCaps(NULL, sizeof caps), TIMERR_NOCANDO);
    IS(timeGetDevCaps(&caps, sizeof caps - 1), TIMERR_NOCANDO);
    GetSystemTimeAsFileTime(&before);
    _ftime(&now);
    GetSystemTimeAsFileTime(&after);
    /* (1970 began that long after 1601.) */
    const ULONGLONG moment = ((ULONGLONG)now.time + UINT64_C(11644473600)) * 1000 + now.millitm;
    IS(moment >= ((ULONGLONG)before.dwHighDateTime << 32 | before.dwLowDateTime) / 10000, 1);
    IS(moment <= ((ULONGLONG)after.dwHighDateTime << 32 | after.dwLowDateTime) / 10000, 1);
    IS(now.timezone | now.dstflag, 0);
}

static void zones(void)
{
    FILETIME time, there, again;
    const FILETIME none = { 0, 0x80000000u };
    GetSystemTimeAsFileTime(&time);
    ANSWERS(FileTimeToLocalFileTime(&time, &there), TRUE, UNTOUCHED);
    ANSWERS(LocalFileTimeToFileTime(&there, &again), TRUE, UNTOUCHED);
    IS(memcmp(&time, &again, sizeof time), 0);
    ANSWERS(FileTimeToLocalFileTime(&none, &there), FALSE, ERROR_INVALID_PARAMETER);
    ANSWERS(LocalFileTimeToFileTime(&none, &there), FALSE, ERROR_INVALID_PARAMETER);
    /* At the last time, ahead of UTC and behind it: the sum is a number of 64 bits. */
    const FILETIME last = { 0xFFFFFFFFu, 0x7FFFFFFFu };
    must(setenv("TZ", "XXX-14", 1) == 0);
    tzset();
    ANSWERS(FileTimeToLocalFileTime(&last, &there), TRUE, UNTOUCHED);
    IS((ULONGLONG)there.dwHighDateTime << 32 | there.dwLowDateTime, INT64_MAX + UINT64_C(504000000000));
    must(setenv("TZ", "XXX12", 1) == 0);
    tzset();
    ANSWERS(LocalFileTimeToFileTime(&last, &again), TRUE, UNTOUCHED);
    IS((ULONGLONG)again.dwHighDateTime << 32 | again.dwLowDateTime, INT64_MAX + UINT64_C(432000000000));
    must(unsetenv("TZ") == 0);
    tzset();
    DWORD adjustment, increment;
    BOOL is_disabled;
    ANSWERS(GetSystemTimeAdjustment(&adjustment, &increment, &is_disabled), TRUE, UNTOUCHED);
    IS(adjustment == increment && increment > 0 && increment <= 200000, TRUE);
    ANSWERS(GetVersion() & 0xFFFF, 10, UNTOUCHED);
    ANSWERS(ntwin_is_proved() == TRUE || ntwin_is_proved() == FALSE, TRUE, UNTOUCHED);
}

static void versions(void)
{
    OSVERSIONINFOA version = { .dwOSVersionInfoSize = sizeof version, .szCSDVersion = "?" };
    OSVERSIONINFOEXA longer = { .dwOSVersionInfoSize = sizeof longer, .wServicePackMajor = 9, .wSuiteMask = 9 };
    OSVERSIONINFOEXW wide = { .dwOSVersionInfoSize = sizeof wide, .wServicePackMajor = 9 };
    ANSWERS(GetVersionExA(&version), TRUE, UNTOUCHED);
    IS(version.dwMajorVersion | version.dwMinorVersion << 8 | version.dwBuildNumber << 16, GetVersion());
    IS(version.dwPlatformId, VER_PLATFORM_WIN32_NT);
    IS(strlen(version.szCSDVersion), 0);
    ANSWERS(GetVersionEx((LPOSVERSIONINFO)(void *)&longer), TRUE, UNTOUCHED);
    IS(longer.dwBuildNumber, version.dwBuildNumber);
    IS(longer.wProductType, VER_NT_WORKSTATION);
    IS(longer.wServicePackMajor | longer.wSuiteMask, 0);
    ANSWERS(GetVersionExW((LPOSVERSIONINFOW)(void *)&wide), TRUE, UNTOUCHED);
    IS(wide.dwMajorVersion, 10);
    IS(wide.wProductType, VER_NT_WORKSTATION);
    wide.dwMajorVersion = 9;
    ANSWERS(RtlGetVersion((PRTL_OSVERSIONINFOW)(void *)&wide), 0, UNTOUCHED);
    IS(wide.dwMajorVersion, 10);
    version.dwOSVersionInfoSize = wide.dwOSVersionInfoSize = sizeof version - 1;
    ANSWERS(GetVersionExA(&version), FALSE, ERROR_INSUFFICIENT_BUFFER);
    ANSWERS(GetVersionExW((LPOSVERSIONINFOW)(void *)&wide), FALSE, ERROR_INSUFFICIENT_BUFFER);
}

int main(void)
{
    processors();
    groups_and_nodes();
    told_processors();
    told_processors_with_groups();
    memory();
    aligned_memory();
    text();
    handles();
    clocks();
    zones();
    versions();
    return counted();
}
