/* Native calls on the dispatcher's objects: the state that each answers, what it tells of the object, and that the last error stays. Then what there
 * is of files' calls, of handles and threads, and lstrlen and its like. */
#define _GNU_SOURCE
#include <windows.h>

#include <winternl.h>

#include "check.h"

/* The call answers this state. */
#define STATE(call, status) ANSWERS((DWORD)(call), (DWORD)(status), UNTOUCHED)

static LARGE_INTEGER moments(LONGLONG count)
{
    LARGE_INTEGER it;
    it.QuadPart = count;
    return it;
}

static void events(void)
{
    HANDLE event = CreateEvent(NULL, TRUE, FALSE, NULL), pulse = CreateEvent(NULL, FALSE, FALSE, NULL), waits_only, semaphore;
    EVENT_BASIC_INFORMATION found;
    LONG previous = 7;
    ULONG written = 0;
    must((semaphore = CreateSemaphore(NULL, 0, 1, NULL)) != NULL);
    must(DuplicateHandle(GetCurrentProcess(), event, GetCurrentProcess(), &waits_only, SYNCHRONIZE, FALSE, 0));
    STATE(NtSetEvent(event, &previous), 0);
    IS(previous, 0);
    STATE(NtSetEvent(event, &previous), 0);
    IS(previous, 1);
    STATE(NtQueryEvent(event, EventBasicInformation, &found, sizeof found, &written), 0);
    IS(found.EventType == NotificationEvent && found.EventState == 1 && written == 8, 1);
    STATE(NtResetEvent(event, &previous), 0);
    IS(previous, 1);
    STATE(NtClearEvent(event), 0);
    STATE(NtQueryEvent(pulse, EventBasicInformation, &found, sizeof found, NULL), 0);
    IS(found.EventType == SynchronizationEvent && found.EventState == 0, 1);
    STATE(NtPulseEvent(pulse, &previous), 0);
    IS(previous, 0);
    STATE(NtQueryEvent(event, (EVENT_INFORMATION_CLASS)1, &found, sizeof found, NULL), 0xC0000003);
    STATE(NtQueryEvent(event, EventBasicInformation, &found, sizeof found - 1, NULL), 0xC0000004);
    STATE(NtQueryEvent(semaphore, EventBasicInformation, &found, sizeof found, NULL), 0xC0000024);
    STATE(NtSetEvent(semaphore, NULL), 0xC0000024);
    STATE(NtSetEvent(NULL, NULL), 0xC0000008);
    STATE(NtSetEvent(waits_only, NULL), 0xC0000022);
    STATE(NtClose(waits_only), 0);
    STATE(NtClose(waits_only), 0xC0000008);
    CloseHandle(event);
    CloseHandle(pulse);
    CloseHandle(semaphore);
}

static void semaphores_and_mutants(void)
{
    HANDLE semaphore = CreateSemaphore(NULL, 1, 3, NULL), mutant = CreateMutex(NULL, TRUE, NULL), event = CreateEvent(NULL, TRUE, TRUE, NULL);
    SEMAPHORE_BASIC_INFORMATION counts;
    MUTANT_BASIC_INFORMATION owned;
    LARGE_INTEGER at_once = moments(0);
    LONG previous = 7;
    STATE(NtReleaseSemaphore(semaphore, 2, &previous), 0);
    IS(previous, 1);
    STATE(NtReleaseSemaphore(semaphore, 1, NULL), 0xC0000047);
    STATE(NtReleaseSemaphore(semaphore, 0, NULL), 0xC000000D);
    STATE(NtReleaseSemaphore(event, 1, NULL), 0xC0000024);
    STATE(NtQuerySemaphore(semaphore, SemaphoreBasicInformation, &counts, sizeof counts, NULL), 0);
    IS(counts.CurrentCount == 3 && counts.MaximumCount == 3, 1);
    STATE(NtWaitForSingleObject(mutant, FALSE, &at_once), 0);
    STATE(NtQueryMutant(mutant, MutantBasicInformation, &owned, sizeof owned, NULL), 0);
    IS(owned.CurrentCount == -1 && owned.OwnedByCaller && !owned.AbandonedState, 1);
    STATE(NtReleaseMutant(mutant, &previous), 0);
    IS(previous, -1);
    STATE(NtReleaseMutant(mutant, &previous), 0);
    IS(previous, 0);
    STATE(NtReleaseMutant(mutant, &previous), 0xC0000046);
    STATE(NtQueryMutant(mutant, MutantBasicInformation, &owned, sizeof owned, NULL), 0);
    IS(owned.CurrentCount == 1 && !owned.OwnedByCaller, 1);
    CloseHandle(semaphore);
    CloseHandle(mutant);
    CloseHandle(event);
}

static int APCS;

static void CALLBACK note_apc(ULONG_PTR by)
{
    APCS += (int)by;
}

/* The time of the clock in units of 100 ns since 1601. */
static LONGLONG now(void)
{
    FILETIME time;
    GetSystemTimeAsFileTime(&time);
    return (LONGLONG)((ULONGLONG)time.dwHighDateTime << 32 | time.dwLowDateTime);
}

static void waits(void)
{
    HANDLE objects[2] = { CreateEvent(NULL, TRUE, FALSE, NULL), CreateEvent(NULL, TRUE, TRUE, NULL) };
    LARGE_INTEGER at_once = moments(0), soon = moments(-25000), later = moments(now() + 200000), past = moments(1), for_long = moments(INT64_MIN);
    STATE(NtWaitForSingleObject(objects[1], FALSE, NULL), 0);
    STATE(NtWaitForSingleObject(objects[0], FALSE, &at_once), 0x102);
    STATE(NtWaitForSingleObject(objects[0], FALSE, &past), 0x102);
    DWORD then = timeGetTime();
    STATE(NtWaitForSingleObject(objects[0], FALSE, &later), 0x102);
    IS(timeGetTime() - then >= 10, 1);
    STATE(NtWaitForSingleObject(NULL, FALSE, &at_once), 0xC0000008);
    STATE(NtWaitForMultipleObjects(2, objects, WaitAny, FALSE, &for_long), 1);
    STATE(NtWaitForMultipleObjects(2, objects, WaitAll, FALSE, &soon), 0x102);
    STATE(NtWaitForMultipleObjects(0, objects, WaitAny, FALSE, &soon), 0xC000000D);
    STATE(NtWaitForMultipleObjects(2, objects, (WAIT_TYPE)7, FALSE, &soon), 0xC000000D);
    then = timeGetTime();
    STATE(NtDelayExecution(FALSE, &soon), 0);
    IS(timeGetTime() - then >= 2, 1);
    must(QueueUserAPC(note_apc, GetCurrentThread(), 5));
    STATE(NtDelayExecution(TRUE, &for_long), 0xC0);
    must(QueueUserAPC(note_apc, GetCurrentThread(), 5));
    STATE(NtWaitForSingleObject(objects[0], TRUE, NULL), 0xC0);
    IS(APCS, 10);
    STATE(NtYieldExecution(), 0);
    CloseHandle(objects[0]);
    CloseHandle(objects[1]);
}

static void clock_and_states(void)
{
    ULONG coarsest = 0, finest = 0, present = 0;
    STATE(NtQueryTimerResolution(&coarsest, &finest, &present), 0);
    IS(coarsest >= present && present >= finest && finest > 0, 1);
    STATE(NtSetTimerResolution(5000, FALSE, &present), 0xC0000245);
    STATE(NtSetTimerResolution(5000, TRUE, &present), 0);
    STATE(NtSetTimerResolution(5000, FALSE, &present), 0);
    IS(RtlNtStatusToDosError(STATUS_INVALID_HANDLE), ERROR_INVALID_HANDLE);
    IS(RtlNtStatusToDosError(STATUS_OBJECT_TYPE_MISMATCH), ERROR_INVALID_HANDLE);
    IS(RtlNtStatusToDosError((NTSTATUS)0xC0000022u), ERROR_ACCESS_DENIED);
    IS(RtlNtStatusToDosError((NTSTATUS)0xC0000046u), 288);
    IS(RtlNtStatusToDosError((NTSTATUS)0xCFFFFFFFu), 317);
    IS(NT_SUCCESS(STATUS_PENDING) && !NT_SUCCESS(STATUS_NO_MEMORY), 1);
}

static DWORD WINAPI complete(LPVOID at)
{
    LPOVERLAPPED overlapped = at;
    Sleep(5);
    overlapped->InternalHigh = 70;
    __atomic_store_n(&overlapped->Internal, 0, __ATOMIC_RELEASE);
    SetEvent(overlapped->hEvent);
    return 0;
}

static void CALLBACK never(DWORD error, DWORD bytes, LPOVERLAPPED overlapped)
{
    (void)error;
    (void)bytes;
    (void)overlapped;
}

static void operations(void)
{
    HANDLE event = CreateEvent(NULL, TRUE, FALSE, NULL), thread;
    OVERLAPPED overlapped = { .Internal = STATUS_PENDING, .hEvent = event };
    DWORD bytes = 0;
    IS(HasOverlappedIoCompleted(&overlapped), 0);
    ANSWERS(GetOverlappedResult(event, &overlapped, &bytes, FALSE), FALSE, ERROR_IO_INCOMPLETE);
    must((thread = CreateThread(NULL, 0, complete, &overlapped, 0, NULL)) != NULL);
    ANSWERS(GetOverlappedResult(event, &overlapped, &bytes, TRUE), TRUE, UNTOUCHED);
    IS(bytes, 70);
    IS(HasOverlappedIoCompleted(&overlapped), 1);
    overlapped.Internal = 0xC0000120;
    ANSWERS(GetOverlappedResult(event, &overlapped, &bytes, FALSE), FALSE, ERROR_OPERATION_ABORTED);
    ANSWERS(CancelIo(event), FALSE, ERROR_INVALID_HANDLE);
    ANSWERS(CancelIoEx(event, &overlapped), FALSE, ERROR_INVALID_HANDLE);
    ANSWERS(SetFileCompletionNotificationModes(event, FILE_SKIP_COMPLETION_PORT_ON_SUCCESS), FALSE, ERROR_INVALID_HANDLE);
    ANSWERS(SetFileCompletionNotificationModes(event, 8), FALSE, ERROR_INVALID_PARAMETER);
    ANSWERS(BindIoCompletionCallback(event, never, 0), FALSE, ERROR_INVALID_HANDLE);
    ANSWERS(BindIoCompletionCallback(event, NULL, 0), FALSE, ERROR_INVALID_PARAMETER);
    WaitForSingleObject(thread, INFINITE);
    CloseHandle(thread);
    CloseHandle(event);
}

static void handles_and_threads(void)
{
    HANDLE event = CreateEvent(NULL, TRUE, FALSE, NULL), thread = GetCurrentThread();
    DWORD flags = 9;
    ULONG_PTR low, high;
    ANSWERS(SetHandleInformation(event, HANDLE_FLAG_INHERIT, HANDLE_FLAG_INHERIT), TRUE, UNTOUCHED);
    IS(GetHandleInformation(event, &flags) && flags == HANDLE_FLAG_INHERIT, 1);
    ANSWERS(SetHandleInformation(event, HANDLE_FLAG_PROTECT_FROM_CLOSE, 0), TRUE, UNTOUCHED);
    IS(GetHandleInformation(event, &flags) && flags == HANDLE_FLAG_INHERIT, 1);
    ANSWERS(SetHandleInformation(event, HANDLE_FLAG_INHERIT, 0), TRUE, UNTOUCHED);
    IS(GetHandleInformation(event, &flags) && flags == 0, 1);
    ANSWERS(SetHandleInformation(event, 3, 3), FALSE, ERROR_NOT_SUPPORTED);
    ANSWERS(SetHandleInformation(event, 4, 0), FALSE, ERROR_INVALID_PARAMETER);
    ANSWERS(SetHandleInformation(NULL, 1, 1), FALSE, ERROR_INVALID_HANDLE);
    ANSWERS(SetHandleInformation(event, HANDLE_FLAG_INHERIT, HANDLE_FLAG_INHERIT), TRUE, UNTOUCHED);
    CloseHandle(event);
    ANSWERS(GetHandleInformation(event, &flags), FALSE, ERROR_INVALID_HANDLE);
    ANSWERS(SetThreadIdealProcessor(thread, MAXIMUM_PROCESSORS), MAXIMUM_PROCESSORS, UNTOUCHED);
    ANSWERS(SetThreadIdealProcessor(thread, 0), MAXIMUM_PROCESSORS, UNTOUCHED);
    ANSWERS(SetThreadIdealProcessor(thread, MAXIMUM_PROCESSORS), 0, UNTOUCHED);
    ANSWERS(SetThreadIdealProcessor(thread, MAXIMUM_PROCESSORS + 1), UINT32_MAX, ERROR_INVALID_PARAMETER);
    ANSWERS(SetThreadIdealProcessor(NULL, 0), UINT32_MAX, ERROR_INVALID_HANDLE);
    GetCurrentThreadStackLimits(&low, &high);
    IS(low < (ULONG_PTR)__builtin_frame_address(0) && (ULONG_PTR)__builtin_frame_address(0) < high, 1);
}

static void texts(void)
{
    char to[8] = "..";
    WCHAR wide[8] = { 0 };
    IS(lstrlen("four"), 4);
    IS(lstrlenA(NULL) + lstrlenW(L"six..."), 6);
    IS(lstrcpy(to, "ab") == to && strcmp(to, "ab") == 0, 1);
    IS(lstrcatA(to, "cd") == to && strcmp(to, "abcd") == 0, 1);
    IS(lstrcpynA(to, "longer than that", 4) == to && strcmp(to, "lon") == 0, 1);
    IS(lstrcpyW(wide, L"ab") == wide && lstrcatW(wide, L"cd") == wide && lstrlenW(wide) == 4 && lstrcmpW(wide, L"abcd") == 0, 1);
    IS(lstrcpynW(wide, L"xyz", 3) == wide && lstrcmpiW(wide, L"XY") == 0, 1);
    IS(lstrcmpA("a", "b") < 0 && lstrcmp("b", "a") > 0 && lstrcmpA("a", "a") == 0, 1);
    IS(lstrcmpA("\xC3\xA9", "z") > 0 && lstrcmpiA("Z", "\xC3\xA9") < 0, 1);
    IS(lstrcmpiA("Event", "eVENT") == 0 && lstrcmpi("a", "B") < 0 && lstrcmpA(NULL, "") < 0, 1);
}

int main(void)
{
    events();
    semaphores_and_mutants();
    waits();
    clock_and_states();
    operations();
    handles_and_threads();
    texts();
    return counted();
}
