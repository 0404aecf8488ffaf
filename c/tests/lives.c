/* Threads: exit codes, ids, how they begin suspended and are resumed, and what their handles answer, row by row. */
#include <windows.h>

#include <process.h>

#include "check.h"

#include <pthread.h>

static HANDLE const NO_SUCH = (HANDLE)(uintptr_t)0x3FF00;
static HANDLE GO, READY, EVENT;

static DWORD WINAPI answer(LPVOID code)
{
    return (DWORD)(uintptr_t)code;
}

static DWORD WINAPI exit_with(LPVOID code)
{
    ExitThread((DWORD)(uintptr_t)code);
}

static unsigned __stdcall end_with(void *code)
{
    _endthreadex((unsigned)(uintptr_t)code);
}

static DWORD WINAPI wait_to_go(LPVOID code)
{
    SetEvent(READY);
    must(WaitForSingleObject(GO, INFINITE) == WAIT_OBJECT_0);
    return (DWORD)(uintptr_t)code;
}

static void join(HANDLE thread)
{
    IS(WaitForSingleObject(thread, INFINITE), WAIT_OBJECT_0);
}

/* How a thread ends, and its exit code. */
static void exit_codes(void)
{
    LPTHREAD_START_ROUTINE const ends[] = { answer, exit_with, end_with };
    const DWORD codes[] = { 0, 7, STILL_ACTIVE, 0xFFFFFFFF };
    DWORD code = 99;
    HANDLE thread, same;
    for (size_t i = 0; i < ARRAYSIZE(ends); i++)
        for (size_t k = 0; k < ARRAYSIZE(codes); k++) {
            must((thread = CreateThread(NULL, 0, ends[i], (LPVOID)(uintptr_t)codes[k], 0, NULL)) != NULL);
            join(thread);
            ANSWERS(GetExitCodeThread(thread, &code), TRUE, UNTOUCHED);
            IS(code, codes[k]);
            IS(CloseHandle(thread), TRUE);
            ANSWERS(GetExitCodeThread(thread, &code), FALSE, ERROR_INVALID_HANDLE);
        }
    must((thread = CreateThread(NULL, 0, wait_to_go, (LPVOID)8, 0, NULL)) != NULL);
    must(DuplicateHandle(GetCurrentProcess(), thread, GetCurrentProcess(), &same, 0, FALSE, DUPLICATE_SAME_ACCESS));
    must(WaitForSingleObject(READY, INFINITE) == WAIT_OBJECT_0);
    ANSWERS(GetExitCodeThread(thread, &code), TRUE, UNTOUCHED);
    IS(code, STILL_ACTIVE);
    IS(SetEvent(GO), TRUE);
    join(thread);
    IS(CloseHandle(thread), TRUE);
    /* (As long as one handle is open.) */
    ANSWERS(GetExitCodeThread(same, &code), TRUE, UNTOUCHED);
    IS(code, 8);
    IS(CloseHandle(same), TRUE);
    ANSWERS(GetExitCodeThread(GetCurrentThread(), &code), TRUE, UNTOUCHED);
    IS(code, STILL_ACTIVE);
    code = 99;
    ANSWERS(GetExitCodeThread(EVENT, &code), FALSE, ERROR_INVALID_HANDLE);
    ANSWERS(GetExitCodeThread(NO_SUCH, &code), FALSE, ERROR_INVALID_HANDLE);
    ANSWERS(GetExitCodeThread(NULL, &code), FALSE, ERROR_INVALID_HANDLE);
    IS(code, 99);
}

static LONG BEGUN;

static DWORD WINAPI begin(LPVOID none)
{
    (void)none;
    return (DWORD)InterlockedIncrement(&BEGUN);
}

static void resumed(void)
{
    HANDLE thread;
    DWORD code = 0;
    must((thread = CreateThread(NULL, 0, begin, NULL, CREATE_SUSPENDED, NULL)) != NULL);
    IS(WaitForSingleObject(thread, 20), WAIT_TIMEOUT);
    IS(ReadAcquire(&BEGUN), 0);
    ANSWERS(SuspendThread(thread), 1, UNTOUCHED);
    ANSWERS(SuspendThread(thread), 2, UNTOUCHED);
    ANSWERS(ResumeThread(thread), 3, UNTOUCHED);
    ANSWERS(ResumeThread(thread), 2, UNTOUCHED);
    IS(WaitForSingleObject(thread, 10), WAIT_TIMEOUT);
    IS(ReadAcquire(&BEGUN), 0);
    IS(GetExitCodeThread(thread, &code), TRUE);
    IS(code, STILL_ACTIVE);
    ANSWERS(ResumeThread(thread), 1, UNTOUCHED);
    join(thread);
    IS(GetExitCodeThread(thread, &code), TRUE);
    IS(code, 1);
    ANSWERS(ResumeThread(thread), 0, UNTOUCHED);
    CloseHandle(thread);
    ANSWERS(ResumeThread(thread), UINT32_MAX, ERROR_INVALID_HANDLE);
    ANSWERS(ResumeThread(EVENT), UINT32_MAX, ERROR_INVALID_HANDLE);
    ANSWERS(SuspendThread(NO_SUCH), UINT32_MAX, ERROR_INVALID_HANDLE);
    /* A thread that runs is not suspended. */
    ANSWERS(SuspendThread(GetCurrentThread()), UINT32_MAX, ERROR_NOT_SUPPORTED);
    ANSWERS(ResumeThread(GetCurrentThread()), 0, UNTOUCHED);
    must((thread = (HANDLE)_beginthreadex(NULL, 0, begin, NULL, CREATE_SUSPENDED, NULL)) != NULL);
    for (DWORD count = 1; count < MAXIMUM_SUSPEND_COUNT; count++)
        must(SuspendThread(thread) == count);
    ANSWERS(SuspendThread(thread), UINT32_MAX, ERROR_SIGNAL_REFUSED);
    for (DWORD count = MAXIMUM_SUSPEND_COUNT; count > 0; count--)
        must(ResumeThread(thread) == count);
    join(thread);
    IS(ReadAcquire(&BEGUN), 2);
    CloseHandle(thread);
}

static LONG ORDER[4], QUEUED;

static void CALLBACK note_apc(ULONG_PTR number)
{
    ORDER[QUEUED++] = (LONG)number;
}

static DWORD WINAPI note_begin(LPVOID none)
{
    (void)none;
    ORDER[QUEUED++] = 99;
    return (DWORD)SleepEx(0, TRUE);
}

/* APCs that are queued before a thread begins run as it begins, before its function. */
static void apcs_before_the_beginning(void)
{
    HANDLE thread;
    DWORD code = 0;
    must((thread = CreateThread(NULL, 0, note_begin, NULL, CREATE_SUSPENDED, NULL)) != NULL);
    for (ULONG_PTR i = 1; i <= 3; i++)
        ANSWERS(QueueUserAPC(note_apc, thread, i), TRUE, UNTOUCHED);
    Sleep(5);
    IS(QUEUED, 0);
    IS(ResumeThread(thread), 1);
    join(thread);
    for (int i = 0; i < 4; i++)
        IS(ORDER[i], i < 3 ? i + 1 : 99);
    IS(GetExitCodeThread(thread, &code), TRUE);
    IS(code, 0);
    CloseHandle(thread);
}

static DWORD WINAPI tell_id(LPVOID at)
{
    *(DWORD *)at = GetCurrentThreadId();
    return 0;
}

static void *tell_id_of_posix(void *at)
{
    tell_id(at);
    IS(GetThreadId(GetCurrentThread()), *(DWORD *)at);
    return NULL;
}

static void ids(void)
{
    DWORD told = 0, id = 0;
    pthread_t posix;
    HANDLE thread;
    must((thread = CreateThread(NULL, 0, tell_id, &told, CREATE_SUSPENDED, &id)) != NULL);
    ANSWERS(GetThreadId(thread), id, UNTOUCHED);
    ResumeThread(thread);
    join(thread);
    IS(told, id);
    ANSWERS(GetThreadId(thread), id, UNTOUCHED);
    CloseHandle(thread);
    ANSWERS(GetThreadId(thread), 0, ERROR_INVALID_HANDLE);
    ANSWERS(GetThreadId(EVENT), 0, ERROR_INVALID_HANDLE);
    IS(GetThreadId(GetCurrentThread()), GetCurrentThreadId());
    must(pthread_create(&posix, NULL, tell_id_of_posix, &told) == 0);
    must(pthread_join(posix, NULL) == 0);
    IS(told != 0 && told != GetCurrentThreadId(), 1);
}

static void priorities(void)
{
    HANDLE thread, self = GetCurrentThread();
    const int levels[] = { THREAD_PRIORITY_IDLE, THREAD_PRIORITY_LOWEST, -1, 0, 1, THREAD_PRIORITY_HIGHEST, THREAD_PRIORITY_TIME_CRITICAL };
    const int none[] = { -16, -14, -3, 3, 14, 16, THREAD_PRIORITY_ERROR_RETURN };
    must((thread = CreateThread(NULL, 0, answer, NULL, CREATE_SUSPENDED, NULL)) != NULL);
    ANSWERS(GetThreadPriority(thread), THREAD_PRIORITY_NORMAL, UNTOUCHED);
    for (size_t i = 0; i < ARRAYSIZE(levels); i++) {
        ANSWERS(SetThreadPriority(thread, levels[i]), TRUE, UNTOUCHED);
        ANSWERS(GetThreadPriority(thread), levels[i], UNTOUCHED);
    }
    for (size_t i = 0; i < ARRAYSIZE(none); i++)
        ANSWERS(SetThreadPriority(thread, none[i]), FALSE, ERROR_INVALID_PARAMETER);
    ANSWERS(GetThreadPriority(thread), THREAD_PRIORITY_TIME_CRITICAL, UNTOUCHED);
    ANSWERS(GetThreadPriority(self), THREAD_PRIORITY_NORMAL, UNTOUCHED);
    ANSWERS(GetThreadPriority(EVENT), THREAD_PRIORITY_ERROR_RETURN, ERROR_INVALID_HANDLE);
    ANSWERS(SetThreadPriority(EVENT, 0), FALSE, ERROR_INVALID_HANDLE);
    ResumeThread(thread);
    join(thread);
    CloseHandle(thread);
}

/* The process's answer is that of each thread that was given none since. */
static void boosts(void)
{
    HANDLE thread, self = GetCurrentThread(), process = GetCurrentProcess();
    BOOL is_disabled = 9;
    must((thread = CreateThread(NULL, 0, answer, NULL, CREATE_SUSPENDED, NULL)) != NULL);
    ANSWERS(GetThreadPriorityBoost(thread, &is_disabled), TRUE, UNTOUCHED);
    IS(is_disabled, FALSE);
    ANSWERS(SetThreadPriorityBoost(thread, TRUE), TRUE, UNTOUCHED);
    IS(GetThreadPriorityBoost(thread, &is_disabled) && is_disabled == TRUE, 1);
    IS(GetThreadPriorityBoost(self, &is_disabled) && is_disabled == FALSE, 1);
    ANSWERS(GetProcessPriorityBoost(process, &is_disabled), TRUE, UNTOUCHED);
    IS(is_disabled, FALSE);
    ANSWERS(SetProcessPriorityBoost(process, TRUE), TRUE, UNTOUCHED);
    IS(GetProcessPriorityBoost(process, &is_disabled) && is_disabled == TRUE, 1);
    IS(GetThreadPriorityBoost(self, &is_disabled) && is_disabled == TRUE, 1);
    ANSWERS(SetProcessPriorityBoost(process, FALSE), TRUE, UNTOUCHED);
    IS(GetThreadPriorityBoost(thread, &is_disabled) && is_disabled == FALSE, 1);
    ANSWERS(SetThreadPriorityBoost(EVENT, TRUE), FALSE, ERROR_INVALID_HANDLE);
    ANSWERS(GetThreadPriorityBoost(NO_SUCH, &is_disabled), FALSE, ERROR_INVALID_HANDLE);
    ANSWERS(SetProcessPriorityBoost(NULL, TRUE), FALSE, ERROR_INVALID_HANDLE);
    ANSWERS(GetProcessPriorityBoost(EVENT, &is_disabled), FALSE, ERROR_INVALID_HANDLE);
    ResumeThread(thread);
    join(thread);
    CloseHandle(thread);
}

static DWORD WINAPI tell_block(LPVOID at)
{
    *(struct _TEB **)at = NtCurrentTeb();
    return 0;
}

static void blocks(void)
{
    struct _TEB *told = NULL, *own = NtCurrentTeb();
    HANDLE thread;
    must((thread = CreateThread(NULL, 0, tell_block, &told, 0, NULL)) != NULL);
    join(thread);
    CloseHandle(thread);
    IS(own != NULL && told != NULL && told != own && NtCurrentTeb() == own, 1);
}

static DWORD WINAPI read_own_name(LPVOID name)
{
    FILE *file = fopen("/proc/thread-self/comm", "r");
    must(file != NULL && fgets(name, 16, file) != NULL);
    fclose(file);
    return 0;
}

static void descriptions(void)
{
    HANDLE thread, self = GetCurrentThread();
    PWSTR description = NULL;
    char name[16] = "";
    ANSWERS(GetThreadDescription(self, &description), S_OK, UNTOUCHED);
    IS(wcscmp(description, L""), 0);
    IS(LocalFree(description) == NULL, 1);
    must((thread = CreateThread(NULL, 0, read_own_name, name, CREATE_SUSPENDED, NULL)) != NULL);
    ANSWERS(SetThreadDescription(thread, L"worker"), S_OK, UNTOUCHED);
    ANSWERS(SetThreadDescription(thread, L"a worker with a long name"), S_OK, UNTOUCHED);
    ANSWERS(GetThreadDescription(thread, &description), S_OK, UNTOUCHED);
    IS(wcscmp(description, L"a worker with a long name"), 0);
    LocalFree(description);
    ResumeThread(thread);
    join(thread);
    IS(strncmp(name, "a worker with a long name", 15), 0);
    ANSWERS(SetThreadDescription(EVENT, L""), (HRESULT)0xD0000008u, UNTOUCHED);
    ANSWERS(GetThreadDescription(EVENT, &description), (HRESULT)0xD0000008u, UNTOUCHED);
    CloseHandle(thread);
}

static ULONGLONG moments(FILETIME time)
{
    return (ULONGLONG)time.dwHighDateTime << 32 | time.dwLowDateTime;
}

static DWORD WINAPI run_a_while(LPVOID none)
{
    const ULONGLONG then = GetTickCount64();
    (void)none;
    while (GetTickCount64() - then < 40)
        continue;
    return 0;
}

static void times(void)
{
    FILETIME before, began, ended, system, user, after;
    HANDLE thread;
    GetSystemTimeAsFileTime(&before);
    must((thread = CreateThread(NULL, 0, run_a_while, NULL, 0, NULL)) != NULL);
    join(thread);
    GetSystemTimeAsFileTime(&after);
    ANSWERS(GetThreadTimes(thread, &began, &ended, &system, &user), TRUE, UNTOUCHED);
    IS(moments(before) <= moments(began) && moments(began) <= moments(ended) && moments(ended) <= moments(after), 1);
    IS(moments(system) + moments(user) > 0 && moments(system) + moments(user) <= moments(ended) - moments(began) + 200000, 1);
    CloseHandle(thread);
    ANSWERS(GetThreadTimes(GetCurrentThread(), &began, &ended, &system, &user), TRUE, UNTOUCHED);
    IS(moments(began) <= moments(before) && moments(ended) == 0, 1);
    ANSWERS(GetThreadTimes(EVENT, &began, &ended, &system, &user), FALSE, ERROR_INVALID_HANDLE);
}

static DWORD WINAPI wait_for(LPVOID event)
{
    return WaitForSingleObject(event, 100000);
}

/* A call that only looks at a thread tells nobody once more of what the call before has ended. */
static void looks_end_no_wait(void)
{
    HANDLE events[2], threads[2];
    DWORD code = 0;
    for (int i = 0; i < 2; i++) {
        must((events[i] = CreateEvent(NULL, FALSE, FALSE, NULL)) != NULL);
        must((threads[i] = CreateThread(NULL, 0, wait_for, events[i], 0, NULL)) != NULL);
    }
    Sleep(20);
    SetEvent(events[0]);
    for (int i = 0; i < 3; i++) {
        IS(GetThreadId(GetCurrentThread()), GetCurrentThreadId());
        IS(GetExitCodeThread(threads[1], &code), TRUE);
        IS(GetThreadPriority(GetCurrentThread()), THREAD_PRIORITY_NORMAL);
    }
    SetEvent(events[1]);
    for (int i = 0; i < 2; i++) {
        join(threads[i]);
        IS(GetExitCodeThread(threads[i], &code), TRUE);
        IS(code, WAIT_OBJECT_0);
    }
}

static DWORD WINAPI open_itself(LPVOID none)
{
    (void)none;
    HANDLE own = OpenThread(SYNCHRONIZE, FALSE, GetCurrentThreadId());
    must(own != NULL && CloseHandle(own));
    return 0;
}

/* Handles by a thread's id, with the rights that are asked for. */
static void opened(void)
{
    DWORD id, code;
    HANDLE all, waits, thread = CreateThread(NULL, 0, wait_to_go, (LPVOID)5, 0, &id);
    must(thread != NULL && WaitForSingleObject(READY, INFINITE) == WAIT_OBJECT_0);
    ANSWERS((all = OpenThread(THREAD_ALL_ACCESS, FALSE, id)) != NULL, TRUE, UNTOUCHED);
    ANSWERS((waits = OpenThread(SYNCHRONIZE | THREAD_QUERY_INFORMATION, TRUE, id)) != NULL, TRUE, UNTOUCHED);
    IS(GetThreadId(all), id);
    IS(GetThreadId(waits), id);
    ANSWERS(QueueUserAPC(note_apc, waits, 0), 0, ERROR_ACCESS_DENIED);
    ANSWERS(WaitForSingleObject(waits, 0), WAIT_TIMEOUT, UNTOUCHED);
    SetEvent(GO);
    join(waits);
    /* (The thread has ended, and its id is nobody's; its handles stay.) */
    ANSWERS(OpenThread(SYNCHRONIZE, FALSE, id), NULL, ERROR_INVALID_PARAMETER);
    ANSWERS(GetExitCodeThread(all, &code), TRUE, UNTOUCHED);
    IS(code, 5);
    ANSWERS(CloseHandle(all) && CloseHandle(waits) && CloseHandle(thread), TRUE, UNTOUCHED);
    ANSWERS(OpenThread(SYNCHRONIZE, FALSE, 0), NULL, ERROR_INVALID_PARAMETER);
    ANSWERS(OpenThread(SYNCHRONIZE, FALSE, 0xFFFFFFFF), NULL, ERROR_INVALID_PARAMETER);
    must((thread = CreateThread(NULL, 0, open_itself, NULL, 0, NULL)) != NULL);
    join(thread);
    CloseHandle(thread);
}

int main(void)
{
    must((GO = CreateEvent(NULL, FALSE, FALSE, NULL)) != NULL && (READY = CreateEvent(NULL, FALSE, FALSE, NULL)) != NULL);
    must((EVENT = CreateEvent(NULL, FALSE, FALSE, NULL)) != NULL);
    exit_codes();
    resumed();
    apcs_before_the_beginning();
    ids();
    priorities();
    boosts();
    blocks();
    descriptions();
    times();
    looks_end_no_wait();
    opened();
    return counted();
}
