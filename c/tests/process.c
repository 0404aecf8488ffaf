/* The process: its times and priorities, and the errors that a program raises or tells of. What each call answers with its last error is from
 * Microsoft's pages and docs/WIN32.md. */
#define _GNU_SOURCE
#include <windows.h>

#include "check.h"

#include <errno.h>
#include <signal.h>
#include <sys/resource.h>
#include <sys/wait.h>
#include <unistd.h>

static ULONGLONG moments(FILETIME time)
{
    return (ULONGLONG)time.dwHighDateTime << 32 | time.dwLowDateTime;
}

static void process(void)
{
    FILETIME began, ended, system, user, now;
    HANDLE self = GetCurrentProcess();
    DWORD code = 0;
    ANSWERS(OpenProcess(PROCESS_ALL_ACCESS, FALSE, GetCurrentProcessId()), self, UNTOUCHED);
    ANSWERS(OpenProcess(PROCESS_ALL_ACCESS, FALSE, 0), NULL, ERROR_INVALID_PARAMETER);
    ANSWERS(OpenProcess(PROCESS_ALL_ACCESS, FALSE, 0xFFFFFFFF), NULL, ERROR_INVALID_PARAMETER);
    const pid_t other = fork();
    must(other >= 0);
    if (other == 0) {
        pause();
        _exit(0);
    }
    ANSWERS(OpenProcess(PROCESS_ALL_ACCESS, FALSE, (DWORD)other), NULL, ERROR_ACCESS_DENIED);
    must(kill(other, SIGKILL) == 0 && waitpid(other, NULL, 0) == other);
    ANSWERS(GetProcessId(self), GetCurrentProcessId(), UNTOUCHED);
    ANSWERS(GetProcessId(NULL), 0, ERROR_INVALID_HANDLE);
    ANSWERS(GetExitCodeProcess(self, &code), TRUE, UNTOUCHED);
    IS(code, STILL_ACTIVE);
    ANSWERS(GetExitCodeProcess(NULL, &code), FALSE, ERROR_INVALID_HANDLE);
    ANSWERS(GetProcessTimes(self, &began, &ended, &system, &user), TRUE, UNTOUCHED);
    GetSystemTimeAsFileTime(&now);
    /* (Of this process, which is a test, and not of the machine: it began within the hour, up to a clock tick later than now.) */
    IS(moments(began) < moments(now) + 1000000 && moments(now) < moments(began) + UINT64_C(36000000000), 1);
    IS(moments(ended), 0);
    IS(moments(system) + moments(user) < UINT64_C(36000000000), 1);
    ANSWERS(GetProcessTimes(NULL, &began, &ended, &system, &user), FALSE, ERROR_INVALID_HANDLE);
}

/* Priorities are kept, and change nothing of the system's. */
static void priority_classes(void)
{
    const DWORD classes[] = { IDLE_PRIORITY_CLASS, BELOW_NORMAL_PRIORITY_CLASS, ABOVE_NORMAL_PRIORITY_CLASS, HIGH_PRIORITY_CLASS,
                              REALTIME_PRIORITY_CLASS, NORMAL_PRIORITY_CLASS };
    const DWORD none[] = { 0, 1, 0x10, 0x30, 0xFFFFFFFF };
    HANDLE self = GetCurrentProcess();
    ANSWERS(GetPriorityClass(self), NORMAL_PRIORITY_CLASS, UNTOUCHED);
    for (size_t i = 0; i < ARRAYSIZE(classes); i++) {
        ANSWERS(SetPriorityClass(self, classes[i]), TRUE, UNTOUCHED);
        ANSWERS(GetPriorityClass(self), classes[i], UNTOUCHED);
    }
    for (size_t i = 0; i < ARRAYSIZE(none); i++)
        ANSWERS(SetPriorityClass(self, none[i]), FALSE, ERROR_INVALID_PARAMETER);
    ANSWERS(SetPriorityClass(self, PROCESS_MODE_BACKGROUND_END), FALSE, ERROR_PROCESS_MODE_NOT_BACKGROUND);
    ANSWERS(SetPriorityClass(self, PROCESS_MODE_BACKGROUND_BEGIN), TRUE, UNTOUCHED);
    ANSWERS(SetPriorityClass(self, PROCESS_MODE_BACKGROUND_BEGIN), FALSE, ERROR_PROCESS_MODE_ALREADY_BACKGROUND);
    ANSWERS(SetPriorityClass(self, PROCESS_MODE_BACKGROUND_END), TRUE, UNTOUCHED);
    ANSWERS(GetPriorityClass(self), NORMAL_PRIORITY_CLASS, UNTOUCHED);
    ANSWERS(SetPriorityClass(NULL, NORMAL_PRIORITY_CLASS), FALSE, ERROR_INVALID_HANDLE);
    ANSWERS(GetPriorityClass(NULL), 0, ERROR_INVALID_HANDLE);
}

static DWORD HANDLED[4];
static int CALLS;

static LONG CALLBACK note_and_search(PEXCEPTION_POINTERS exception)
{
    HANDLED[CALLS++] = exception->ExceptionRecord->ExceptionCode;
    return EXCEPTION_CONTINUE_SEARCH;
}

static LONG CALLBACK note_and_continue(PEXCEPTION_POINTERS exception)
{
    const EXCEPTION_RECORD *record = exception->ExceptionRecord;
    must(record->NumberParameters == 2 && record->ExceptionInformation[1] == 8);
    HANDLED[CALLS++] = 1;
    return EXCEPTION_CONTINUE_EXECUTION;
}

/* Handlers are called in their order, up to the one with which the program goes on. */
static void handlers(void)
{
    const ULONG_PTR arguments[] = { 7, 8 };
    PVOID last = AddVectoredExceptionHandler(0, note_and_search), middle = AddVectoredExceptionHandler(1, note_and_continue),
          first = AddVectoredExceptionHandler(1, note_and_search);
    must(last != NULL && middle != NULL && first != NULL);
    RaiseException(0xE0000007, 0, 2, arguments);
    IS(CALLS, 2);
    IS(HANDLED[0], 0xE0000007);
    IS(HANDLED[1], 1);
    IS(RemoveVectoredExceptionHandler(first) != 0, 1);
    IS(RemoveVectoredExceptionHandler(first), 0);
    IS(RemoveVectoredExceptionHandler(NULL), 0);
    RaiseException(0xE0000007, 0, 2, arguments);
    IS(CALLS, 3);
    IS(RemoveVectoredExceptionHandler(middle) != 0, 1);
    RaiseException(0x406D1388, 0, 0, NULL);
    IS(CALLS, 4);
    IS(HANDLED[3], 0x406D1388);
    IS(RemoveVectoredExceptionHandler(last) != 0, 1);
}

/* By which signal a process ends that raises this exception; 0 where it goes on. */
static int signal_after(DWORD exception)
{
    int status = 0;
    const pid_t child = fork();
    must(child >= 0);
    if (child == 0) {
        const struct rlimit nothing = { 0 };
        setrlimit(RLIMIT_CORE, &nothing);
        RaiseException(exception, 0, 0, NULL);
        _exit(0);
    }
    must(waitpid(child, &status, 0) == child);
    return WIFSIGNALED(status) ? WTERMSIG(status) : 0;
}

static void errors_told(void)
{
    ANSWERS(SetErrorMode(SEM_FAILCRITICALERRORS | SEM_NOOPENFILEERRORBOX), 0, UNTOUCHED);
    ANSWERS(GetErrorMode(), 0x8001, UNTOUCHED);
    ANSWERS(SetErrorMode(0), 0x8001, UNTOUCHED);
    ANSWERS(IsDebuggerPresent() == TRUE || IsDebuggerPresent() == FALSE, TRUE, UNTOUCHED);
    OutputDebugString("nobody reads it");
    OutputDebugStringA("nobody reads it");
    OutputDebugStringW(L"nobody reads it");
    IS(signal_after(0x406D1388), 0);
    IS(signal_after(0x40010006), 0);
    IS(signal_after(0xE0000001), SIGABRT);
}

/* A thread's name, for which the system has no file more, loses no errno of the program. */
static void errno_stays(void)
{
    struct rlimit files, none;
    must(getrlimit(RLIMIT_NOFILE, &files) == 0);
    none = (struct rlimit){ .rlim_cur = 0, .rlim_max = files.rlim_max };
    must(setrlimit(RLIMIT_NOFILE, &none) == 0);
    errno = EDOM;
    IS(SetThreadDescription(GetCurrentThread(), L"named"), S_OK);
    IS(errno, EDOM);
    must(setrlimit(RLIMIT_NOFILE, &files) == 0);
}

int main(void)
{
    errors_told();
    errno_stays();
    handlers();
    process();
    priority_classes();
    return counted();
}
