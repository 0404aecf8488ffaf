/* SPDX-License-Identifier: MIT OR Apache-2.0 */
/* ---- The C runtime's threads, over CreateThread. */
#include "internal.h"

/* The last error of the call of the C runtime that failed last. */
static _Thread_local unsigned long dos_error __attribute__((tls_model("initial-exec")));

unsigned long *ntwin_doserrno(void)
{
    return &dos_error;
}

uintptr_t _beginthreadex(void *attributes, unsigned stack, _beginthreadex_proc_type start, void *argument, unsigned flags, unsigned *id)
{
    HANDLE thread = CreateThread(attributes, stack, start, argument, flags, id);
    if (thread == NULL) {
        dos_error = own.last_error;
        errno = own.last_error == ERROR_NOT_ENOUGH_MEMORY ? ENOMEM : own.last_error == ERROR_NO_SYSTEM_RESOURCES ? EAGAIN : EINVAL;
    }
    return (uintptr_t)thread;
}

void _endthreadex(unsigned code)
{
    ExitThread(code);
}

/* What a thread of _beginthread runs, and its handle once that is known. */
struct begun {
    _beginthread_proc_type start;
    void *argument;
    HANDLE thread;
};
static _Thread_local struct begun *begun __attribute__((tls_model("initial-exec")));

/* Closes the caller's handle, where it is a thread of _beginthread. */
static void close_begun(void)
{
    struct begun *mine = begun;
    if (mine == NULL)
        return;
    begun = NULL;
    HANDLE none = NULL;
    while (__atomic_load_n(&mine->thread, __ATOMIC_ACQUIRE) == NULL)
        wait_on(&mine->thread, &none, sizeof none, INFINITE, OF_LIBRARY);
    CloseHandle(mine->thread);
    free(mine);
}

static DWORD WINAPI run_begun(LPVOID at)
{
    struct begun *mine = begun = at;
    mine->start(mine->argument);
    close_begun();
    return 0;
}

uintptr_t _beginthread(_beginthread_proc_type start, unsigned stack, void *argument)
{
    struct begun *made = start != NULL ? malloc(sizeof *made) : NULL;
    if (made == NULL) {
        errno = start == NULL ? EINVAL : ENOMEM;
        dos_error = start == NULL ? ERROR_INVALID_PARAMETER : ERROR_NOT_ENOUGH_MEMORY;
        return (uintptr_t)-1;
    }
    *made = (struct begun){ .start = start, .argument = argument };
    const uintptr_t thread = _beginthreadex(NULL, stack, run_begun, made, 0, NULL);
    if (thread == 0) {
        free(made);
        return (uintptr_t)-1;
    }
    __atomic_store_n(&made->thread, (HANDLE)thread, __ATOMIC_RELEASE);
    WakeByAddressAll(&made->thread);
    return thread;
}

void _endthread(void)
{
    close_begun();
    ExitThread(0);
}

int _getpid(void)
{
    return getpid();
}

/* ---- The process. */

HANDLE OpenProcess(DWORD access, BOOL inherit, DWORD id)
{
    (void)access;
    (void)inherit;
    if (id != 0 && id == GetCurrentProcessId())
        return CURRENT_PROCESS;
    ntw_fail(id == 0 || id > INT_MAX || (kill((pid_t)id, 0) != 0 && errno == ESRCH) ? ERROR_INVALID_PARAMETER : ERROR_ACCESS_DENIED);
    return NULL;
}

DWORD GetProcessId(HANDLE handle)
{
    return is_process(handle) ? GetCurrentProcessId() : 0;
}

BOOL GetExitCodeProcess(HANDLE handle, LPDWORD code)
{
    if (!is_process(handle))
        return FALSE;
    *code = STILL_ACTIVE;
    return TRUE;
}

/* When the process began, in UTC: the system has that in its clock ticks since the machine began. */
static int64_t process_began(void)
{
    static const char format[] = ") %*c %*d %*d %*d %*d %*d %*u %*u %*u %*u %*u %*u %*u %*d %*d %*d %*d %*d %*d %lu";
    unsigned long ticks = 0;
    struct timespec since = { 0 };
    char line[1024];
    const char *rest = read_state("/proc/self/stat", line);
    if (rest != NULL && sscanf(rest, format, &ticks) != 1)
        ticks = 0;
    clock_gettime(CLOCK_BOOTTIME, &since);
    const int64_t up = (int64_t)since.tv_sec * MOMENTS_PER_SECOND + since.tv_nsec / NANOSECONDS_PER_MOMENT;
    return universal() - up + (int64_t)(ticks * (MOMENTS_PER_SECOND / (uint64_t)sysconf(_SC_CLK_TCK)));
}

BOOL GetProcessTimes(HANDLE handle, LPFILETIME began, LPFILETIME ended, LPFILETIME system, LPFILETIME user)
{
    struct rusage used;
    if (!is_process(handle) || getrusage(RUSAGE_SELF, &used) != 0)
        return FALSE;
    set_file_time(began, (uint64_t)process_began());
    set_file_time(ended, 0);
    set_file_time(system, moments_used(used.ru_stime));
    set_file_time(user, moments_used(used.ru_utime));
    return TRUE;
}

static _Atomic DWORD priority_class = NORMAL_PRIORITY_CLASS;
static _Atomic bool is_in_background;

BOOL SetPriorityClass(HANDLE handle, DWORD wanted)
{
    if (!is_process(handle))
        return FALSE;
    switch (wanted) {
    case PROCESS_MODE_BACKGROUND_BEGIN:
        return !atomic_exchange(&is_in_background, true) || ntw_fail(ERROR_PROCESS_MODE_ALREADY_BACKGROUND);
    case PROCESS_MODE_BACKGROUND_END:
        return atomic_exchange(&is_in_background, false) || ntw_fail(ERROR_PROCESS_MODE_NOT_BACKGROUND);
    case IDLE_PRIORITY_CLASS:
    case BELOW_NORMAL_PRIORITY_CLASS:
    case NORMAL_PRIORITY_CLASS:
    case ABOVE_NORMAL_PRIORITY_CLASS:
    case HIGH_PRIORITY_CLASS:
    case REALTIME_PRIORITY_CLASS:
        priority_class = wanted;
        return TRUE;
    default:
        return ntw_fail(ERROR_INVALID_PARAMETER);
    }
}

DWORD GetPriorityClass(HANDLE handle)
{
    return is_process(handle) ? priority_class : 0;
}

/* ---- Errors that a program tells the system or a debugger of. */

static _Atomic UINT error_mode;

UINT SetErrorMode(UINT mode)
{
    return atomic_exchange(&error_mode, mode);
}

UINT GetErrorMode(void)
{
    return error_mode;
}

BOOL IsDebuggerPresent(void)
{
    char line[256];
    long tracer = 0;
    FILE *file = fopen("/proc/self/status", "re");
    while (file != NULL && fgets(line, sizeof line, file) != NULL && sscanf(line, "TracerPid: %ld", &tracer) != 1)
        continue;
    if (file != NULL)
        fclose(file);
    return tracer != 0;
}

void OutputDebugStringA(LPCSTR text)
{
    (void)text;
}

void OutputDebugStringW(LPCWSTR text)
{
    (void)text;
}

/* Handlers of exceptions, the first to be called first. One that is removed stays in the list, since a thread may be there, and is not called. */
struct handler {
    _Atomic PVECTORED_EXCEPTION_HANDLER call;
    struct handler *_Atomic next;
};
static struct handler *_Atomic handlers;
NTW_INTERNAL _Atomic uint32_t handlers_latch;

PVOID AddVectoredExceptionHandler(ULONG first, PVECTORED_EXCEPTION_HANDLER call)
{
    struct handler *made = calloc(1, sizeof *made), *_Atomic *at = &handlers;
    if (made == NULL)
        return NULL;
    atomic_init(&made->call, call);
    take_latch(&handlers_latch);
    while (first == 0 && *at != NULL)
        at = &(*at)->next;
    atomic_init(&made->next, *at);
    *at = made;
    give_latch(&handlers_latch);
    return made;
}

ULONG RemoveVectoredExceptionHandler(PVOID handler)
{
    for (struct handler *at = handlers; at != NULL; at = at->next)
        if (at == handler)
            return atomic_exchange(&at->call, NULL) != NULL;
    return 0;
}

static bool is_handled(PEXCEPTION_RECORD record)
{
    EXCEPTION_POINTERS told = { .ExceptionRecord = record };
    for (struct handler *at = handlers; at != NULL; at = at->next) {
        const PVECTORED_EXCEPTION_HANDLER call = at->call;
        if (call != NULL && call(&told) == EXCEPTION_CONTINUE_EXECUTION)
            return (record->ExceptionFlags & EXCEPTION_NONCONTINUABLE) == 0;
    }
    return false;
}

/* An exception that nobody handles ends the process; but not those by which a program tells a debugger a thread's name, or a text. */
void RaiseException(DWORD code, DWORD flags, DWORD count, const ULONG_PTR *arguments)
{
    enum { NAMES_A_THREAD = 0x406D1388, HAS_A_TEXT = 0x40010006, HAS_A_WIDE_TEXT = 0x4001000A };
    EXCEPTION_RECORD record = { .ExceptionCode = code, .ExceptionFlags = flags & EXCEPTION_NONCONTINUABLE, .ExceptionAddress = __builtin_return_address(0) };
    if (arguments != NULL) {
        record.NumberParameters = count < EXCEPTION_MAXIMUM_PARAMETERS ? count : EXCEPTION_MAXIMUM_PARAMETERS;
        memcpy(record.ExceptionInformation, arguments, record.NumberParameters * sizeof *arguments);
    }
    if (!is_handled(&record) && code != NAMES_A_THREAD && code != HAS_A_TEXT && code != HAS_A_WIDE_TEXT)
        abort();
}
