/* What handles can be, and when they name nothing. */
#include "case.h"

#include <setjmp.h>
#include <sys/resource.h>

/* handles. Within 10 s: 42 passed, 0 failed.
 *
 * What handles can be: their two lowest bits are ignored, generic rights stand for an object's own, an empty name is no name, a null
 * handle is none, and the handles that GetCurrentProcess and GetCurrentThread answer stand in some calls, and not in a list. */

static void low_bits(void)
{
    HANDLE event = CreateEvent(NULL, FALSE, FALSE, NULL);
    for (ULONG_PTR bits = 0; bits < 4; bits++) {
        HANDLE same = (HANDLE)((ULONG_PTR)event | bits);
        IS(SetEvent(same), TRUE);
        IS(WaitForMultipleObjects(1, &same, FALSE, 0), WAIT_OBJECT_0);
    }
    IS(CloseHandle((HANDLE)((ULONG_PTR)event | 3)), TRUE);
    IS(is_closed(event), 1);
}

/* Whether a duplicate with these rights can be waited for. (The object is signaled.) */
static BOOL can_wait(HANDLE object, DWORD rights)
{
    HANDLE copy;
    must(DuplicateHandle(GetCurrentProcess(), object, GetCurrentProcess(), &copy, rights, FALSE, 0));
    const DWORD status = WaitForSingleObject(copy, 0);
    CloseHandle(copy);
    return status == WAIT_OBJECT_0;
}

/* Whether a duplicate with these rights can be changed by this call. */
static BOOL can_change(HANDLE object, DWORD rights, BOOL (*change)(HANDLE))
{
    HANDLE copy;
    must(DuplicateHandle(GetCurrentProcess(), object, GetCurrentProcess(), &copy, rights, FALSE, 0));
    const BOOL answer = change(copy);
    CloseHandle(copy);
    return answer;
}

static BOOL release_one(HANDLE semaphore)
{
    return ReleaseSemaphore(semaphore, 1, NULL);
}

static void generic_rights(void)
{
    HANDLE event = CreateEvent(NULL, TRUE, TRUE, NULL), semaphore = CreateSemaphore(NULL, 50, 100, NULL);
    HANDLE mutex = CreateMutex(NULL, FALSE, NULL), timer = CreateWaitableTimer(NULL, TRUE, NULL);
    IS(can_wait(event, GENERIC_EXECUTE), TRUE);
    IS(can_wait(semaphore, GENERIC_EXECUTE), TRUE);
    IS(can_wait(mutex, GENERIC_EXECUTE), TRUE);
    IS(can_wait(event, GENERIC_ALL), TRUE);
    IS(can_wait(mutex, GENERIC_ALL), TRUE);
    IS(can_wait(event, MAXIMUM_ALLOWED), TRUE);
    IS(can_wait(event, GENERIC_READ), FALSE);
    IS(can_wait(event, GENERIC_WRITE), FALSE);
    IS(can_change(event, GENERIC_WRITE, SetEvent), TRUE);
    IS(can_change(semaphore, GENERIC_WRITE, release_one), TRUE);
    IS(can_change(timer, GENERIC_WRITE, CancelWaitableTimer), TRUE);
    IS(can_change(event, GENERIC_ALL, SetEvent), TRUE);
    IS(can_change(timer, MAXIMUM_ALLOWED, CancelWaitableTimer), TRUE);
    IS(can_change(event, GENERIC_EXECUTE, SetEvent), FALSE);
    IS(can_change(event, GENERIC_READ, SetEvent), FALSE);
}

static void empty_names(void)
{
    HANDLE first = CreateEventA(NULL, TRUE, TRUE, ""), second = CreateEventA(NULL, TRUE, FALSE, "");
    IS(WaitForSingleObject(first, 0), WAIT_OBJECT_0);
    IS(WaitForSingleObject(second, 0), WAIT_TIMEOUT);
    IS(CreateMutexW(NULL, FALSE, L"") != NULL, 1);
    IS(CreateSemaphoreA(NULL, 0, 1, "") != NULL, 1);
    IS(CreateWaitableTimerW(NULL, FALSE, L"") != NULL, 1);
}

static void null_handles(void)
{
    SetLastError(0);
    IS(WaitForSingleObject(NULL, 0), WAIT_FAILED);
    IS(GetLastError(), ERROR_INVALID_HANDLE);
    IS(CloseHandle(NULL), FALSE);
}

static void pseudo_handles(void)
{
    HANDLE process = GetCurrentProcess(), thread = GetCurrentThread(), copy;
    SetLastError(0);
    IS(WaitForMultipleObjects(1, &thread, FALSE, 10), WAIT_FAILED);
    IS(GetLastError(), ERROR_INVALID_HANDLE);
    IS(WaitForSingleObject(thread, 1), WAIT_TIMEOUT);
    IS(WaitForSingleObject(process, 1), WAIT_TIMEOUT);
    IS(DuplicateHandle(process, process, process, &copy, SYNCHRONIZE, FALSE, 0), TRUE);
    IS(WaitForSingleObject(copy, 1), WAIT_TIMEOUT);
    IS(WaitForMultipleObjects(1, &copy, FALSE, 1), WAIT_TIMEOUT);
    IS(SetEvent(copy), FALSE);
    IS(CloseHandle(copy), TRUE);
}

int case_handles(void)
{
    low_bits();
    generic_rights();
    empty_names();
    null_handles();
    pseudo_handles();
    return counted();
}

/* closed_source. Within 10 s: 10 passed, 0 failed.
 *
 * DUPLICATE_CLOSE_SOURCE closes the source, whatever else fails. With no process to go to, that is all that it does. */
int case_closed_source(void)
{
    HANDLE process = GetCurrentProcess(), copy = NULL;
    HANDLE weak = CreateEventEx(NULL, NULL, CREATE_EVENT_INITIAL_SET | CREATE_EVENT_MANUAL_RESET, SYNCHRONIZE);
    IS(WaitForSingleObject(weak, 0), WAIT_OBJECT_0);
    IS(DuplicateHandle(process, weak, process, &copy, EVENT_MODIFY_STATE, FALSE, DUPLICATE_CLOSE_SOURCE), FALSE);
    IS(GetLastError(), ERROR_ACCESS_DENIED);
    IS(is_closed(weak), 1);
    HANDLE event = CreateEvent(NULL, TRUE, TRUE, NULL);
    IS(DuplicateHandle(process, event, NULL, NULL, 0, FALSE, DUPLICATE_CLOSE_SOURCE), TRUE);
    IS(is_closed(event), 1);
    event = CreateEvent(NULL, TRUE, TRUE, NULL);
    IS(DuplicateHandle(process, event, process, &copy, 0, FALSE, DUPLICATE_CLOSE_SOURCE | DUPLICATE_SAME_ACCESS), TRUE);
    IS(is_closed(event), 1);
    IS(WaitForSingleObject(copy, 0), WAIT_OBJECT_0);
    IS(ResetEvent(copy), TRUE);
    return counted();
}

/* stale_handle. Within 120 s: 10 passed, 0 failed.
 *
 * A closed handle is refused, though its number is another's now, and a thread has the place of one that ended, which leaves no handle open. */

static DWORD WINAPI answer(LPVOID code)
{
    return (DWORD)(uintptr_t)code;
}

static DWORD WINAPI wait_for(LPVOID event)
{
    return WaitForSingleObject(event, INFINITE);
}

/* How many events there can be at once, up to this number. */
static int opened(int most)
{
    static HANDLE events[61000];
    int count = 0;
    while (count < most && (events[count] = CreateEventA(NULL, TRUE, FALSE, NULL)) != NULL)
        count++;
    for (int i = 0; i < count; i++)
        CloseHandle(events[i]);
    return count;
}

int case_stale_handle(void)
{
    DWORD code = 0;
    int ended = 0, started = 0;
    HANDLE stale = CreateEventA(NULL, TRUE, FALSE, NULL);
    IS(CloseHandle(stale), TRUE);
    HANDLE other = CreateEventA(NULL, TRUE, FALSE, NULL);
    IS(((uintptr_t)stale ^ (uintptr_t)other) & 0x3FFFC, 0);
    IS(SetEvent(stale), FALSE);
    IS(GetLastError(), ERROR_INVALID_HANDLE);
    IS(CloseHandle(stale), FALSE);
    IS(WaitForSingleObject(other, 0), WAIT_TIMEOUT);
    for (int i = 0; i < 4200; i++) {
        HANDLE thread = CreateThread(NULL, 0, answer, (LPVOID)(uintptr_t)i, 0, NULL);
        if (thread != NULL && WaitForSingleObject(thread, INFINITE) == WAIT_OBJECT_0 && GetExitCodeThread(thread, &code) && code == (DWORD)i)
            ended += CloseHandle(thread) && !CloseHandle(thread);
    }
    IS(ended, 4200);
    /* (As many at once as there may be beside the first one, twice; fewer by ThreadSanitizer, to which each of many costs the more.) */
    for (int round = 0; round < 2; round++) {
        enum { AT_ONCE = HAS_THREAD_SANITIZER ? 400 : 4095 };
        static HANDLE threads[AT_ONCE];
        ResetEvent(other);
        for (int i = 0; i < AT_ONCE; i++)
            started += (threads[i] = CreateThread(NULL, 65536, wait_for, other, STACK_SIZE_PARAM_IS_A_RESERVATION, NULL)) != NULL;
        SetEvent(other);
        for (int i = 0; i < AT_ONCE; i++)
            WaitForSingleObject(threads[i], INFINITE);
        for (int i = 0; i < AT_ONCE; i++)
            CloseHandle(threads[i]);
        started -= AT_ONCE;
    }
    IS(started, 0);
    IS(opened(61000), 61000);
    IS(CloseHandle(other), TRUE);
    return counted();
}

/* refused_names. Within 20 s, unsanitized: 7 passed, 0 failed.
 *
 * A creation with a name that is refused leaves nothing: neither memory nor a handle. */

enum { TIMES = 50000, LETTERS = 200, MOST_KILOBYTES = 8192 };

static long most_kilobytes(void)
{
    struct rusage used;
    must(getrusage(RUSAGE_SELF, &used) == 0);
    return used.ru_maxrss;
}

int case_refused_names(void)
{
    char name[LETTERS + 1];
    memset(name, 'n', LETTERS);
    name[LETTERS] = 0;
    HANDLE named = CreateEventA(NULL, FALSE, FALSE, name), last = NULL;
    /* The name is another kind's. */
    IS(CreateMutexA(NULL, FALSE, name) == NULL, 1);
    IS(GetLastError(), ERROR_INVALID_HANDLE);
    const long before = most_kilobytes();
    for (int i = 0; i < TIMES; i++)
        must(CreateMutexA(NULL, FALSE, name) == NULL);
    IS(most_kilobytes() - before < MOST_KILOBYTES, 1);
    CloseHandle(named);
    /* There is one handle more, and a name takes two. */
    for (HANDLE made; (made = CreateEvent(NULL, FALSE, FALSE, NULL)) != NULL; last = made)
        continue;
    must(CloseHandle(last));
    IS(CreateEventA(NULL, FALSE, FALSE, "name") == NULL, 1);
    IS(GetLastError(), ERROR_NO_SYSTEM_RESOURCES);
    IS(CreateEvent(NULL, FALSE, FALSE, NULL) != NULL, 1);
    IS(CreateEvent(NULL, FALSE, FALSE, NULL) == NULL, 1);
    return counted();
}

/* unreadable_pointers. Within 10 s: 4 passed, 0 failed.
 *
 * A call is given a pointer that can't be read, in a program that catches SIGSEGV and goes on, as structured exceptions do. The library is
 * not left locked: other threads' calls go on. */

static sigjmp_buf out;

static void jump_out(int signal)
{
    (void)signal;
    siglongjmp(out, 1);
}

static void set_timer(HANDLE timer)
{
    SetWaitableTimer(timer, (const LARGE_INTEGER *)16, 0, NULL, NULL, FALSE);
}

static void wait_for_list(HANDLE unused)
{
    (void)unused;
    WaitForMultipleObjects(2, (const HANDLE *)16, FALSE, 0);
}

/* Whether the call reads what can't be read. */
static int is_caught(void (*call)(HANDLE), HANDLE argument)
{
    if (sigsetjmp(out, 1) != 0)
        return 1;
    call(argument);
    return 0;
}

static DWORD sets(LPVOID event)
{
    return !SetEvent(event);
}

int case_unreadable_pointers(void)
{
    signal(SIGSEGV, jump_out);
    HANDLE event = CreateEvent(NULL, TRUE, FALSE, NULL), timer = CreateWaitableTimer(NULL, TRUE, NULL);
    IS(is_caught(set_timer, timer), 1);
    IS(is_caught(wait_for_list, NULL), 1);
    HANDLE thread = CreateThread(NULL, 0, sets, event, 0, NULL);
    IS(WaitForSingleObject(event, INFINITE), WAIT_OBJECT_0);
    IS(WaitForSingleObject(thread, INFINITE), WAIT_OBJECT_0);
    return counted();
}
