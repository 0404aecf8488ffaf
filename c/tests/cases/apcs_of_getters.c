/* Within 20 s: 27 passed, 0 failed.
 *
 * APCs of a thread that waits for a packet: one leaves the call, by longjmp or by the thread's end, and the port keeps nothing of it; one waits for a
 * packet itself. And a constructor waits for a packet before the library's own has run. */
#include "case.h"

#include <setjmp.h>

enum { ROUNDS = 3 };

static HANDLE port;
static jmp_buf back;
static LONG inner, left, is_inner;
static LONG task; /* the system's number of the thread that was begun */

static BOOL gets(DWORD ms, ULONG_PTR *key)
{
    DWORD bytes;
    LPOVERLAPPED overlapped;
    return GetQueuedCompletionStatus(port, &bytes, key, &overlapped, ms);
}

static int early_status = -1;

__attribute__((constructor(101))) static void wait_early(void)
{
    ULONG_PTR key = 0;
    port = CreateIoCompletionPort(INVALID_HANDLE_VALUE, NULL, 0, 0);
    early_status = !gets(1, &key) && GetLastError() == WAIT_TIMEOUT && PostQueuedCompletionStatus(port, 0, 7, NULL) && gets(1, &key) && key == 7;
    CloseHandle(port);
}

static void CALLBACK jumps(ULONG_PTR none)
{
    (void)none;
    longjmp(back, 1);
}

static void CALLBACK ends_thread(ULONG_PTR code)
{
    ExitThread((DWORD)code);
}

static void CALLBACK does_nothing(ULONG_PTR none)
{
    (void)none;
}

/* It waits for a packet within the wait for one. */
static void CALLBACK gets_inner(ULONG_PTR none)
{
    ULONG_PTR key = 0;
    (void)none;
    raise_flag(&is_inner);
    inner = gets(INFINITE, &key) ? (LONG)key : -1;
}

/* Fills the stack below with something else. */
__attribute__((noinline)) static void use_stack(void)
{
    volatile char bytes[4096];
    for (size_t i = 0; i < sizeof bytes; i++)
        bytes[i] = (char)0xA5;
}

static ULONG gets_alertably(DWORD ms, ULONG_PTR *key)
{
    OVERLAPPED_ENTRY entry = { 0 };
    ULONG removed = 9;
    const BOOL answer = GetQueuedCompletionStatusEx(port, &entry, 1, &removed, ms, TRUE);
    *key = entry.lpCompletionKey;
    return answer ? removed : 0;
}

/* The caller leaves its wait by an APC, and then gets the packets that come. */
static DWORD leaves_by_jump(LPVOID none)
{
    ULONG_PTR key = 0;
    (void)none;
    if (setjmp(back) == 0) {
        InterlockedExchange(&task, gettid());
        gets_alertably(INFINITE, &key);
        return 99;
    }
    use_stack();
    raise_flag(&left);
    return gets(INFINITE, &key) ? (DWORD)key : 98;
}

static DWORD ends_by_apc(LPVOID none)
{
    ULONG_PTR key;
    (void)none;
    InterlockedExchange(&task, gettid());
    gets_alertably(INFINITE, &key);
    return 99;
}

static DWORD gets_twice(LPVOID none)
{
    ULONG_PTR key = 0;
    (void)none;
    InterlockedExchange(&task, gettid());
    DWORD sum = gets_alertably(INFINITE, &key) == 0 && GetLastError() == WAIT_IO_COMPLETION ? 100 : 0;
    if (gets_alertably(INFINITE, &key) == 1)
        sum += (DWORD)key;
    return sum;
}

static DWORD code_of(HANDLE thread)
{
    DWORD code = 0;
    must(WaitForSingleObject(thread, INFINITE) == WAIT_OBJECT_0 && GetExitCodeThread(thread, &code));
    CloseHandle(thread);
    return code;
}

/* Begins a thread, and queues an APC to it once it sleeps. */
static HANDLE begun(LPTHREAD_START_ROUTINE does, PAPCFUNC routine, ULONG_PTR argument)
{
    task = 0;
    HANDLE thread = CreateThread(NULL, 0, does, NULL, 0, NULL);
    must(thread != NULL);
    await(&task);
    wait_until_asleep(task);
    must(QueueUserAPC(routine, thread, argument));
    return thread;
}

static void leave_calls(void)
{
    ULONG_PTR key = 0;
    left = 0;
    HANDLE thread = begun(leaves_by_jump, jumps, 0);
    await(&left);
    must(PostQueuedCompletionStatus(port, 0, 5, NULL));
    IS(code_of(thread), 5);
    thread = begun(ends_by_apc, ends_thread, 6);
    IS(code_of(thread), 6);
    must(PostQueuedCompletionStatus(port, 0, 8, NULL));
    IS(gets(0, &key), TRUE);
    IS(key, 8);
}

static void wait_within(void)
{
    inner = is_inner = 0;
    HANDLE thread = begun(gets_twice, gets_inner, 0);
    await(&is_inner);
    rest_ms(30);
    must(PostQueuedCompletionStatus(port, 0, 1, NULL));
    rest_ms(30);
    must(PostQueuedCompletionStatus(port, 0, 2, NULL));
    IS(code_of(thread), 102);
    IS(inner, 1);
}

/* A packet that is there goes before an APC, which stays queued. */
static void packet_first(void)
{
    ULONG_PTR key = 0;
    must(PostQueuedCompletionStatus(port, 0, 3, NULL) && QueueUserAPC(does_nothing, GetCurrentThread(), 0));
    IS(gets_alertably(INFINITE, &key), 1);
    IS(SleepEx(0, TRUE), WAIT_IO_COMPLETION);
}

int main(void)
{
    IS(early_status, 1);
    must((port = CreateIoCompletionPort(INVALID_HANDLE_VALUE, NULL, 0, 0)) != NULL);
    for (int i = 0; i < ROUNDS; i++) {
        leave_calls();
        wait_within();
        packet_first();
    }
    ULONG_PTR key;
    IS(gets(0, &key), FALSE);
    IS(CloseHandle(port), TRUE);
    return counted();
}
