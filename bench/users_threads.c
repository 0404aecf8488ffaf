/* Threads, their storage and APCs, pools, ports and the time, as programs use them, for bench/users. */
#include "users.h"

static DWORD WINAPI nothing(LPVOID unused)
{
    (void)unused;
    return 0;
}

static bool is_joined(HANDLE thread)
{
    return take(thread) && CloseHandle(thread);
}

static void thread(const char *name)
{
    TIME(name, 1, is_joined(start(nothing, NULL)));
}

static void exit_code(const char *name)
{
    DWORD code = 0;
    HANDLE other = start_to_rest();
    TIME(name, 1, GetExitCodeThread(other, &code));
    end_rest(other);
}

static void tick_count(const char *name)
{
    TIME(name, 1, GetTickCount64() != 0);
}

static void storage(const char *name)
{
    const DWORD slot = TlsAlloc();
    TIME(name, 2, TlsSetValue(slot, &ROUNDS) && TlsGetValue(slot) == &ROUNDS);
}

static void WINAPI note(ULONG_PTR count)
{
    ++*(uint64_t *)count;
}

static void apc(const char *name)
{
    uint64_t count = 0;
    TIME(name, 2, QueueUserAPC(note, GetCurrentThread(), (ULONG_PTR)&count) && SleepEx(0, TRUE) == WAIT_IO_COMPLETION);
    must(count == TURNS * ROUNDS);
}

/* ---- A thousand callbacks of one piece of work. */

enum { CALLBACKS = 1000 };

static void WINAPI call_back(PTP_CALLBACK_INSTANCE instance, PVOID count, PTP_WORK work)
{
    (void)instance;
    (void)work;
    __atomic_fetch_add((uint64_t *)count, 1, __ATOMIC_RELAXED);
}

static bool is_done(PTP_WORK work)
{
    for (int i = 0; i < CALLBACKS; i++)
        SubmitThreadpoolWork(work);
    WaitForThreadpoolWorkCallbacks(work, FALSE);
    return true;
}

static void pool(const char *name)
{
    uint64_t count = 0;
    PTP_WORK work = CreateThreadpoolWork(call_back, &count, NULL);
    must(work != NULL);
    must(is_done(work));
    const struct moment began = now();
    for (uint64_t i = 0; i < ROUNDS; i++)
        must(is_done(work));
    tell_since(name, CALLBACKS * ROUNDS, began);
    must(count == CALLBACKS * (ROUNDS + 1));
}

#if !defined OVER_WINPR /* (It has that name, and no port.) */
static bool is_taken(HANDLE it)
{
    DWORD bytes = 0;
    ULONG_PTR key = 0;
    OVERLAPPED *packet = NULL;
    return PostQueuedCompletionStatus(it, 1, 2, NULL) && GetQueuedCompletionStatus(it, &bytes, &key, &packet, INFINITE);
}

static void port(const char *name)
{
    HANDLE it = CreateIoCompletionPort(INVALID_HANDLE_VALUE, NULL, 0, 0);
    TIME(name, 2, is_taken(it));
}
#endif

const struct shape THREAD_SHAPES[] = {
    { "thread", thread },
    { "exit_code", exit_code },
    { "tick_count", tick_count },
    { "storage", storage },
    { "apc", apc },
    { "pool", pool },
#if !defined OVER_WINPR
    { "port", port },
#endif
    { NULL, NULL },
};
