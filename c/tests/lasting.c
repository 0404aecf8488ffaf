/* A process that has no end: handles, objects and threads without number, one after another, and as many at once as there may be. Words: how many
 * of each kind are made and closed, 300,000 if that is not said; how many threads are started one after another, 3,000 if not; and how often as many as
 * there may be run at once, once if not. Memory is looked at where more than 100,000 are made. */
#include <windows.h>

#include <process.h>

#include "check.h"

#include <pthread.h>
#include <string.h>
#include <unistd.h>

enum {
    MOST_THREADS = 4096,
    MOST_HANDLES = 65536 - MOST_THREADS, /* all numbers but those of threads' own handles */
    MOST_COUNT = 16382,                  /* how often a number is given before a handle comes back */
    OPEN = 60000
};

static HANDLE make_event(void)
{
    return CreateEventA(NULL, TRUE, FALSE, NULL);
}

static HANDLE make_semaphore(void)
{
    return CreateSemaphoreA(NULL, 0, 1, NULL);
}

static HANDLE make_mutex(void)
{
    return CreateMutexA(NULL, TRUE, NULL);
}

static HANDLE make_timer(void)
{
    return CreateWaitableTimerA(NULL, TRUE, NULL);
}

/* (With less than all rights, it is made by a duplicate.) */
static HANDLE make_to_wait_for(void)
{
    return CreateEventExA(NULL, NULL, 0, SYNCHRONIZE);
}

static HANDLE make_named(void)
{
    return CreateEventA(NULL, TRUE, FALSE, "an event of the process");
}

static HANDLE make_duplicate(void)
{
    HANDLE made = NULL;
    DuplicateHandle(GetCurrentProcess(), GetCurrentThread(), GetCurrentProcess(), &made, 0, FALSE, DUPLICATE_SAME_ACCESS);
    return made;
}

static HANDLE make_port(void)
{
    return CreateIoCompletionPort(INVALID_HANDLE_VALUE, NULL, 0, 1);
}

static const struct kind {
    const char *name;
    HANDLE (*make)(void);
    DWORD status; /* of a wait for it that does not wait: it is not set, or the caller owns it */
} KINDS[] = {
    { "event", make_event, WAIT_TIMEOUT },       { "semaphore", make_semaphore, WAIT_TIMEOUT },
    { "mutex", make_mutex, WAIT_OBJECT_0 },      { "timer", make_timer, WAIT_TIMEOUT },
    { "event to wait for", make_to_wait_for, WAIT_TIMEOUT }, { "named event", make_named, WAIT_TIMEOUT },
    { "duplicate", make_duplicate, WAIT_TIMEOUT }, { "port", make_port, WAIT_TIMEOUT },
};

/* The number of a handle, and how often that was given. */
static uint32_t number_of(HANDLE handle)
{
    return (uint32_t)(uintptr_t)handle >> 2 & 0xFFFF;
}

static uint32_t count_of(HANDLE handle)
{
    return (uint32_t)(uintptr_t)handle >> 18;
}

/* How much memory the process has of its own, in kB. (Pages of the program come as it is read, dozens at a time.) */
static long own_memory(void)
{
    char line[256];
    long found = 0;
    FILE *file = fopen("/proc/self/smaps_rollup", "r");
    must(file != NULL);
    while (found == 0 && fgets(line, sizeof line, file) != NULL)
        sscanf(line, "Anonymous: %ld kB", &found);
    fclose(file);
    must(found > 0);
    return found;
}

/* It takes as much memory as before, but for one part in 100. */
static void has_not_grown(long before)
{
    IS(own_memory() <= before + before / 100, 1);
}

static HANDLE made(const struct kind *kind)
{
    HANDLE handle = kind->make();
    must(handle != NULL);
    return handle;
}

/* A handle that was closed is refused by each call, though its number is another's now. */
static void is_refused(HANDLE stale, HANDLE other)
{
    const HANDLE both[] = { other, stale }, process = GetCurrentProcess();
    HANDLE duplicate;
    DWORD flags;
    ANSWERS(WaitForSingleObject(stale, 0), WAIT_FAILED, ERROR_INVALID_HANDLE);
    ANSWERS(WaitForMultipleObjects(2, both, FALSE, 0), WAIT_FAILED, ERROR_INVALID_HANDLE);
    ANSWERS(SignalObjectAndWait(stale, other, 0, FALSE), WAIT_FAILED, ERROR_INVALID_HANDLE);
    ANSWERS(SignalObjectAndWait(other, stale, 0, FALSE), WAIT_FAILED, ERROR_INVALID_HANDLE);
    ANSWERS(SetEvent(stale), FALSE, ERROR_INVALID_HANDLE);
    ANSWERS(ResetEvent(stale), FALSE, ERROR_INVALID_HANDLE);
    ANSWERS(PulseEvent(stale), FALSE, ERROR_INVALID_HANDLE);
    ANSWERS(ReleaseSemaphore(stale, 1, NULL), FALSE, ERROR_INVALID_HANDLE);
    ANSWERS(ReleaseMutex(stale), FALSE, ERROR_INVALID_HANDLE);
    ANSWERS(CancelWaitableTimer(stale), FALSE, ERROR_INVALID_HANDLE);
    ANSWERS(DuplicateHandle(process, stale, process, &duplicate, 0, FALSE, DUPLICATE_SAME_ACCESS), FALSE, ERROR_INVALID_HANDLE);
    ANSWERS(GetHandleInformation(stale, &flags), FALSE, ERROR_INVALID_HANDLE);
    ANSWERS(PostQueuedCompletionStatus(stale, 0, 0, NULL), FALSE, ERROR_INVALID_HANDLE);
    ANSWERS(GetThreadId(stale), 0, ERROR_INVALID_HANDLE);
    ANSWERS(CloseHandle(stale), FALSE, ERROR_INVALID_HANDLE);
}

/* A stale handle of each kind, whose number is that of a new object of the same kind. */
static void stale_handles(void)
{
    for (size_t i = 0; i < ARRAYSIZE(KINDS); i++) {
        HANDLE stale = made(&KINDS[i]);
        IS(CloseHandle(stale), TRUE);
        HANDLE first = made(&KINDS[i]);
        /* (What is made by a duplicate takes two numbers, in turn.) */
        if (number_of(first) != number_of(stale)) {
            must(CloseHandle(first));
            first = made(&KINDS[i]);
        }
        HANDLE second = made(&KINDS[i]);
        IS(number_of(first), number_of(stale));
        IS(count_of(first), count_of(stale) + 1);
        is_refused(stale, first);
        IS(WaitForSingleObject(first, 0), KINDS[i].status);
        IS(WaitForSingleObject(second, 0), KINDS[i].status);
        IS(CloseHandle(first), TRUE);
        IS(CloseHandle(second), TRUE);
    }
}

/* A number is given 16,382 times before a handle comes back, and no pseudo handle ever does. */
static void counts(void)
{
    HANDLE first = make_event(), it = first;
    uint32_t count = count_of(first);
    for (int i = 1; i < MOST_COUNT; i++) {
        must(CloseHandle(it) && (it = make_event()) != first);
        count = count < MOST_COUNT ? count + 1 : 1;
        must(number_of(it) == number_of(first) && count_of(it) == count);
    }
    IS(CloseHandle(it), TRUE);
    IS((uintptr_t)make_event(), (uintptr_t)first);
    ANSWERS(SetEvent(first), TRUE, UNTOUCHED);
    IS(CloseHandle(first), TRUE);
    ANSWERS(SetEvent(NULL), FALSE, ERROR_INVALID_HANDLE);
    ANSWERS(SetEvent(INVALID_HANDLE_VALUE), FALSE, ERROR_INVALID_HANDLE);
    ANSWERS(WaitForSingleObject(NULL, 0), WAIT_FAILED, ERROR_INVALID_HANDLE);
}

/* The two lowest bits of a handle are the program's own, and it is whole in 32 bits, with or without their sign. */
static void bits(void)
{
    HANDLE event = make_event();
    const uint32_t value = (uint32_t)(uintptr_t)event;
    for (uint32_t low = 0; low < 4; low++) {
        ANSWERS(SetEvent((HANDLE)(uintptr_t)(value | low)), TRUE, UNTOUCHED);
        ANSWERS(WaitForSingleObject((HANDLE)(intptr_t)(int32_t)(value | low), 0), WAIT_OBJECT_0, UNTOUCHED);
    }
    ANSWERS(CloseHandle((HANDLE)(uintptr_t)(value | 3)), TRUE, UNTOUCHED);
    ANSWERS(CloseHandle(event), FALSE, ERROR_INVALID_HANDLE);
}

/* So many of each kind are made and closed, beside 1,000 others. */
static void each_kind(long count)
{
    static HANDLE others[1000];
    for (size_t i = 0; i < ARRAYSIZE(others); i++)
        others[i] = made(&KINDS[i % ARRAYSIZE(KINDS)]);
    for (size_t i = 0; i < ARRAYSIZE(KINDS); i++) {
        long before = 0;
        for (long k = 0; k < count; k++) {
            HANDLE it = made(&KINDS[i]);
            must(CloseHandle(it));
            if (k == 100000)
                before = own_memory();
        }
        if (count > 100000)
            has_not_grown(before);
    }
    for (size_t i = 0; i < ARRAYSIZE(others); i++)
        IS(CloseHandle(others[i]), TRUE);
}

static DWORD WINAPI answer(LPVOID code)
{
    return (DWORD)(uintptr_t)code;
}

static HANDLE started(LPTHREAD_START_ROUTINE start, uintptr_t word)
{
    HANDLE thread = CreateThread(NULL, 65536, start, (LPVOID)word, STACK_SIZE_PARAM_IS_A_RESERVATION, NULL);
    must(thread != NULL);
    return thread;
}

/* So many threads, one after another: their handles are closed once they have ended, or at once. */
static void threads_in_turn(long count)
{
    long before = 0;
    for (long i = 0; i < count; i++) {
        DWORD code = 0;
        HANDLE thread = started(answer, (uintptr_t)i), again = make_duplicate();
        must(WaitForSingleObject(thread, INFINITE) == WAIT_OBJECT_0);
        must(GetExitCodeThread(thread, &code) && code == (DWORD)i);
        must(CloseHandle(thread) && CloseHandle(again));
        must(!CloseHandle(thread) && GetLastError() == ERROR_INVALID_HANDLE);
        if (i == count / 10)
            before = own_memory();
    }
    IS(count, count);
    if (count > 100000)
        has_not_grown(before);
}

static HANDLE GATE;
static LONG RUN;

static DWORD WINAPI run_once(LPVOID event)
{
    InterlockedIncrement(&RUN);
    return event != NULL ? WaitForSingleObject(event, INFINITE) : WAIT_OBJECT_0;
}

/* Their handles are closed before they end. */
static void threads_let_go(long count)
{
    InterlockedExchange(&RUN, 0);
    for (long i = 0; i < count; i++) {
        HANDLE thread;
        while ((thread = CreateThread(NULL, 65536, run_once, NULL, STACK_SIZE_PARAM_IS_A_RESERVATION, NULL)) == NULL) {
            must(GetLastError() == ERROR_NO_SYSTEM_RESOURCES);
            Sleep(0);
        }
        must(CloseHandle(thread));
    }
    while (InterlockedCompareExchange(&RUN, 0, 0) < count)
        Sleep(1);
    IS(RUN, count);
}

static void *call_once(void *event)
{
    return (void *)(uintptr_t)(SetEvent(event) && WaitForSingleObject(GetCurrentThread(), 0) == WAIT_TIMEOUT && WaitForSingleObject(event, 0) == 0);
}

/* The same for threads that CreateThread did not make: they give their places back as they end. */
static void threads_of_the_program(long count)
{
    for (long i = 0; i < count; i++) {
        pthread_t thread;
        void *answered = NULL;
        must(pthread_create(&thread, NULL, call_once, GATE) == 0 && pthread_join(thread, &answered) == 0);
        must(answered == (void *)1);
    }
    ResetEvent(GATE);
    IS(count, count);
}

/* Whether one thread's wait pends. */
static BOOL one_waits(void)
{
    char text[32] = "";
    FILE *file = tmpfile();
    must(file != NULL);
    ntwin_why(file);
    rewind(file);
    must(fgets(text, sizeof text, file) != NULL && fclose(file) == 0);
    return strncmp(text, "ntwin: 1 thread waits", 21) == 0;
}

/* Two threads, of which one waits for the other and an event. */
struct two {
    HANDLE both[2];
    DWORD who_waits;
};

static DWORD WINAPI wait_or_end(LPVOID at)
{
    const struct two *two = at;
    return GetCurrentThreadId() == two->who_waits ? WaitForMultipleObjects(2, two->both, TRUE, INFINITE) : 0;
}

/* A thread has ended whose last name was a wait, which has ended too; who waited had a place before its own. */
static void end_with_wait(void)
{
    static struct two two;
    HANDLE threads[2], again;
    for (int i = 0; i < 2; i++)
        must((threads[i] = CreateThread(NULL, 65536, wait_or_end, &two, CREATE_SUSPENDED, NULL)) != NULL);
    const int first = GetThreadId(threads[0]) > GetThreadId(threads[1]);
    two = (struct two){ .both = { threads[!first], make_event() }, .who_waits = GetThreadId(threads[first]) };
    must(DuplicateHandle(GetCurrentProcess(), two.both[1], GetCurrentProcess(), &again, 0, FALSE, DUPLICATE_SAME_ACCESS));
    must(ResumeThread(threads[first]) == 1);
    while (!one_waits())
        Sleep(1);
    must(ResumeThread(threads[!first]) == 1 && WaitForSingleObject(threads[!first], INFINITE) == WAIT_OBJECT_0);
    must(CloseHandle(threads[!first]) && CloseHandle(two.both[1]) && SetEvent(again) && CloseHandle(again));
    must(WaitForSingleObject(threads[first], INFINITE) == WAIT_OBJECT_0 && CloseHandle(threads[first]));
}

/* As many threads at once as there may be, again and again; one more is refused. */
static void most_threads(int rounds)
{
    static HANDLE threads[MOST_THREADS - 1];
    for (int round = 0; round < rounds; round++) {
        end_with_wait();
        HANDLE gate = make_event();
        for (size_t i = 0; i < ARRAYSIZE(threads); i++)
            threads[i] = started(run_once, (uintptr_t)gate);
        ANSWERS(CreateThread(NULL, 0, answer, NULL, 0, NULL), NULL, ERROR_NO_SYSTEM_RESOURCES);
        IS(SetEvent(gate), TRUE);
        for (size_t i = 0; i < ARRAYSIZE(threads); i++) {
            must(WaitForSingleObject(threads[i], INFINITE) == WAIT_OBJECT_0);
            /* (Its place is given again, though its handle is open.) */
            if (i == 0) {
                HANDLE next = started(answer, 5);
                must(WaitForSingleObject(next, INFINITE) == WAIT_OBJECT_0);
                must(CloseHandle(next));
            }
        }
        for (size_t i = 0; i < ARRAYSIZE(threads); i++)
            must(CloseHandle(threads[i]));
        IS(CloseHandle(gate), TRUE);
    }
}

static DWORD WINAPI own_and_end(LPVOID mutex)
{
    must(WaitForSingleObject(mutex, 0) == WAIT_OBJECT_0);
    must(SetThreadPriority(GetCurrentThread(), THREAD_PRIORITY_HIGHEST));
    must(SetThreadDescription(GetCurrentThread(), L"the first") == S_OK);
    return 7;
}

static DWORD WINAPI wait_for(LPVOID event)
{
    return WaitForSingleObjectEx(event, INFINITE, TRUE);
}

static void must_not_run(ULONG_PTR word)
{
    (void)word;
    must(!"an APC of another thread has run");
}

/* A thread that has the place of another has nothing of it. */
static void places(void)
{
    HANDLE mutex = CreateMutexA(NULL, FALSE, NULL), gate = make_event(), first = started(own_and_end, (uintptr_t)mutex), next;
    PWSTR description;
    DWORD code, id = GetThreadId(first);
    must(WaitForSingleObject(first, INFINITE) == WAIT_OBJECT_0);
    ANSWERS(QueueUserAPC(must_not_run, first, 0), 0, ERROR_GEN_FAILURE);
    IS(GetExitCodeThread(first, &code), TRUE);
    IS(code, 7);
    IS(GetThreadPriority(first), THREAD_PRIORITY_HIGHEST);
    IS(CloseHandle(first), TRUE);
    next = started(wait_for, (uintptr_t)gate);
    IS(GetThreadId(next), id);
    ANSWERS(QueueUserAPC(must_not_run, first, 0), 0, ERROR_INVALID_HANDLE);
    ANSWERS(GetExitCodeThread(first, &code), FALSE, ERROR_INVALID_HANDLE);
    IS(GetExitCodeThread(next, &code), TRUE);
    IS(code, STILL_ACTIVE);
    IS(GetThreadPriority(next), THREAD_PRIORITY_NORMAL);
    must(GetThreadDescription(next, &description) == S_OK);
    IS(wcscmp(description, L""), 0);
    LocalFree(description);
    IS(WaitForSingleObject(next, 0), WAIT_TIMEOUT);
    ANSWERS(WaitForSingleObject(mutex, 0), WAIT_ABANDONED, UNTOUCHED);
    IS(ReleaseMutex(mutex), TRUE);
    IS(SetEvent(gate), TRUE);
    IS(WaitForSingleObject(next, INFINITE), WAIT_OBJECT_0);
    IS(GetExitCodeThread(next, &code), TRUE);
    IS(code, WAIT_OBJECT_0);
    CloseHandle(next);
    CloseHandle(gate);
    CloseHandle(mutex);
}

static DWORD WINAPI wait_for_both(LPVOID both)
{
    return WaitForMultipleObjects(2, both, TRUE, INFINITE);
}

/* What a pending wait names keeps its number, though no handle names it: no other object gets it, and the wait ends as it should. */
static void waited_for(void)
{
    HANDLE both[] = { make_event(), make_event() }, more[100], again, process = GetCurrentProcess();
    DWORD code;
    must(DuplicateHandle(process, both[1], process, &again, 0, FALSE, DUPLICATE_SAME_ACCESS));
    HANDLE thread = started(wait_for_both, (uintptr_t)both);
    while (!one_waits())
        Sleep(1);
    IS(SetEvent(both[0]), TRUE);
    IS(CloseHandle(both[0]), TRUE);
    IS(CloseHandle(both[1]), TRUE);
    for (size_t i = 0; i < ARRAYSIZE(more); i++) {
        must((more[i] = make_event()) != NULL);
        must(WaitForSingleObject(more[i], 0) == WAIT_TIMEOUT && SetEvent(more[i]));
    }
    IS(WaitForSingleObject(thread, 0), WAIT_TIMEOUT);
    IS(SetEvent(again), TRUE);
    IS(WaitForSingleObject(thread, INFINITE), WAIT_OBJECT_0);
    IS(GetExitCodeThread(thread, &code), TRUE);
    IS(code, WAIT_OBJECT_0);
    for (size_t i = 0; i < ARRAYSIZE(more); i++)
        CloseHandle(more[i]);
    CloseHandle(again);
    CloseHandle(thread);
}

/* Handles are closed at random and others made, and threads come and go, with 60,000 open. */
static void churn(long count)
{
    static HANDLE open[OPEN];
    uint32_t seed = 1;
    for (size_t i = 0; i < OPEN; i++)
        open[i] = made(&KINDS[i % 4]);
    for (long i = 0; i < count; i++) {
        HANDLE *at = &open[(seed = seed * 1664525 + 1013904223) / 8 % OPEN], stale = *at;
        must(CloseHandle(stale));
        *at = made(&KINDS[seed / 4 % 4]);
        must(!CloseHandle(stale) && GetLastError() == ERROR_INVALID_HANDLE);
        if (i % 100 == 0) {
            HANDLE thread = started(answer, 0);
            must(WaitForSingleObject(thread, INFINITE) == WAIT_OBJECT_0 && CloseHandle(thread));
        }
    }
    for (size_t i = 0; i < OPEN; i++)
        must(CloseHandle(open[i]));
    IS(count, count);
}

/* As many handles as may be open: one more is refused, and is not once one is closed. */
static void most_handles(void)
{
    static HANDLE open[MOST_HANDLES];
    const struct kind *event = KINDS;
    size_t count = 0;
    HANDLE it;
    while (count < MOST_HANDLES && (it = event->make()) != NULL)
        open[count++] = it;
    /* (The test has one open, and the process may have one.) */
    IS(count, MOST_HANDLES - 1);
    ANSWERS(event->make(), NULL, ERROR_NO_SYSTEM_RESOURCES);
    ANSWERS(make_duplicate(), NULL, ERROR_NO_SYSTEM_RESOURCES);
    for (size_t i = 0; i < 1000; i++) {
        must(CloseHandle(open[i]));
        must((open[i] = event->make()) != NULL);
        must(event->make() == NULL);
    }
    for (size_t i = 0; i < count; i++)
        must(CloseHandle(open[i]));
}

int main(int count, char **words)
{
    const long made_each = count > 1 ? atol(words[1]) : 300000, threads = count > 2 ? atol(words[2]) : 3000;
    const int rounds = count > 3 ? atoi(words[3]) : 1;
    must((GATE = make_event()) != NULL);
    stale_handles();
    bits();
    counts();
    places();
    waited_for();
    each_kind(made_each);
    threads_in_turn(threads);
    threads_let_go(threads / 3);
    threads_of_the_program(threads / 3);
    most_threads(rounds);
    churn(made_each / 3);
    most_handles();
    threads_in_turn(300);
    return counted();
}
