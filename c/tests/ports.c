/* Completion ports: what each call answers with its last error, the order of packets and of threads, and packets among many threads. */
#define _GNU_SOURCE
#include <windows.h>

#include "asleep.h"
#include "check.h"

#include <pthread.h>

enum { THREADS = 4, PACKETS = 2000 };

static HANDLE const NO_SUCH = (HANDLE)(uintptr_t)0x3FF00;
static HANDLE PORT;

/* What a call gets: TRUE with these. */
#define GETS(port, wanted_bytes, wanted_key, wanted_overlapped) \
    do { \
        DWORD bytes = 99; \
        ULONG_PTR key = 99; \
        LPOVERLAPPED found = NULL; \
        ANSWERS(GetQueuedCompletionStatus(port, &bytes, &key, &found, 0), TRUE, UNTOUCHED); \
        IS(bytes, wanted_bytes); \
        IS(key, wanted_key); \
        IS((uintptr_t)found, (uintptr_t)(wanted_overlapped)); \
    } while (0)

#define GETS_NONE(port, ms, error) \
    do { \
        DWORD bytes = 99; \
        ULONG_PTR key = 99; \
        LPOVERLAPPED overlapped = (LPOVERLAPPED)&bytes; \
        ANSWERS(GetQueuedCompletionStatus(port, &bytes, &key, &overlapped, ms), FALSE, error); \
        IS(bytes, 99); \
        IS(key, 99); \
        IS((uintptr_t)overlapped, 0); \
    } while (0)

static void CALLBACK nothing(ULONG_PTR none)
{
    (void)none;
}

static void rows(void)
{
    static OVERLAPPED overlapped;
    OVERLAPPED_ENTRY entries[4];
    ULONG removed = 99;
    HANDLE port, same, event = CreateEvent(NULL, FALSE, FALSE, NULL);
    SetLastError(UNTOUCHED);
    must((port = CreateIoCompletionPort(INVALID_HANDLE_VALUE, NULL, 0, 0)) != NULL);
    IS(GetLastError(), UNTOUCHED);
    GETS_NONE(port, 0, WAIT_TIMEOUT);
    const DWORD then = timeGetTime();
    GETS_NONE(port, 20, WAIT_TIMEOUT);
    IS(timeGetTime() - then >= 20, 1);
    ANSWERS(PostQueuedCompletionStatus(port, 1, 10, &overlapped), TRUE, UNTOUCHED);
    ANSWERS(PostQueuedCompletionStatus(port, 2, 20, NULL), TRUE, UNTOUCHED);
    ANSWERS(PostQueuedCompletionStatus(port, 0xFFFFFFFF, ~(ULONG_PTR)0, NULL), TRUE, UNTOUCHED);
    GETS(port, 1, 10, &overlapped);
    GETS(port, 2, 20, NULL);
    GETS(port, 0xFFFFFFFF, ~(ULONG_PTR)0, NULL);
    GETS_NONE(port, 0, WAIT_TIMEOUT);
    /* Several at a time. */
    for (DWORD i = 0; i < 6; i++)
        must(PostQueuedCompletionStatus(port, i, i * 10, NULL));
    ANSWERS(GetQueuedCompletionStatusEx(port, entries, 4, &removed, 0, FALSE), TRUE, UNTOUCHED);
    IS(removed, 4);
    for (DWORD i = 0; i < 4; i++)
        IS(entries[i].dwNumberOfBytesTransferred == i && entries[i].lpCompletionKey == i * 10 && entries[i].lpOverlapped == NULL, 1);
    ANSWERS(GetQueuedCompletionStatusEx(port, entries, 4, &removed, INFINITE, FALSE), TRUE, UNTOUCHED);
    IS(removed, 2);
    IS(entries[0].dwNumberOfBytesTransferred, 4);
    ANSWERS(GetQueuedCompletionStatusEx(port, entries, 4, &removed, 1, FALSE), FALSE, WAIT_TIMEOUT);
    IS(removed, 0);
    ANSWERS(QueueUserAPC(nothing, GetCurrentThread(), 0), TRUE, UNTOUCHED);
    ANSWERS(GetQueuedCompletionStatusEx(port, entries, 4, &removed, 0, FALSE), FALSE, WAIT_TIMEOUT);
    ANSWERS(GetQueuedCompletionStatusEx(port, entries, 4, &removed, INFINITE, TRUE), FALSE, WAIT_IO_COMPLETION);
    ANSWERS(GetQueuedCompletionStatusEx(port, entries, 0, &removed, 0, FALSE), FALSE, ERROR_INVALID_PARAMETER);
    ANSWERS(GetQueuedCompletionStatusEx(port, NULL, 1, &removed, 0, FALSE), FALSE, ERROR_INVALID_PARAMETER);
    /* What is no port, and calls of others on a port. */
    ANSWERS(PostQueuedCompletionStatus(event, 0, 0, NULL), FALSE, ERROR_INVALID_HANDLE);
    ANSWERS(PostQueuedCompletionStatus(NO_SUCH, 0, 0, NULL), FALSE, ERROR_INVALID_HANDLE);
    GETS_NONE(event, 0, ERROR_INVALID_HANDLE);
    ANSWERS(CreateIoCompletionPort(event, port, 0, 0), NULL, ERROR_INVALID_HANDLE);
    ANSWERS(CreateIoCompletionPort(INVALID_HANDLE_VALUE, port, 0, 0), NULL, ERROR_INVALID_PARAMETER);
    ANSWERS(SetEvent(port), FALSE, ERROR_ACCESS_DENIED);
    /* It goes with its last handle. */
    ANSWERS(DuplicateHandle(GetCurrentProcess(), port, GetCurrentProcess(), &same, 0, FALSE, DUPLICATE_SAME_ACCESS), TRUE, UNTOUCHED);
    must(PostQueuedCompletionStatus(port, 7, 70, NULL));
    ANSWERS(CloseHandle(port), TRUE, UNTOUCHED);
    ANSWERS(PostQueuedCompletionStatus(port, 0, 0, NULL), FALSE, ERROR_INVALID_HANDLE);
    GETS(same, 7, 70, NULL);
    must(PostQueuedCompletionStatus(same, 8, 80, NULL));
    ANSWERS(CloseHandle(same), TRUE, UNTOUCHED);
    GETS_NONE(same, 0, ERROR_INVALID_HANDLE);
    CloseHandle(event);
}

static LONG WAITER, ORDER[THREADS], CAME; /* (the first is the system's number of the thread that came last) */

static void *get_one(void *number)
{
    DWORD bytes;
    ULONG_PTR key;
    LPOVERLAPPED overlapped;
    WriteRelease(&WAITER, gettid());
    must(GetQueuedCompletionStatus(PORT, &bytes, &key, &overlapped, INFINITE));
    ORDER[key] = *(LONG *)number;
    InterlockedIncrement(&CAME);
    return NULL;
}

/* The thread that came last gets the packet. */
static void last_in_first_out(void)
{
    static LONG numbers[THREADS];
    pthread_t threads[THREADS];
    must((PORT = CreateIoCompletionPort(INVALID_HANDLE_VALUE, NULL, 0, 0)) != NULL);
    for (LONG i = 0; i < THREADS; i++) {
        numbers[i] = i;
        WAITER = 0;
        must(pthread_create(&threads[i], NULL, get_one, &numbers[i]) == 0);
        while (ReadAcquire(&WAITER) == 0)
            Sleep(1);
        wait_until_asleep(WAITER);
    }
    for (ULONG_PTR i = 0; i < THREADS; i++) {
        must(PostQueuedCompletionStatus(PORT, 0, i, NULL));
        while (ReadAcquire(&CAME) <= (LONG)i)
            Sleep(1);
    }
    for (int i = 0; i < THREADS; i++)
        must(pthread_join(threads[i], NULL) == 0);
    for (int i = 0; i < THREADS; i++)
        IS(ORDER[i], THREADS - 1 - i);
    CloseHandle(PORT);
}

static LONG64 SUM;
static LONG GOTTEN, ABANDONED;

static void *get_all(void *timed)
{
    for (;;) {
        DWORD bytes;
        ULONG_PTR key;
        LPOVERLAPPED overlapped;
        if (!GetQueuedCompletionStatus(PORT, &bytes, &key, &overlapped, timed != NULL ? 1 : INFINITE)) {
            if (GetLastError() == WAIT_TIMEOUT)
                continue;
            must(GetLastError() == ERROR_ABANDONED_WAIT_0 || GetLastError() == ERROR_INVALID_HANDLE);
            InterlockedIncrement(&ABANDONED);
            return NULL;
        }
        InterlockedExchangeAdd64(&SUM, (LONG64)key);
        InterlockedIncrement(&GOTTEN);
    }
}

static void *post_many(void *none)
{
    (void)none;
    for (ULONG_PTR i = 1; i <= PACKETS; i++)
        must(PostQueuedCompletionStatus(PORT, 0, i, NULL));
    return NULL;
}

/* Each packet is gotten once, and who waits learns that the port is closed. */
static void by_many_threads(void)
{
    pthread_t getters[THREADS], posters[THREADS];
    must((PORT = CreateIoCompletionPort(INVALID_HANDLE_VALUE, NULL, 0, 0)) != NULL);
    for (int i = 0; i < THREADS; i++) {
        must(pthread_create(&getters[i], NULL, get_all, i % 2 ? &PORT : NULL) == 0);
        must(pthread_create(&posters[i], NULL, post_many, NULL) == 0);
    }
    for (int i = 0; i < THREADS; i++)
        must(pthread_join(posters[i], NULL) == 0);
    while (ReadAcquire(&GOTTEN) < THREADS * PACKETS)
        Sleep(1);
    must(CloseHandle(PORT));
    for (int i = 0; i < THREADS; i++)
        must(pthread_join(getters[i], NULL) == 0);
    IS(GOTTEN, THREADS * PACKETS);
    IS(SUM, (LONG64)THREADS * PACKETS * (PACKETS + 1) / 2);
    IS(ABANDONED, THREADS);
}

int main(void)
{
    rows();
    last_in_first_out();
    by_many_threads();
    return counted();
}
