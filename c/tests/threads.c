/* Many threads over ntwin.h: sums under a mutex, a bounded queue, a relay, APCs, an abandoned mutex; 64 threads on one mutex; and
 * hand-overs from one thread to another and back, of which none is lost. Words: how many hand-overs. */
#include <windows.h>

#include "check.h"

#include <stdlib.h>

#ifndef ROUNDS
#define ROUNDS 2000
#endif

enum { WORKERS = 8, CROWD = 64, SLOTS = 16, APCS = 10 };

static HANDLE GO, MUTEX, SLOTS_LEFT, ITEMS, DONE[WORKERS], RELAY[WORKERS];
static LONGLONG TOTAL, PUT, GOT, LAPS, APC_SUM;
static int QUEUE[SLOTS];
static unsigned HEAD, TAIL;

static void put(int value)
{
    HANDLE both[2] = { SLOTS_LEFT, MUTEX };
    must(WaitForMultipleObjects(2, both, TRUE, INFINITE) == WAIT_OBJECT_0);
    QUEUE[HEAD++ % SLOTS] = value;
    PUT += value;
    must(ReleaseMutex(MUTEX) && ReleaseSemaphore(ITEMS, 1, NULL));
}

static void get(void)
{
    HANDLE both[2] = { ITEMS, MUTEX };
    must(WaitForMultipleObjects(2, both, TRUE, INFINITE) == WAIT_OBJECT_0);
    GOT += QUEUE[TAIL++ % SLOTS];
    must(ReleaseMutex(MUTEX) && ReleaseSemaphore(SLOTS_LEFT, 1, NULL));
}

static void add_apc(ULONG_PTR more)
{
    APC_SUM += (LONGLONG)more;
}

/* Sums under the mutex, puts or gets, runs in the relay, takes APCs if it is the third, and abandons the mutex if it is the fifth. */
static DWORD work(LPVOID at)
{
    const int me = (int)(intptr_t)at;
    must(WaitForSingleObject(GO, INFINITE) == WAIT_OBJECT_0);
    for (int i = 0; i < ROUNDS; i++) {
        must(WaitForSingleObject(MUTEX, INFINITE) == WAIT_OBJECT_0);
        TOTAL += i;
        must(ReleaseMutex(MUTEX));
        if (me % 2)
            put(i);
        else
            get();
    }
    for (int i = 0; i < ROUNDS; i++) {
        must(WaitForSingleObject(RELAY[me], INFINITE) == WAIT_OBJECT_0);
        LAPS++;
        must(SetEvent(RELAY[(me + 1) % WORKERS]));
    }
    while (me == 3 && APC_SUM < APCS * 100)
        must(SleepEx(INFINITE, TRUE) == WAIT_IO_COMPLETION);
    if (me == 5)
        must(WaitForSingleObject(MUTEX, INFINITE) == WAIT_OBJECT_0);
    must(SetEvent(DONE[me]));
    return 0;
}

static void workers(void)
{
    HANDLE threads[WORKERS];
    const LONGLONG each = (LONGLONG)ROUNDS * (ROUNDS - 1) / 2;
    GO = CreateEvent(NULL, TRUE, FALSE, NULL);
    MUTEX = CreateMutex(NULL, FALSE, NULL);
    SLOTS_LEFT = CreateSemaphore(NULL, SLOTS, SLOTS, NULL);
    ITEMS = CreateSemaphore(NULL, 0, SLOTS, NULL);
    for (int i = 0; i < WORKERS; i++) {
        DONE[i] = CreateEvent(NULL, TRUE, FALSE, NULL);
        RELAY[i] = CreateEvent(NULL, FALSE, i == 0, NULL);
    }
    for (int i = 0; i < WORKERS; i++)
        threads[i] = CreateThread(NULL, 0, work, (LPVOID)(intptr_t)i, 0, NULL);
    IS(SetEvent(GO), TRUE);
    for (int i = 0; i < APCS; i++) {
        Sleep(1);
        IS(QueueUserAPC(add_apc, threads[3], 100) != 0, 1);
    }
    IS(WaitForMultipleObjects(WORKERS, DONE, TRUE, INFINITE), WAIT_OBJECT_0);
    IS(WaitForMultipleObjects(WORKERS, threads, TRUE, INFINITE), WAIT_OBJECT_0);
    IS(WaitForSingleObject(MUTEX, 0), WAIT_ABANDONED_0);
    IS(TOTAL, WORKERS * each);
    IS(PUT, WORKERS / 2 * each);
    IS(GOT, WORKERS / 2 * each);
    IS(LAPS, WORKERS * ROUNDS);
    IS(APC_SUM, APCS * 100);
}

static LONGLONG CROWDED;

static DWORD crowd(LPVOID mutex)
{
    for (int i = 0; i < 200; i++) {
        must(WaitForSingleObject(mutex, 60000) == WAIT_OBJECT_0);
        CROWDED++;
        must(ReleaseMutex(mutex));
    }
    return 0;
}

static void crowds(void)
{
    HANDLE threads[CROWD], mutex = CreateMutex(NULL, TRUE, NULL);
    for (int i = 0; i < CROWD; i++)
        threads[i] = CreateThread(NULL, 65536, crowd, mutex, 0, NULL);
    IS(ReleaseMutex(mutex), TRUE);
    IS(WaitForMultipleObjects(CROWD, threads, TRUE, INFINITE), WAIT_OBJECT_0);
    IS(CROWDED, CROWD * 200);
}

static HANDLE THERE, BACK;
static LONG HAND_OVERS;

static DWORD answer(LPVOID unused)
{
    (void)unused;
    for (LONG i = 0; i < HAND_OVERS; i++)
        must(SignalObjectAndWait(BACK, THERE, INFINITE, FALSE) == WAIT_OBJECT_0);
    must(SetEvent(BACK));
    return 0;
}

/* Each hand-over is a wake-up there and one back: a lost one would leave both asleep. */
static void hand_overs(void)
{
    THERE = CreateEvent(NULL, FALSE, FALSE, NULL);
    BACK = CreateEvent(NULL, FALSE, FALSE, NULL);
    HANDLE thread = CreateThread(NULL, 0, answer, NULL, 0, NULL);
    IS(WaitForSingleObject(BACK, INFINITE), WAIT_OBJECT_0);
    for (LONG i = 0; i < HAND_OVERS; i++)
        must(SignalObjectAndWait(THERE, BACK, INFINITE, FALSE) == WAIT_OBJECT_0);
    IS(WaitForSingleObject(thread, INFINITE), WAIT_OBJECT_0);
    IS(WaitForSingleObject(BACK, 0), WAIT_TIMEOUT);
}

int main(int count, char **words)
{
    HAND_OVERS = count > 1 ? atoi(words[1]) : 100000;
    workers();
    crowds();
    hand_overs();
    return counted();
}
