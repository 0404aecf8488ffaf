/* Two producers put numbers into a ring of eight places, and a consumer takes them out. One semaphore counts the free places, another
 * the numbers that are there, and a mutex guards the ring. The consumer takes a number and the mutex in one wait for all, so it never
 * holds the mutex while the ring is empty. */
#include <windows.h>

#include <stdio.h>

enum { PLACES = 8, PRODUCERS = 2, NUMBERS = 1000 };

static HANDLE FREE, THERE, MUTEX;
static int RING[PLACES];
static unsigned PUT, TAKEN;

static DWORD WINAPI produce(LPVOID first)
{
    for (int i = 0; i < NUMBERS; i++) {
        HANDLE place_and_mutex[2] = { FREE, MUTEX };
        if (WaitForMultipleObjects(2, place_and_mutex, TRUE, INFINITE) != WAIT_OBJECT_0)
            return 1;
        RING[PUT++ % PLACES] = *(const int *)first + i;
        ReleaseMutex(MUTEX);
        ReleaseSemaphore(THERE, 1, NULL);
    }
    return 0;
}

int main(void)
{
    static const int firsts[PRODUCERS] = { 0, NUMBERS };
    HANDLE producers[PRODUCERS];
    long sum = 0;

    FREE = CreateSemaphore(NULL, PLACES, PLACES, NULL);
    THERE = CreateSemaphore(NULL, 0, PLACES, NULL);
    MUTEX = CreateMutex(NULL, FALSE, NULL);
    if (FREE == NULL || THERE == NULL || MUTEX == NULL) {
        printf("no objects: error %u\n", GetLastError());
        return 1;
    }
    for (int i = 0; i < PRODUCERS; i++)
        producers[i] = CreateThread(NULL, 0, produce, (LPVOID)&firsts[i], 0, NULL);

    for (int i = 0; i < PRODUCERS * NUMBERS; i++) {
        HANDLE number_and_mutex[2] = { THERE, MUTEX };
        if (WaitForMultipleObjects(2, number_and_mutex, TRUE, INFINITE) != WAIT_OBJECT_0)
            return 1;
        sum += RING[TAKEN++ % PLACES];
        ReleaseMutex(MUTEX);
        ReleaseSemaphore(FREE, 1, NULL);
    }

    WaitForMultipleObjects(PRODUCERS, producers, TRUE, INFINITE);
    printf("%u numbers put, %u taken, their sum %ld\n", PUT, TAKEN, sum);
    for (int i = 0; i < PRODUCERS; i++)
        CloseHandle(producers[i]);
    CloseHandle(FREE);
    CloseHandle(THERE);
    CloseHandle(MUTEX);
    return 0;
}
