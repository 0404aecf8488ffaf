/* A pool of five threads computes the squares of 100 numbers. A semaphore hands out the work; each thread ends once it finds none left;
 * and the main thread waits for all of them. */
#include <windows.h>

#include <stdio.h>

enum { THREADS = 5, NUMBERS = 100 };

static HANDLE WORK;
static LONG NEXT = -1;
static long long SQUARES[NUMBERS];

static DWORD WINAPI square(LPVOID unused)
{
    (void)unused;
    while (WaitForSingleObject(WORK, 0) == WAIT_OBJECT_0) {
        LONG mine = InterlockedIncrement(&NEXT);
        SQUARES[mine] = (long long)mine * mine;
    }
    return 0;
}

int main(void)
{
    HANDLE pool[THREADS];
    long long sum = 0;

    WORK = CreateSemaphore(NULL, NUMBERS, NUMBERS, NULL);
    for (int i = 0; i < THREADS; i++) {
        pool[i] = CreateThread(NULL, 0, square, NULL, 0, NULL);
        if (pool[i] == NULL) {
            printf("no thread: error %u\n", GetLastError());
            return 1;
        }
    }
    if (WaitForMultipleObjects(THREADS, pool, TRUE, INFINITE) != WAIT_OBJECT_0)
        return 1;
    for (int i = 0; i < NUMBERS; i++)
        sum += SQUARES[i];
    printf("all %d threads have ended; the sum of the squares of 0 to %d is %lld\n", THREADS, NUMBERS - 1, sum);
    for (int i = 0; i < THREADS; i++)
        CloseHandle(pool[i]);
    CloseHandle(WORK);
    return 0;
}
