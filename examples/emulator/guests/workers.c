/* Three workers share a counter under a mutex, a semaphore hands out jobs, and an event ends them. */
#include "say.h"

static HANDLE lock, jobs, stop;
static volatile LONG total, of_worker[3];

static DWORD WINAPI worker(void *me)
{
    HANDLE any[2] = { stop, jobs };
    while (WaitForMultipleObjects(2, any, FALSE, INFINITE) == WAIT_OBJECT_0 + 1) {
        WaitForSingleObject(lock, INFINITE);
        const LONG seen = total;
        work(50);
        total = seen + 1;
        of_worker[(size_t)me]++;
        ReleaseMutex(lock);
    }
    return 0;
}

void start(void)
{
    HANDLE threads[3];
    lock = CreateMutexA(NULL, FALSE, NULL);
    jobs = CreateSemaphoreA(NULL, 0, 1000, NULL);
    stop = CreateEventA(NULL, TRUE, FALSE, NULL);
    for (size_t i = 0; i < 3; i++)
        threads[i] = CreateThread(NULL, 0, worker, (void *)i, 0, NULL);
    ReleaseSemaphore(jobs, 300, NULL);
    while (total < 300)
        Sleep(10);
    SetEvent(stop);
    say("all ended, status ", WaitForMultipleObjects(3, threads, TRUE, 1000));
    say("jobs done ", (unsigned)total);
    say("by all workers ", (unsigned)(of_worker[0] + of_worker[1] + of_worker[2]));
    ExitProcess(7);
}
