/* Each of a hundred threads that sleep until an event is set is woken by the one call that sets it: that wakes the first 64 once it has given the
 * lock back, and the others before. */
#define _GNU_SOURCE
#include <windows.h>

#include "asleep.h"
#include "check.h"

#include <pthread.h>
#include <string.h>
#include <sys/syscall.h>
#include <unistd.h>

enum { CROWD = 100 };

static HANDLE event;
static LONG woken;
static LONG tasks[CROWD];

static void *wait_for_event(void *task)
{
    WriteRelease((LONG *)task, (LONG)syscall(SYS_gettid));
    must(WaitForSingleObject(event, INFINITE) == WAIT_OBJECT_0);
    InterlockedIncrement(&woken);
    return NULL;
}

/* All begin to wait, and the event is set once all sleep. (Each may sleep for a moment before it waits: so they are looked at twice.) */
static void wake_a_crowd(void)
{
    pthread_t threads[CROWD];
    pthread_attr_t small;
    woken = 0;
    memset(tasks, 0, sizeof tasks);
    must(pthread_attr_init(&small) == 0 && pthread_attr_setstacksize(&small, 256 * 1024) == 0);
    for (int i = 0; i < CROWD; i++)
        must(pthread_create(&threads[i], &small, wait_for_event, &tasks[i]) == 0);
    for (int look = 0; look < 2; look++) {
        usleep(5000);
        for (int i = 0; i < CROWD; i++)
            while (!is_asleep(ReadAcquire(&tasks[i])))
                usleep(1000);
    }
    SetEvent(event);
    for (int i = 0; i < CROWD; i++)
        must(pthread_join(threads[i], NULL) == 0);
    IS(woken, CROWD);
    ResetEvent(event);
}

int main(void)
{
    event = CreateEvent(NULL, TRUE, FALSE, NULL);
    for (int i = 0; i < 3; i++)
        wake_a_crowd();
    return counted();
}
