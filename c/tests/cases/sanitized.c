/* What a program's own ThreadSanitizer tells, over the library as it is installed. */
#include "case.h"

/* silent_sanitizer. Within 60 s, by ThreadSanitizer: 2 passed, 0 failed.
 *
 * A program's own ThreadSanitizer says nothing of a program without a race, over the library as it is installed, for which it was not used. */

static HANDLE mutex, event;
static int shared, handed;

static DWORD hand_over(LPVOID unused)
{
    (void)unused;
    for (int i = 0; i < 1000; i++) {
        WaitForSingleObject(mutex, INFINITE);
        shared++;
        ReleaseMutex(mutex);
    }
    WaitForSingleObject(event, INFINITE);
    handed++;
    return 0;
}

int case_silent_sanitizer(void)
{
    mutex = CreateMutex(NULL, FALSE, NULL);
    event = CreateEvent(NULL, FALSE, FALSE, NULL);
    HANDLE threads[2] = { CreateThread(NULL, 0, hand_over, NULL, 0, NULL), CreateThread(NULL, 0, hand_over, NULL, 0, NULL) };
    handed = 5;
    SetEvent(event);
    WaitForMultipleObjects(2, threads, FALSE, INFINITE);
    SetEvent(event);
    WaitForMultipleObjects(2, threads, TRUE, INFINITE);
    IS(shared, 2000);
    IS(handed, 7);
    return counted();
}

/* told_race. Within 60 s, by ThreadSanitizer, racing: 1 passed, 0 failed.
 *
 * A program's own ThreadSanitizer tells a race, also over the library as it is installed: here two threads write beside a mutex, at the same
 * time. They come there by steps that order nothing. */

static int are_there;
static volatile int beside;

static DWORD race(LPVOID unused)
{
    (void)unused;
    WaitForSingleObject(mutex, INFINITE);
    ReleaseMutex(mutex);
    __atomic_fetch_add(&are_there, 1, __ATOMIC_RELAXED);
    while (__atomic_load_n(&are_there, __ATOMIC_RELAXED) < 2)
        continue;
    for (int i = 0; i < 1000; i++)
        beside++;
    return 0;
}

int case_told_race(void)
{
    mutex = CreateMutex(NULL, FALSE, NULL);
    HANDLE threads[2] = { CreateThread(NULL, 0, race, NULL, 0, NULL), CreateThread(NULL, 0, race, NULL, 0, NULL) };
    IS(WaitForMultipleObjects(2, threads, TRUE, INFINITE), WAIT_OBJECT_0);
    return counted();
}
