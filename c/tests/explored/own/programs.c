/* Programs by which run tries what holds of each run. The main function of the program NAME is main_of_NAME. */
#ifndef _GNU_SOURCE
#define _GNU_SOURCE
#endif
#include "../explored.h"

#include <fcntl.h>
#include <pthread.h>
#include <signal.h>
#include <string.h>
#include <sys/time.h>
#include <sys/wait.h>
#include <unistd.h>

enum { THREADS = 3, ROUNDS = 4, HOUR = 3600000, TO_LOOK = 100, MOST_FILES = 32 };

/* Sets the event of a thread of its own, as often as `others` says. */
static int others = 1;

static DWORD WINAPI set_often(LPVOID event)
{
    for (int i = 0; i < others; i++)
        SetEvent(event);
    return 0;
}

static DWORD WINAPI wait_for(LPVOID event)
{
    return WaitForSingleObject(event, INFINITE);
}

/* 100 interlocked calls of one thread. */
int main_of_counts(void)
{
    static volatile LONG count;
    for (int i = 0; i < 49; i++) {
        InterlockedIncrement(&count);
        InterlockedCompareExchange(&count, 0, 100);
    }
    InterlockedExchangeAdd(&count, 1);
    return InterlockedAnd(&count, -1) == 50 ? 0 : 1;
}

/* Each process of it is another one: it makes one call more each time. */
int main_of_differs(int count, char **words)
{
    HANDLE event = CreateEventA(NULL, TRUE, FALSE, NULL), other = begin(set_often, event);
    FILE *file = fopen(count > 1 ? words[1] : "/dev/null", "a+");
    fputc('.', file);
    const long calls = ftell(file) % 3;
    fclose(file);
    for (long i = 0; i < calls; i++)
        SetEvent(event);
    WaitForSingleObject(other, INFINITE);
    return 0;
}

/* It closes all that it did not open, opens a file again and again, calls, and goes to another folder. */
int main_of_closes_all(int count, char **words)
{
    HANDLE event = CreateEventA(NULL, TRUE, FALSE, NULL);
    for (int i = 3; i < MOST_FILES; i++)
        close(i);
    for (int i = 3; i < MOST_FILES; i++)
        EXPECT(open(count > 1 ? words[1] : "/dev/null", O_WRONLY | O_CREAT | O_TRUNC | O_APPEND, 0666) == i);
    SetEvent(event);
    EXPECT(chdir("/proc") == 0);
    return 0;
}

/* A child ends as its only thread does, beside one that waits. */
int main_of_ends_in_child(void)
{
    int status = -1;
    HANDLE event = CreateEventA(NULL, TRUE, FALSE, NULL), other = begin(wait_for, event);
    Sleep(1);
    const pid_t child = fork();
    if (child == 0)
        pthread_exit(NULL);
    EXPECT(waitpid(child, &status, 0) == child && status == 0);
    SetEvent(event);
    WaitForSingleObject(other, INFINITE);
    return 0;
}

/* It sleeps for an hour, and fails where that is not what the clock says. */
int main_of_hour(void)
{
    const ULONGLONG before = GetTickCount64();
    Sleep(HOUR);
    const ULONGLONG slept = GetTickCount64() - before;
    EXPECT(slept >= HOUR && slept < HOUR + TO_LOOK);
    return 0;
}

static volatile LONG is_done;

static DWORD WINAPI sleep_for_good(LPVOID unused)
{
    UNUSED(unused);
    while (!is_done)
        Sleep(1);
    return 0;
}

/* It never ends: a thread sleeps again and again, or, where a word says so, looks at a variable for good. */
int main_of_never_ends(int count, char **words)
{
    UNUSED(words);
    HANDLE worker = begin(sleep_for_good, NULL);
    while (count > 1 && !is_done)
        continue;
    WaitForSingleObject(worker, INFINITE);
    return 0;
}

static DWORD WINAPI set_for_good(LPVOID event)
{
    while (!is_done)
        SetEvent(event);
    return 0;
}

/* Three threads never end, of which each can go on at every point. */
int main_of_set_for_good(void)
{
    HANDLE event = CreateEventA(NULL, TRUE, FALSE, NULL);
    begin(set_for_good, event);
    begin(set_for_good, event);
    return (int)set_for_good(event);
}

static CRITICAL_SECTION section;

static DWORD WINAPI set_in_section(LPVOID event)
{
    EnterCriticalSection(&section);
    SetEvent(event);
    LeaveCriticalSection(&section);
    return 0;
}

/* Three threads each enter a section, make a call in it, and leave it. */
int main_of_one_section(void)
{
    HANDLE threads[THREADS], event = CreateEventA(NULL, TRUE, FALSE, NULL);
    InitializeCriticalSection(&section);
    for (int i = 0; i < THREADS; i++)
        threads[i] = begin(set_in_section, event);
    await_all(threads, THREADS);
    DeleteCriticalSection(&section);
    return 0;
}

/* It fails where what it reads does not begin with the word that it is given. */
int main_of_reads_input(int count, char **words)
{
    char line[64] = "";
    HANDLE event = CreateEventA(NULL, TRUE, FALSE, NULL);
    SetEvent(event);
    if (fgets(line, sizeof line, stdin) == NULL)
        strcpy(line, "nothing");
    printf("%s", line);
    return count < 2 || strncmp(line, words[1], strlen(words[1])) != 0;
}

/* One thread, which makes 1,000 calls, or as many as the word says. */
int main_of_thousand(int count, char **words)
{
    const int calls = count > 1 ? atoi(words[1]) : 1000;
    HANDLE event = CreateEventA(NULL, TRUE, FALSE, NULL);
    for (int i = 1; i < calls; i++)
        SetEvent(event);
    return 0;
}

static HANDLE rung;

static void ring(int unused)
{
    UNUSED(unused);
    SetEvent(rung);
}

/* What handles alarms sets an event, for which one thread waits and another for that one. (One call of it may be refused, so there are more.) */
int main_of_rings(void)
{
    const struct sigaction rings = { .sa_handler = ring };
    const struct itimerval soon = { .it_value.tv_usec = 20000, .it_interval.tv_usec = 20000 };
    rung = CreateEventA(NULL, TRUE, FALSE, NULL);
    HANDLE other = begin(wait_for, rung);
    EXPECT(sigaction(SIGALRM, &rings, NULL) == 0);
    EXPECT(setitimer(ITIMER_REAL, &soon, NULL) == 0 && WaitForSingleObject(other, INFINITE) == WAIT_OBJECT_0);
    return 0;
}

static HANDLE lock, timer;

static DWORD WINAPI write_by_turns(LPVOID at)
{
    for (int i = 0; i < ROUNDS; i++) {
        WaitForSingleObject(lock, INFINITE);
        printf("%d %d %llu\n", (int)(intptr_t)at, i, (unsigned long long)GetTickCount64());
        ReleaseMutex(lock);
        WaitForSingleObject(timer, 1 + (DWORD)i);
    }
    return 0;
}

/* Three threads take turns as the schedule has it, and what is written goes by that. */
int main_of_three_writers(void)
{
    HANDLE threads[THREADS];
    LARGE_INTEGER due = { .QuadPart = -30000 };
    lock = CreateMutexA(NULL, FALSE, NULL);
    timer = CreateWaitableTimerA(NULL, FALSE, NULL);
    SetWaitableTimer(timer, &due, 2, NULL, NULL, FALSE);
    for (int i = 0; i < THREADS; i++)
        threads[i] = begin(write_by_turns, (LPVOID)(intptr_t)i);
    await_all(threads, THREADS);
    return 0;
}

/* Main and another thread, each with events of its own, make as many calls as the two words say. */
int main_of_two_threads(int count, char **words)
{
    const int calls = count > 1 ? atoi(words[1]) : 0;
    HANDLE mine = CreateEventA(NULL, TRUE, FALSE, NULL), event = CreateEventA(NULL, TRUE, FALSE, NULL);
    others = count > 2 ? atoi(words[2]) : 0;
    HANDLE other = begin(set_often, event);
    for (int i = 0; i < calls; i++)
        SetEvent(mine);
    WaitForSingleObject(other, INFINITE);
    return 0;
}
