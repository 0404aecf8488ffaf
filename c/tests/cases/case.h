/* What the cases share. Each case is a program of its own, which shows one thing at the library's edges: a correct program does not hang,
 * crash or get a wrong answer there. Its head says within which time it ends, and what it writes (cases/run). */
#ifndef CASE_H
#define CASE_H

#ifndef _GNU_SOURCE
#define _GNU_SOURCE
#endif
#include <windows.h>

#include "../asleep.h"
#include "../check.h"

#include <errno.h>
#include <limits.h>
#include <pthread.h>
#include <sched.h>
#include <signal.h>
#include <string.h>
#include <sys/wait.h>
#include <time.h>
#include <unistd.h>

/* Whether the case is built with ThreadSanitizer. */
#if defined __has_feature
#if __has_feature(thread_sanitizer)
#define HAS_THREAD_SANITIZER 1
#endif
#elif defined __SANITIZE_THREAD__
#define HAS_THREAD_SANITIZER 1
#endif
#ifndef HAS_THREAD_SANITIZER
#define HAS_THREAD_SANITIZER 0
#endif

/* For a function that stands in the place of one of the system's, which a sanitizer calls before it has begun. */
#if defined __clang__
#define UNSANITIZED __attribute__((disable_sanitizer_instrumentation))
#else
#define UNSANITIZED __attribute__((no_sanitize("address", "thread", "undefined")))
#endif

/* The monotonic clock, in ms. */
static inline double now_ms(void)
{
    struct timespec now;
    clock_gettime(CLOCK_MONOTONIC, &now);
    return (double)now.tv_sec * 1e3 + (double)now.tv_nsec / 1e6;
}

/* Sleeps by no call of the library. */
static inline void rest_ms(long ms)
{
    const struct timespec time = { ms / 1000, ms % 1000 * 1000000 };
    nanosleep(&time, NULL);
}

/* Waits by no call of the library until the flag is up. */
static inline void await(LONG *flag)
{
    while (InterlockedExchangeAdd(flag, 0) == 0)
        rest_ms(1);
}

static inline void raise_flag(LONG *flag)
{
    InterlockedExchange(flag, 1);
}

/* Whether the handle names nothing. */
static inline int is_closed(HANDLE handle)
{
    SetLastError(0);
    return WaitForSingleObject(handle, 0) == WAIT_FAILED && GetLastError() == ERROR_INVALID_HANDLE;
}

/* The process runs on one processor from now on, of those that it may run on. */
static inline void keep_to_one_processor(void)
{
    cpu_set_t may, one;
    int first = 0;
    must(sched_getaffinity(0, sizeof may, &may) == 0);
    while (!CPU_ISSET(first, &may))
        first++;
    CPU_ZERO(&one);
    CPU_SET(first, &one);
    must(sched_setaffinity(0, sizeof one, &one) == 0);
}

/* The caller is a real-time thread of this priority from now on, or a usual one for 0. */
static inline void set_priority(int priority)
{
    const struct sched_param wanted = { priority };
    if (sched_setscheduler(0, priority > 0 ? SCHED_FIFO : SCHED_OTHER, &wanted) == 0)
        return;
    puts("no real-time threads are allowed here");
    fflush(stdout);
    _exit(77);
}

#endif
