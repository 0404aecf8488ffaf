/* What the parts of bench/users share: users_objects.c, users_locks.c and users_threads.c are compiled over c/win, over WinPR (-DOVER_WINPR), or
   for Wine; users_posix.c is what a program on POSIX would write instead (-DOVER_POSIX), or one with a lock in the order of arrival (-DOVER_FIFO). */
#ifndef USERS_H
#define USERS_H

#define _GNU_SOURCE
#if defined OVER_WINPR
#include <winpr/handle.h>
#include <winpr/pool.h>
#include <winpr/synch.h>
#include <winpr/sysinfo.h>
#include <winpr/thread.h>
#define GetCurrentThread _GetCurrentThread
#elif !defined OVER_POSIX && !defined OVER_FIFO
#include <windows.h>
#endif
#include <stdbool.h>
#include <stddef.h>
#include <stdint.h>
#include <stdio.h>
#include <stdlib.h>
#include <string.h>
#include <time.h>

enum { MANY = 64, TURNS = 20 };

/* How many rounds were asked for. */
extern uint64_t ROUNDS;

/* A shape of calls: it makes ROUNDS rounds, and tells under that name what they took. */
struct shape {
    const char *name;
    void (*run)(const char *name);
};

/* Ends the program where this does not hold. */
void must(bool holds);

/* A moment, and how long all processors have worked for the process by then, in nanoseconds. */
struct moment {
    uint64_t time, used;
};
struct moment now(void);

/* Tells what that number of calls took since then. */
void tell_since(const char *what, uint64_t calls, struct moment began);
void tell(const char *what, uint64_t calls, struct moment took);

/* Makes a round, which is a number of calls, ROUNDS times, and this several times over; tells the least time. (Another process may take the
   processor in the midst of one.) */
#define TIME(what, calls, ...) \
    do { \
        struct moment least = { UINT64_MAX, UINT64_MAX }; \
        for (int turn = 0; turn < TURNS; turn++) { \
            const struct moment began = now(); \
            for (uint64_t i = 0; i < ROUNDS; i++) \
                must(__VA_ARGS__); \
            const struct moment ended = now(); \
            if (ended.time - began.time < least.time) \
                least = (struct moment){ ended.time - began.time, ended.used - began.used }; \
        } \
        tell(what, (calls)*ROUNDS, least); \
    } while (0)

#if !defined OVER_POSIX && !defined OVER_FIFO
/* A manual-reset event. (WinPR resets no event by itself.) */
HANDLE event(BOOL set);
HANDLE semaphore(void);
bool take(HANDLE it);
HANDLE start(LPTHREAD_START_ROUTINE what, void *with);

/* A thread that waits, as there mostly is one where a program needs such objects, and its end. */
HANDLE start_to_rest(void);
void end_rest(HANDLE thread);
#endif

#endif
