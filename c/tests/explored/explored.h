/* What the programs share that are run by many schedules (run). Each has a fault, and none with -DFIX. */
#ifndef EXPLORED_H
#define EXPLORED_H

#include <windows.h>
#include <stdio.h>
#include <stdlib.h>

#define UNUSED(parameter) ((void)(parameter))

/* Ends the process with status 1 where this does not hold. */
#define EXPECT(it) ((it) ? (void)0 : (void)(printf("%s:%d: not so: %s\n", __FILE__, __LINE__, #it), fflush(stdout), exit(1)))

static inline HANDLE begin(LPTHREAD_START_ROUTINE run, LPVOID parameter)
{
    return CreateThread(NULL, 0, run, parameter, 0, NULL);
}

static inline void await_all(const HANDLE *threads, DWORD count)
{
    WaitForMultipleObjects(count, threads, TRUE, INFINITE);
}

#endif
