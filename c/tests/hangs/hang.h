/* What the programs that hang share. */
#ifndef HANG_H
#define HANG_H

#include <windows.h>

#define UNUSED(parameter) ((void)(parameter))

/* Gives the object this name. */
static inline HANDLE named(HANDLE object, const char *name)
{
    ntwin_name(object, name);
    return object;
}

/* Begins a thread of this name. */
static inline HANDLE begin(LPTHREAD_START_ROUTINE run, LPVOID parameter, const char *name)
{
    HANDLE thread = named(CreateThread(NULL, 0, run, parameter, CREATE_SUSPENDED, NULL), name);
    ResumeThread(thread);
    return thread;
}

#endif
