/* SPDX-License-Identifier: MIT OR Apache-2.0 */
/* The C runtime's own calls for threads. */
#ifndef NTWIN_PROCESS_H
#define NTWIN_PROCESS_H

#include "windef.h"

#ifdef __cplusplus
extern "C" {
#endif

typedef void(__cdecl *_beginthread_proc_type)(void *argument);
typedef unsigned(__stdcall *_beginthreadex_proc_type)(void *argument);

/* A thread's handle, which the caller closes; 0 and errno where there is none: EINVAL, EAGAIN (too many threads) or ENOMEM. */
uintptr_t _beginthreadex(void *attributes, unsigned stack, _beginthreadex_proc_type start, void *argument, unsigned flags, unsigned *id);
void _endthreadex(unsigned code) __attribute__((noreturn));
/* The same, but the handle is closed as the thread ends; -1 and errno where there is none. */
uintptr_t _beginthread(_beginthread_proc_type start, unsigned stack, void *argument);
void _endthread(void) __attribute__((noreturn));
int _getpid(void);

/* The last error of the call of these that failed last in this thread. (`unsigned long` has 64 bits here.) */
unsigned long *ntwin_doserrno(void);
#define _doserrno (*ntwin_doserrno())

static __inline__ __attribute__((__unused__)) int _get_doserrno(unsigned long *error)
{
    *error = _doserrno;
    return 0;
}

static __inline__ __attribute__((__unused__)) int _set_doserrno(unsigned long error)
{
    _doserrno = error;
    return 0;
}

#ifdef __cplusplus
}
#endif

#endif
