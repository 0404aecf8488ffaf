/* SPDX-License-Identifier: MIT OR Apache-2.0 */
/* ---- What the library itself calls of those functions that a scheduler stands in for (posix.c): it is no call of the program. (Where the library is
 * linked into the program they share the places that are written over.) Calls that are made only where there is no scheduler need none of it. */
#ifndef NTWIN_SCHEDULE_OWN_H
#define NTWIN_SCHEDULE_OWN_H

#include "../ntwin/inside.h"

#if !defined STRANDS_H && !defined HAS_NO_SCHEDULER
/* How many the caller is in. (The compiler takes it that no call of the system comes back to here.) */
NTW_VARIABLE _Thread_local volatile uint32_t own_calls __attribute__((tls_model("initial-exec")));

#define AS_OWN(call) \
    (__extension__({ \
        own_calls++; \
        const __typeof__(call) answer_ = (call); \
        own_calls--; \
        answer_; \
    }))
/* (A test may have its own of one.) */
#ifndef pthread_create
#define pthread_create(...) AS_OWN(pthread_create(__VA_ARGS__))
#endif
#ifndef pthread_mutex_lock
#define pthread_mutex_lock(...) AS_OWN(pthread_mutex_lock(__VA_ARGS__))
#endif
#ifndef pthread_mutex_trylock
#define pthread_mutex_trylock(...) AS_OWN(pthread_mutex_trylock(__VA_ARGS__))
#endif
#ifndef pthread_mutex_unlock
#define pthread_mutex_unlock(...) AS_OWN(pthread_mutex_unlock(__VA_ARGS__))
#endif
#ifndef pthread_tryjoin_np
#define pthread_tryjoin_np(...) AS_OWN(pthread_tryjoin_np(__VA_ARGS__))
#endif
#ifndef nanosleep
#define nanosleep(...) AS_OWN(nanosleep(__VA_ARGS__))
#endif
#ifndef clock_nanosleep
#define clock_nanosleep(...) AS_OWN(clock_nanosleep(__VA_ARGS__))
#endif
#ifndef dlopen
#define dlopen(...) AS_OWN(dlopen(__VA_ARGS__))
#endif
#endif

#endif
