/* SPDX-License-Identifier: MIT OR Apache-2.0 */
/* The C library's own header. With _WIN32 it gives the names back that bits/pthreadtypes.h takes from its types. */
#pragma GCC system_header
#if defined _WIN32 && !defined NTWIN_GIVES_THREADS
#define NTWIN_GIVES_THREADS
#include "bits/host_names.h"
#include_next <pthread.h>
#ifdef __cplusplus
extern "C" {
#endif
#include_next <bits/sigthread.h>
#ifdef __cplusplus
}
#endif
#include "bits/host_names_end.h"
typedef ntwin_host_pthread_t pthread_t;
typedef ntwin_host_pthread_attr_t pthread_attr_t;
typedef ntwin_host_pthread_mutex_t pthread_mutex_t;
typedef ntwin_host_pthread_mutexattr_t pthread_mutexattr_t;
typedef ntwin_host_pthread_cond_t pthread_cond_t;
typedef ntwin_host_pthread_condattr_t pthread_condattr_t;
typedef ntwin_host_pthread_key_t pthread_key_t;
typedef ntwin_host_pthread_once_t pthread_once_t;
typedef ntwin_host_pthread_rwlock_t pthread_rwlock_t;
typedef ntwin_host_pthread_rwlockattr_t pthread_rwlockattr_t;
typedef ntwin_host_pthread_spinlock_t pthread_spinlock_t;
typedef ntwin_host_pthread_barrier_t pthread_barrier_t;
typedef ntwin_host_pthread_barrierattr_t pthread_barrierattr_t;
#else
#include_next <pthread.h>
#endif
