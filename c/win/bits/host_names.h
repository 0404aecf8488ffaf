/* SPDX-License-Identifier: MIT OR Apache-2.0 */
/* (Between this and host_names_end.h the C library's types of threads have other names: a source for Windows may have its own of these names.) */
#define pthread_t ntwin_host_pthread_t
#define pthread_attr_t ntwin_host_pthread_attr_t
#define pthread_mutex_t ntwin_host_pthread_mutex_t
#define pthread_mutexattr_t ntwin_host_pthread_mutexattr_t
#define pthread_cond_t ntwin_host_pthread_cond_t
#define pthread_condattr_t ntwin_host_pthread_condattr_t
#define pthread_key_t ntwin_host_pthread_key_t
#define pthread_once_t ntwin_host_pthread_once_t
#define pthread_rwlock_t ntwin_host_pthread_rwlock_t
#define pthread_rwlockattr_t ntwin_host_pthread_rwlockattr_t
#define pthread_spinlock_t ntwin_host_pthread_spinlock_t
#define pthread_barrier_t ntwin_host_pthread_barrier_t
#define pthread_barrierattr_t ntwin_host_pthread_barrierattr_t
