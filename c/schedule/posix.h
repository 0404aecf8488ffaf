/* SPDX-License-Identifier: MIT OR Apache-2.0 */
/* ---- What a program calls beside Win32's names, as the system has it (posix.c). */
#ifndef NTWIN_SCHEDULE_POSIX_H
#define NTWIN_SCHEDULE_POSIX_H

#include "internal.h"
#include <poll.h>
#include <semaphore.h>
#include <sys/select.h>
#include <sys/socket.h>
#include <sys/time.h>

/* (What includes this calls the system's by `real`.) */
#undef pthread_create
#undef pthread_mutex_lock
#undef pthread_mutex_trylock
#undef pthread_mutex_unlock
#undef pthread_tryjoin_np
#undef nanosleep
#undef clock_nanosleep
#undef dlopen
#undef syscall
#undef clock_gettime

/* A call that sleeps: its name, of which object, where in the program, and what else than another thread's call ends the sleep. */
struct blocked {
    const char *call;
    const void *object, *place;
    bool (*has_come)(const void *object);
};

/* The system's functions, as the program would call them. */
struct real {
#define REAL(name) __typeof__(&name) name
    REAL(clock_gettime);
    REAL(time);
    int (*gettimeofday)(struct timeval *, void *);
    REAL(syscall);
    REAL(sched_yield);
    REAL(pthread_join);
    REAL(pthread_timedjoin_np);
    REAL(pthread_once);
    REAL(pthread_mutex_timedlock);
    REAL(pthread_barrier_init);
    REAL(pthread_barrier_destroy);
    REAL(pthread_barrier_wait);
    REAL(pthread_rwlock_rdlock);
    REAL(pthread_rwlock_wrlock);
    REAL(pthread_rwlock_tryrdlock);
    REAL(pthread_rwlock_trywrlock);
    REAL(pthread_rwlock_timedrdlock);
    REAL(pthread_rwlock_timedwrlock);
    REAL(pthread_rwlock_unlock);
    REAL(pthread_spin_lock);
    REAL(pthread_spin_trylock);
    REAL(pthread_spin_unlock);
    REAL(pthread_cond_wait);
    REAL(pthread_cond_timedwait);
    REAL(pthread_cond_signal);
    REAL(pthread_cond_broadcast);
    REAL(sem_wait);
    REAL(sem_trywait);
    REAL(sem_timedwait);
    REAL(sem_post);
    REAL(usleep);
    REAL(sleep);
    REAL(poll);
    REAL(select);
    REAL(read);
    REAL(recv);
    REAL(free);
    REAL(realloc);
    int (*__cxa_guard_acquire)(void *);
    void (*__cxa_guard_release)(void *);
    REAL(accept);
    int (*pthread_create)(pthread_t *, const pthread_attr_t *, void *(*)(void *), void *);
    int (*pthread_mutex_lock)(pthread_mutex_t *);
    int (*pthread_mutex_trylock)(pthread_mutex_t *);
    int (*pthread_mutex_unlock)(pthread_mutex_t *);
    int (*pthread_tryjoin_np)(pthread_t, void **);
    int (*nanosleep)(const struct timespec *, struct timespec *);
    int (*clock_nanosleep)(clockid_t, int, const struct timespec *, struct timespec *);
    /* (Of the C library from 2.30 on.) */
    int (*pthread_mutex_clocklock)(pthread_mutex_t *, clockid_t, const struct timespec *);
    int (*pthread_cond_clockwait)(pthread_cond_t *, pthread_mutex_t *, clockid_t, const struct timespec *);
    int (*pthread_rwlock_clockrdlock)(pthread_rwlock_t *, clockid_t, const struct timespec *);
    int (*pthread_rwlock_clockwrlock)(pthread_rwlock_t *, clockid_t, const struct timespec *);
    int (*sem_clockwait)(sem_t *, clockid_t, const struct timespec *);
    int (*pthread_clockjoin_np)(pthread_t, void **, clockid_t, const struct timespec *);
#undef REAL
};
NTW_VARIABLE struct real real;

/* Where the program has points at memory (kit/points.c), what they call. */
extern struct {
    void (*touch)(const volatile void *at, size_t size, unsigned how, const void *place);
    void (*order)(const volatile void *at, unsigned how);
} ntwin_points __attribute__((weak));

/* ---- What stands in for them in a run (stand_in.c). */

/* posix_times.c */
NTW_INTERNAL int hooked_clock_gettime(clockid_t clock, struct timespec *time);
NTW_INTERNAL int hooked_gettimeofday(struct timeval *time, void *zone);
NTW_INTERNAL time_t hooked_time(time_t *to);
NTW_INTERNAL int hooked_nanosleep(const struct timespec *time, struct timespec *left);
NTW_INTERNAL int hooked_clock_nanosleep(clockid_t clock, int flags, const struct timespec *time, struct timespec *left);
NTW_INTERNAL int hooked_usleep(useconds_t microseconds);
NTW_INTERNAL unsigned hooked_sleep(unsigned seconds);
NTW_INTERNAL int hooked_sched_yield(void);

/* posix_threads.c */
NTW_INTERNAL int hooked_pthread_create(pthread_t *thread, const pthread_attr_t *attributes, void *(*run)(void *), void *parameter);
NTW_INTERNAL int hooked_pthread_join(pthread_t thread, void **value);
NTW_INTERNAL int hooked_pthread_tryjoin_np(pthread_t thread, void **value);
NTW_INTERNAL int hooked_pthread_timedjoin_np(pthread_t thread, void **value, const struct timespec *time);
NTW_INTERNAL int hooked_pthread_clockjoin_np(pthread_t thread, void **value, clockid_t clock, const struct timespec *time);
NTW_INTERNAL int hooked_pthread_once(pthread_once_t *control, void (*routine)(void));
NTW_INTERNAL int hooked___cxa_guard_acquire(void *guard);
NTW_INTERNAL void hooked___cxa_guard_release(void *guard);
NTW_INTERNAL long hooked_syscall(long number, ...);

/* posix_locks.c */
NTW_INTERNAL int hooked_pthread_mutex_lock(pthread_mutex_t *mutex);
NTW_INTERNAL int hooked_pthread_mutex_trylock(pthread_mutex_t *mutex);
NTW_INTERNAL int hooked_pthread_mutex_timedlock(pthread_mutex_t *mutex, const struct timespec *time);
NTW_INTERNAL int hooked_pthread_mutex_clocklock(pthread_mutex_t *mutex, clockid_t clock, const struct timespec *time);
NTW_INTERNAL int hooked_pthread_mutex_unlock(pthread_mutex_t *mutex);
NTW_INTERNAL int hooked_pthread_cond_wait(pthread_cond_t *condition, pthread_mutex_t *mutex);
NTW_INTERNAL int hooked_pthread_cond_timedwait(pthread_cond_t *condition, pthread_mutex_t *mutex, const struct timespec *time);
NTW_INTERNAL int hooked_pthread_cond_clockwait(pthread_cond_t *condition, pthread_mutex_t *mutex, clockid_t clock, const struct timespec *time);
NTW_INTERNAL int hooked_pthread_cond_signal(pthread_cond_t *condition);
NTW_INTERNAL int hooked_pthread_cond_broadcast(pthread_cond_t *condition);
NTW_INTERNAL int hooked_pthread_rwlock_rdlock(pthread_rwlock_t *lock);
NTW_INTERNAL int hooked_pthread_rwlock_tryrdlock(pthread_rwlock_t *lock);
NTW_INTERNAL int hooked_pthread_rwlock_timedrdlock(pthread_rwlock_t *lock, const struct timespec *time);
NTW_INTERNAL int hooked_pthread_rwlock_clockrdlock(pthread_rwlock_t *lock, clockid_t clock, const struct timespec *time);
NTW_INTERNAL int hooked_pthread_rwlock_wrlock(pthread_rwlock_t *lock);
NTW_INTERNAL int hooked_pthread_rwlock_trywrlock(pthread_rwlock_t *lock);
NTW_INTERNAL int hooked_pthread_rwlock_timedwrlock(pthread_rwlock_t *lock, const struct timespec *time);
NTW_INTERNAL int hooked_pthread_rwlock_clockwrlock(pthread_rwlock_t *lock, clockid_t clock, const struct timespec *time);
NTW_INTERNAL int hooked_pthread_rwlock_unlock(pthread_rwlock_t *lock);
NTW_INTERNAL int hooked_pthread_spin_lock(pthread_spinlock_t *lock);
NTW_INTERNAL int hooked_pthread_spin_trylock(pthread_spinlock_t *lock);
NTW_INTERNAL int hooked_pthread_spin_unlock(pthread_spinlock_t *lock);
NTW_INTERNAL int hooked_sem_wait(sem_t *semaphore);
NTW_INTERNAL int hooked_sem_trywait(sem_t *semaphore);
NTW_INTERNAL int hooked_sem_timedwait(sem_t *semaphore, const struct timespec *time);
NTW_INTERNAL int hooked_sem_clockwait(sem_t *semaphore, clockid_t clock, const struct timespec *time);
NTW_INTERNAL int hooked_sem_post(sem_t *semaphore);
NTW_INTERNAL int hooked_pthread_barrier_init(pthread_barrier_t *at, const pthread_barrierattr_t *attributes, unsigned count);
NTW_INTERNAL int hooked_pthread_barrier_destroy(pthread_barrier_t *at);
NTW_INTERNAL int hooked_pthread_barrier_wait(pthread_barrier_t *at);

/* posix_files.c */
NTW_INTERNAL int hooked_poll(struct pollfd *files, nfds_t count, int ms);
NTW_INTERNAL int hooked_select(int count, fd_set *reads, fd_set *writes, fd_set *others, struct timeval *time);
NTW_INTERNAL ssize_t hooked_read(int file, void *to, size_t room);
NTW_INTERNAL ssize_t hooked_recv(int file, void *to, size_t room, int flags);
NTW_INTERNAL int hooked_accept(int file, __SOCKADDR_ARG address, socklen_t *length);

/* memory.c */
NTW_INTERNAL void hooked_free(void *block);
NTW_INTERNAL void *hooked_realloc(void *block, size_t size);

#endif
