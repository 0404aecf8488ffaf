/* SPDX-License-Identifier: MIT OR Apache-2.0 */
/* ---- Locks, conditions, semaphores and barriers of POSIX. (As with sections, to give a lock back is no point before it.) */
#include "posix.h"

/* To try a lock, and whose it is: what a lock of each kind needs to be waited for. */
struct taken {
    const char *call;
    int (*attempt)(void *);
    bool (*is_callers)(const void *); /* whether to wait for it would be refused, since the caller has it; or null */
};

/* Takes it as soon as it is free, to this moment at the longest. Answers 0, ETIMEDOUT, or why it can't be taken. */
static int take_by(const struct taken *kind, void *object, uint64_t until, const void *place)
{
    const struct blocked blocked = { kind->call, object, place, NULL };
    touch(object, true);
    for (int error; (error = kind->attempt(object)) != EBUSY;) {
        tell_after(object);
        return error;
    }
    if (kind->is_callers != NULL && kind->is_callers(object))
        return EDEADLK;
    for (;;) {
        if (until <= schedule.now)
            return ETIMEDOUT;
        sleep_in(&blocked, until);
        const int error = kind->attempt(object);
        if (error != EBUSY) {
            tell_after(object);
            return error;
        }
    }
}

/* ---- Mutexes. */

static int attempt_mutex(void *mutex)
{
    return real.pthread_mutex_trylock(mutex);
}

static bool is_mutex_callers(const void *mutex)
{
    const pthread_mutex_t *it = mutex;
    return (it->__data.__kind & 3) == PTHREAD_MUTEX_ERRORCHECK && it->__data.__owner == gettid();
}

static const struct taken a_mutex = { "pthread_mutex_lock", attempt_mutex, is_mutex_callers };

NTW_INTERNAL int hooked_pthread_mutex_lock(pthread_mutex_t *mutex)
{
    if (!comes_to(mutex))
        return real.pthread_mutex_lock(mutex);
    return take_by(&a_mutex, mutex, NEVER, __builtin_return_address(0));
}

NTW_INTERNAL int hooked_pthread_mutex_trylock(pthread_mutex_t *mutex)
{
    const bool is_ours = comes_to(mutex);
    const int error = real.pthread_mutex_trylock(mutex);
    if (is_ours && error == 0)
        tell_after(mutex);
    return error;
}

NTW_INTERNAL int hooked_pthread_mutex_timedlock(pthread_mutex_t *mutex, const struct timespec *time)
{
    if (!is_time(time) || !comes_to(mutex))
        return real.pthread_mutex_timedlock(mutex, time);
    return take_by(&a_mutex, mutex, moment_by(CLOCK_REALTIME, time), __builtin_return_address(0));
}

NTW_INTERNAL int hooked_pthread_mutex_clocklock(pthread_mutex_t *mutex, clockid_t clock, const struct timespec *time)
{
    if (!is_time(time) || !is_clock_of_run(clock) || !comes_to(mutex))
        return real.pthread_mutex_clocklock(mutex, clock, time);
    return take_by(&a_mutex, mutex, moment_by(clock, time), __builtin_return_address(0));
}

static int give_mutex(pthread_mutex_t *mutex)
{
    tell_before(mutex);
    const int error = real.pthread_mutex_unlock(mutex);
    if (error == 0)
        wake_at(mutex, 1);
    return error;
}

NTW_INTERNAL int hooked_pthread_mutex_unlock(pthread_mutex_t *mutex)
{
    return is_in_run() ? give_mutex(mutex) : real.pthread_mutex_unlock(mutex);
}

/* ---- Conditions. The system's own is not touched: it has no sleepers. */

static int wait_for_condition(pthread_cond_t *condition, pthread_mutex_t *mutex, uint64_t until, const void *place)
{
    const struct blocked blocked = { "pthread_cond_wait", condition, place, NULL };
    const int error = give_mutex(mutex);
    if (error != 0)
        return error;
    const bool was_woken = until > schedule.now && sleep_in(&blocked, until);
    const int refused = take_by(&a_mutex, mutex, NEVER, place);
    return refused != 0 ? refused : was_woken ? 0 : ETIMEDOUT;
}

NTW_INTERNAL int hooked_pthread_cond_wait(pthread_cond_t *condition, pthread_mutex_t *mutex)
{
    if (!comes_to(condition))
        return real.pthread_cond_wait(condition, mutex);
    return wait_for_condition(condition, mutex, NEVER, __builtin_return_address(0));
}

/* By which clock it goes is the condition's own: a bit of it, as the C library has it. */
static clockid_t clock_of(const pthread_cond_t *condition)
{
    enum { IS_MONOTONIC = 2 };
    return (condition->__data.__wrefs & IS_MONOTONIC) != 0 ? CLOCK_MONOTONIC : CLOCK_REALTIME;
}

NTW_INTERNAL int hooked_pthread_cond_timedwait(pthread_cond_t *condition, pthread_mutex_t *mutex, const struct timespec *time)
{
    if (!is_time(time) || !comes_to(condition))
        return real.pthread_cond_timedwait(condition, mutex, time);
    return wait_for_condition(condition, mutex, moment_by(clock_of(condition), time), __builtin_return_address(0));
}

NTW_INTERNAL int hooked_pthread_cond_clockwait(pthread_cond_t *condition, pthread_mutex_t *mutex, clockid_t clock, const struct timespec *time)
{
    if (!is_time(time) || !is_clock_of_run(clock) || !comes_to(condition))
        return real.pthread_cond_clockwait(condition, mutex, clock, time);
    return wait_for_condition(condition, mutex, moment_by(clock, time), __builtin_return_address(0));
}

NTW_INTERNAL int hooked_pthread_cond_signal(pthread_cond_t *condition)
{
    if (!comes_to(condition))
        return real.pthread_cond_signal(condition);
    wake_at(condition, 1);
    return 0;
}

NTW_INTERNAL int hooked_pthread_cond_broadcast(pthread_cond_t *condition)
{
    if (!comes_to(condition))
        return real.pthread_cond_broadcast(condition);
    wake_at(condition, INT_MAX);
    return 0;
}

/* ---- Locks with readers, and spin locks. */

static bool is_rwlock_callers(const void *lock)
{
    return ((const pthread_rwlock_t *)lock)->__data.__cur_writer == gettid();
}

static int attempt_to_read(void *lock)
{
    return real.pthread_rwlock_tryrdlock(lock);
}

static int attempt_to_write(void *lock)
{
    return real.pthread_rwlock_trywrlock(lock);
}

static int attempt_spin(void *lock)
{
    return real.pthread_spin_trylock(lock);
}

static const struct taken a_read = { "pthread_rwlock_rdlock", attempt_to_read, is_rwlock_callers };
static const struct taken a_write = { "pthread_rwlock_wrlock", attempt_to_write, is_rwlock_callers };
static const struct taken a_spin = { "pthread_spin_lock", attempt_spin, NULL };

#define RWLOCK_CALLS(kind, lock_call, try_call, timed_call, clock_call) \
    NTW_INTERNAL int hooked_##lock_call(pthread_rwlock_t *lock) \
    { \
        return comes_to(lock) ? take_by(&(kind), lock, NEVER, __builtin_return_address(0)) : real.lock_call(lock); \
    } \
    NTW_INTERNAL int hooked_##try_call(pthread_rwlock_t *lock) \
    { \
        const bool is_ours = comes_to(lock); \
        const int error = real.try_call(lock); \
        if (is_ours && error == 0) \
            tell_after(lock); \
        return error; \
    } \
    NTW_INTERNAL int hooked_##timed_call(pthread_rwlock_t *lock, const struct timespec *time) \
    { \
        if (!is_time(time) || !comes_to(lock)) \
            return real.timed_call(lock, time); \
        return take_by(&(kind), lock, moment_by(CLOCK_REALTIME, time), __builtin_return_address(0)); \
    } \
    NTW_INTERNAL int hooked_##clock_call(pthread_rwlock_t *lock, clockid_t clock, const struct timespec *time) \
    { \
        if (!is_time(time) || !is_clock_of_run(clock) || !comes_to(lock)) \
            return real.clock_call(lock, clock, time); \
        return take_by(&(kind), lock, moment_by(clock, time), __builtin_return_address(0)); \
    }

RWLOCK_CALLS(a_read, pthread_rwlock_rdlock, pthread_rwlock_tryrdlock, pthread_rwlock_timedrdlock, pthread_rwlock_clockrdlock)
RWLOCK_CALLS(a_write, pthread_rwlock_wrlock, pthread_rwlock_trywrlock, pthread_rwlock_timedwrlock, pthread_rwlock_clockwrlock)

NTW_INTERNAL int hooked_pthread_rwlock_unlock(pthread_rwlock_t *lock)
{
    if (!is_in_run())
        return real.pthread_rwlock_unlock(lock);
    tell_before(lock);
    const int error = real.pthread_rwlock_unlock(lock);
    wake_at(lock, INT_MAX);
    return error;
}

NTW_INTERNAL int hooked_pthread_spin_lock(pthread_spinlock_t *lock)
{
    if (!comes_to(lock))
        return real.pthread_spin_lock(lock);
    return take_by(&a_spin, (void *)(uintptr_t)lock, NEVER, __builtin_return_address(0));
}

NTW_INTERNAL int hooked_pthread_spin_trylock(pthread_spinlock_t *lock)
{
    const bool is_ours = comes_to(lock);
    const int error = real.pthread_spin_trylock(lock);
    if (is_ours && error == 0)
        tell_after((const void *)(uintptr_t)lock);
    return error;
}

NTW_INTERNAL int hooked_pthread_spin_unlock(pthread_spinlock_t *lock)
{
    if (!is_in_run())
        return real.pthread_spin_unlock(lock);
    tell_before((const void *)(uintptr_t)lock);
    const int error = real.pthread_spin_unlock(lock);
    wake_at((const void *)(uintptr_t)lock, 1);
    return error;
}

/* ---- Semaphores. */

static int attempt_semaphore(void *semaphore)
{
    const int error = errno;
    if (real.sem_trywait(semaphore) == 0)
        return 0;
    const int refused = errno == EAGAIN ? EBUSY : errno;
    errno = error;
    return refused;
}

static const struct taken a_semaphore = { "sem_wait", attempt_semaphore, NULL };

static int wait_for_semaphore(sem_t *semaphore, uint64_t until, const void *place)
{
    const int error = take_by(&a_semaphore, semaphore, until, place);
    if (error == 0)
        return 0;
    errno = error;
    return -1;
}

NTW_INTERNAL int hooked_sem_wait(sem_t *semaphore)
{
    return comes_to(semaphore) ? wait_for_semaphore(semaphore, NEVER, __builtin_return_address(0)) : real.sem_wait(semaphore);
}

NTW_INTERNAL int hooked_sem_trywait(sem_t *semaphore)
{
    const bool is_ours = comes_to(semaphore);
    const int answer = real.sem_trywait(semaphore);
    if (is_ours && answer == 0)
        tell_after(semaphore);
    return answer;
}

NTW_INTERNAL int hooked_sem_timedwait(sem_t *semaphore, const struct timespec *time)
{
    if (!is_time(time) || !comes_to(semaphore))
        return real.sem_timedwait(semaphore, time);
    return wait_for_semaphore(semaphore, moment_by(CLOCK_REALTIME, time), __builtin_return_address(0));
}

NTW_INTERNAL int hooked_sem_clockwait(sem_t *semaphore, clockid_t clock, const struct timespec *time)
{
    if (!is_time(time) || !is_clock_of_run(clock) || !comes_to(semaphore))
        return real.sem_clockwait(semaphore, clock, time);
    return wait_for_semaphore(semaphore, moment_by(clock, time), __builtin_return_address(0));
}

NTW_INTERNAL int hooked_sem_post(sem_t *semaphore)
{
    if (!comes_to(semaphore))
        return real.sem_post(semaphore);
    tell_before(semaphore);
    const int answer = real.sem_post(semaphore);
    wake_at(semaphore, 1);
    return answer;
}

/* ---- Barriers. How many a barrier waits for, and how many have come, stands beside it: the system's own is not touched. */

struct counted_barrier {
    const pthread_barrier_t *at;
    uint32_t wanted, come;
    struct counted_barrier *next;
};

static struct counted_barrier *barriers;

static struct counted_barrier **find_barrier(const pthread_barrier_t *at)
{
    struct counted_barrier **it = &barriers;
    while (*it != NULL && (*it)->at != at)
        it = &(*it)->next;
    return it;
}

static void forget_barrier(const pthread_barrier_t *at)
{
    struct counted_barrier **place = find_barrier(at), *it = *place;
    if (it != NULL)
        *place = it->next;
    free(it);
}

NTW_INTERNAL int hooked_pthread_barrier_init(pthread_barrier_t *at, const pthread_barrierattr_t *attributes, unsigned count)
{
    const int error = real.pthread_barrier_init(at, attributes, count);
    if (error != 0 || !is_in_run())
        return error;
    forget_barrier(at);
    struct counted_barrier *it = malloc(sizeof *it);
    if (it == NULL)
        return ENOMEM;
    *it = (struct counted_barrier){ at, count, 0, barriers };
    barriers = it;
    return 0;
}

NTW_INTERNAL int hooked_pthread_barrier_destroy(pthread_barrier_t *at)
{
    if (is_in_run())
        forget_barrier(at);
    return real.pthread_barrier_destroy(at);
}

NTW_INTERNAL int hooked_pthread_barrier_wait(pthread_barrier_t *at)
{
    const struct blocked blocked = { "pthread_barrier_wait", at, __builtin_return_address(0), NULL };
    struct counted_barrier *it = is_in_run() ? *find_barrier(at) : NULL;
    if (it == NULL || !comes_to(at))
        return real.pthread_barrier_wait(at);
    tell_before(at);
    const bool is_last = ++it->come == it->wanted;
    if (is_last) {
        it->come = 0;
        wake_at(at, INT_MAX);
    } else {
        sleep_in(&blocked, NEVER);
    }
    tell_after(at);
    return is_last ? PTHREAD_BARRIER_SERIAL_THREAD : 0;
}
