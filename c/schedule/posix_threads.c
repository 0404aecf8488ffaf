/* SPDX-License-Identifier: MIT OR Apache-2.0 */
/* ---- Threads of POSIX: they are made, and waited for. */
#include "posix.h"

/* What a thread that pthread_create makes is to run, and as whom. */
struct beginning {
    struct scheduled *thread;
    void *(*run)(void *);
    void *parameter;
};

static void *run_from_beginning(void *at)
{
    const struct beginning beginning = *(const struct beginning *)at;
    (real.free)(at);
    beginning.thread->skips = 1; /* (To begin is its first point.) */
    take_part(beginning.thread);
    come_to(AT_CALL);
    begin_in_memory(beginning.thread);
    return beginning.run(beginning.parameter);
}

NTW_INTERNAL int hooked_pthread_create(pthread_t *thread, const pthread_attr_t *attributes, void *(*run)(void *), void *parameter)
{
    if (!is_in_run())
        return real.pthread_create(thread, attributes, run, parameter);
    struct beginning *beginning = malloc(sizeof *beginning);
    if (beginning == NULL)
        return EAGAIN;
    struct scheduled *it = make_thread();
    *beginning = (struct beginning){ it, run, parameter };
    number_thread(it);
    tell_before(it);
    const int error = real.pthread_create(thread, attributes, run_from_beginning, beginning);
    if (error == 0) {
        it->thread = *thread;
    } else {
        end_thread(it);
        (real.free)(beginning);
    }
    come_to_object(NULL);
    return error;
}

/* The thread of this name; null where the scheduler knows none, or the caller is it. (Names are given again: the last one is meant.) */
static struct scheduled *other_thread(pthread_t thread)
{
    for (uint32_t i = schedule.threads_count; i-- > 0;)
        if (pthread_equal(schedule.threads[i]->thread, thread) != 0)
            return schedule.threads[i] != me ? schedule.threads[i] : NULL;
    return NULL;
}

/* Whether the program asks for the end of this thread in a run. The caller has come to a point then. */
static bool comes_to_join(pthread_t thread)
{
    if (!is_in_run())
        return false;
    const struct scheduled *it = other_thread(thread);
    return it != NULL ? comes_to(it) : comes_from_program();
}

/* Waits until it has ended, to this moment at the longest. Answers whether it has; true of one that the scheduler does not know. */
static bool has_ended_by(pthread_t thread, uint64_t until, const void *place)
{
    struct scheduled *it = other_thread(thread);
    const struct blocked blocked = { "pthread_join", it, place, NULL };
    while (it != NULL && it->state != IS_OVER) {
        if (until <= schedule.now)
            return false;
        sleep_in(&blocked, until);
    }
    if (it != NULL)
        tell_after(it);
    return true;
}

NTW_INTERNAL int hooked_pthread_join(pthread_t thread, void **value)
{
    if (comes_to_join(thread))
        has_ended_by(thread, NEVER, __builtin_return_address(0));
    return real.pthread_join(thread, value);
}

NTW_INTERNAL int hooked_pthread_tryjoin_np(pthread_t thread, void **value)
{
    if (comes_to_join(thread))
        return has_ended_by(thread, 0, NULL) ? real.pthread_join(thread, value) : EBUSY;
    return real.pthread_tryjoin_np(thread, value);
}

NTW_INTERNAL int hooked_pthread_timedjoin_np(pthread_t thread, void **value, const struct timespec *time)
{
    if (!is_time(time) || !comes_to_join(thread))
        return real.pthread_timedjoin_np(thread, value, time);
    return has_ended_by(thread, moment_by(CLOCK_REALTIME, time), __builtin_return_address(0)) ? real.pthread_join(thread, value) : ETIMEDOUT;
}

NTW_INTERNAL int hooked_pthread_clockjoin_np(pthread_t thread, void **value, clockid_t clock, const struct timespec *time)
{
    if (!is_time(time) || !is_clock_of_run(clock) || !comes_to_join(thread))
        return real.pthread_clockjoin_np(thread, value, clock, time);
    return has_ended_by(thread, moment_by(clock, time), __builtin_return_address(0)) ? real.pthread_join(thread, value) : ETIMEDOUT;
}

/* ---- Once. The word has one bit while a thread is in the routine, which may leave it by an exception: one as the C library has it, and another as a
 * sanitizer has. */

static bool nobody_is_in(const void *control)
{
    enum { IS_IN_PROGRESS = 1, IS_IN_BESIDE_SANITIZER = 1 << 16 };
    const unsigned bit = has_sanitizer() && !has_points() ? IS_IN_BESIDE_SANITIZER : IS_IN_PROGRESS;
    return ((unsigned)*(const volatile pthread_once_t *)control & bit) == 0;
}

NTW_INTERNAL int hooked_pthread_once(pthread_once_t *control, void (*routine)(void))
{
    const struct blocked blocked = { "pthread_once", control, __builtin_return_address(0), nobody_is_in };
    if (!comes_to(control))
        return real.pthread_once(control, routine);
    while (!nobody_is_in(control))
        sleep_in(&blocked, NEVER);
    const int error = real.pthread_once(control, routine);
    tell_before(control);
    tell_after(control);
    return error;
}

/* ---- Objects of C++ that the first caller makes. (What waits for another caller here sleeps on a word.) */

NTW_INTERNAL int hooked___cxa_guard_acquire(void *guard)
{
    const int makes = real.__cxa_guard_acquire(guard);
    if (is_in_run())
        tell_after(guard);
    return makes;
}

NTW_INTERNAL void hooked___cxa_guard_release(void *guard)
{
    if (is_in_run())
        tell_before(guard);
    real.__cxa_guard_release(guard);
}

/* ---- Words that the program itself sleeps on, as std::latch and std::atomic::wait of C++ do. */

static long call_system(const long number, const long with[6])
{
    return real.syscall(number, with[0], with[1], with[2], with[3], with[4], with[5]);
}

/* What a call asks of a word; -1 of another call, and where the system refuses the time or the bits. */
static int operation_on_word(long number, const long with[6])
{
    const int operation = number == SYS_futex ? (int)with[1] & FUTEX_CMD_MASK : -1;
    const bool waits = operation == FUTEX_WAIT || operation == FUTEX_WAIT_BITSET;
    const bool has_bits = operation == FUTEX_WAIT_BITSET || operation == FUTEX_WAKE_BITSET;
    /* (Of another call the fourth number may be anything.) */
    const bool is_refused = (waits && with[3] != 0 && !is_time((const struct timespec *)with[3])) || (has_bits && (uint32_t)with[5] == 0);
    return is_refused ? -1 : operation;
}

static bool is_other_than(const long word, uint32_t wanted)
{
    return __atomic_load_n((const uint32_t *)word, __ATOMIC_SEQ_CST) != wanted;
}

static long failed_with(int error)
{
    errno = error;
    return -1;
}

static long wait_on_word(const void *place, const long with[6], uint32_t bits)
{
    const bool is_bitset = ((int)with[1] & FUTEX_CMD_MASK) == FUTEX_WAIT_BITSET;
    const struct timespec *time = (const struct timespec *)with[3];
    const struct blocked blocked = { "futex", (const void *)with[0], place, NULL };
    if (is_other_than(with[0], (uint32_t)with[2]))
        return failed_with(EAGAIN);
    const clockid_t clock = (with[1] & FUTEX_CLOCK_REALTIME) != 0 ? CLOCK_REALTIME : CLOCK_MONOTONIC;
    const uint64_t until = time == NULL ? NEVER : is_bitset ? moment_by(clock, time) : moment_in(time);
    return sleep_by_bits(&blocked, until, bits) ? 0 : failed_with(ETIMEDOUT);
}

NTW_INTERNAL long hooked_syscall(long number, ...)
{
    long with[6];
    va_list rest;
    va_start(rest, number);
    for (int i = 0; i < 6; i++)
        with[i] = va_arg(rest, long);
    va_end(rest);
    const int operation = operation_on_word(number, with);
    const void *word = (const void *)with[0];
    switch (operation) {
        case FUTEX_WAIT:
        case FUTEX_WAIT_BITSET:
            if (comes_to(word))
                return wait_on_word(__builtin_return_address(0), with, operation == FUTEX_WAIT ? FUTEX_BITSET_MATCH_ANY : (uint32_t)with[5]);
            break;
        case FUTEX_WAKE:
        case FUTEX_WAKE_BITSET:
            if (comes_to(word))
                return wake_scheduled(word, (int)with[2], operation == FUTEX_WAKE ? FUTEX_BITSET_MATCH_ANY : (uint32_t)with[5]);
            break;
        case FUTEX_REQUEUE:
        case FUTEX_CMP_REQUEUE:
            /* (Who would sleep on the other word from now on is woken, and looks again.) */
            if (!comes_to(word))
                break;
            if (operation == FUTEX_CMP_REQUEUE && is_other_than(with[0], (uint32_t)with[5]))
                return failed_with(EAGAIN);
            return wake_scheduled(word, INT_MAX, FUTEX_BITSET_MATCH_ANY);
        default:
            break;
    }
    return call_system(number, with);
}
