/* SPDX-License-Identifier: MIT OR Apache-2.0 */
/* ---- What is known of a thread: how it begins and ends. */
#include "internal.h"

/* The system's own name of the thread. */
NTW_INTERNAL void name_task(pid_t task, PCWSTR description)
{
    char path[64], name[16];
    size_t length = 0;
    const int error = errno;
    for (; length < sizeof name - 1 && description[length] != 0; length++)
        name[length] = description[length] < 128 ? (char)description[length] : '?';
    snprintf(path, sizeof path, "/proc/self/task/%d/comm", (int)task);
    const int file = open(path, O_WRONLY | O_CLOEXEC);
    if (file >= 0) {
        (void)!write(file, name, length);
        close(file);
    }
    errno = error;
}

/* The caller begins, under the lock. It may have been described before. */
NTW_INTERNAL void begin_life(struct seat *seat, DWORD id)
{
    seat->life.id = id;
    seat->life.task = gettid();
    seat->life.began = universal();
    if (seat->life.description != NULL)
        name_task(seat->life.task, seat->life.description);
}

NTW_INTERNAL uint64_t moments_used(struct timeval time)
{
    return (uint64_t)time.tv_sec * MOMENTS_PER_SECOND + (uint64_t)time.tv_usec * 10;
}

/* The caller ends, under the lock. */
NTW_INTERNAL void end_life(struct seat *seat)
{
    struct rusage used;
    seat->has_left = true;
    seat->life.ended = universal();
    if (getrusage(RUSAGE_THREAD, &used) == 0) {
        seat->life.used[0] = moments_used(used.ru_utime);
        seat->life.used[1] = moments_used(used.ru_stime);
    }
}

/* ---- With which code a thread has ended, for who asks without the lock (win32/threads.c). The code of a place tells of its last thread until the
 * place is another's: then each handle of the last one is given its past before. */

NTW_INTERNAL struct ending endings[NT_MANY_THREADS];

/* The caller has ended, under the lock; nobody knows that yet who waits for it. */
NTW_INTERNAL void tell_ending(const struct seat *seat)
{
    struct ending *ending = &endings[seat->number];
    atomic_store_explicit(&ending->code, seat->exit_code, memory_order_release);
    atomic_store_explicit(&ending->has_left, true, memory_order_release);
}

/* The place is another thread's from now on, under the lock. */
NTW_INTERNAL void renew_ending(const struct seat *seat)
{
    atomic_store_explicit(&endings[seat->number].has_left, false, memory_order_release);
}

/* The caller, which was created suspended, sleeps until it was resumed as often. */
NTW_INTERNAL void wait_to_begin(struct seat *seat)
{
    for (uint32_t seen; (seen = atomic_load_explicit(&seat->suspended, memory_order_acquire)) != 0;)
        sleep_on(&seat->suspended, seen, NULL);
    comes_after(&seat->suspended);
}
