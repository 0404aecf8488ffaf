/* ntwin.c as a part of a test, which overhears what it asks of the dispatcher: whose wait pends, who ends, and whose waits ended. And the
 * clock that it reads and sleeps by is the test's own, which stands between two ticks. */
#ifndef INSIDE_H
#define INSIDE_H

#define _GNU_SOURCE /* (as ntwin.c has it) */
#include "../nt.h"

#define CHECKS_WAITING

#include <sys/syscall.h>
#include <time.h>
#include <unistd.h>

static uint32_t hear_wait(uint32_t who, uint32_t refused, const struct nt_reply *reply);
static uint32_t hear_exit(uint32_t who, uint32_t refused);
static uint32_t hear_told(uint32_t refused, const struct nt_told *told);

#define nt_wait(nt, who, handles, count, all, ms, alertable, reply) \
    hear_wait(who, nt_wait(nt, who, handles, count, all, ms, alertable, reply), reply)
#define nt_sleep(nt, who, ms, alertable, reply) hear_wait(who, nt_sleep(nt, who, ms, alertable, reply), reply)
#define nt_swap(nt, who, signal, object, ms, alertable, reply) \
    hear_wait(who, nt_swap(nt, who, signal, object, ms, alertable, reply), reply)
#define nt_exit(nt, who, reply) hear_exit(who, nt_exit(nt, who, reply))
#define nt_told(nt, index, told) hear_told(nt_told(nt, index, told), told)

static int read_clock(struct timespec *at);
static long use_system(long number, void *word, int operation, uint32_t value, uint32_t bits);

#define clock_gettime(clock, at) read_clock(at)
#define syscall(number, word, operation, value, until, other, bits) \
    ((void)(until), use_system(number, (void *)(uintptr_t)(word), operation, value, bits))

#include "../ntwin.c"

/* ---- The clock: one for all purposes, in units of 100 ns. It is moved under ntwin.c's lock. */

enum { FIRST_SECONDS = 1000 }; /* in seconds */

static _Atomic uint64_t MOMENT;

static int read_clock(struct timespec *at)
{
    at->tv_sec = (time_t)(FIRST_SECONDS + MOMENT / MOMENTS_PER_SECOND);
    at->tv_nsec = (long)(MOMENT % MOMENTS_PER_SECOND) * NANOSECONDS_PER_MOMENT;
    return 0;
}

/* Who sleeps to a moment that is still to come sleeps until it is woken: `tick` does that. */
static long use_system(long number, void *word, int operation, uint32_t value, uint32_t bits)
{
    return (syscall)(number, word, operation, value, NULL, NULL, bits);
}

/* Whether this thread sleeps to a moment that has come, or was called and has not looked yet. */
static bool is_late(const struct seat *seat)
{
    bool waits = false;
    return nt_is_waiting(&waiting.dispatcher, seat->number, &waits) == 0 && waits && seat->moment <= MOMENT;
}

/* Has each thread look at the time that slept to a moment that has come. Answers whether there was one. */
static bool call_the_late(struct seat *clock)
{
    bool any = false;
    take_lock();
    for (uint32_t i = 0; i < waiting.seated; i++)
        if (is_late(&waiting.seats[i])) {
            tell(clock, &waiting.seats[i], IS_CALLED);
            any = true;
        }
    const uint32_t wakes = wakes_left();
    give_lock();
    wake_all(clock->woken, wakes);
    return any;
}

/* Lets the moments up to this one pass, and waits until those who slept to one of them have seen to it. */
static void tick(uint64_t moment)
{
    static struct seat clock;
    take_lock();
    MOMENT = moment;
    give_lock();
    while (call_the_late(&clock))
        sched_yield();
}

#endif
