/* SPDX-License-Identifier: MIT OR Apache-2.0 */
/* ---- Where the library asks a scheduler of the program's threads, which NTWIN_SCHEDULE brings (docs/SCHEDULES.md). One thread runs at a time; at a
 * point the scheduler decides which one goes on. What is in line here asks one byte where there is no scheduler, and nothing else. */
#ifndef NTWIN_SCHEDULE_HOOKS_H
#define NTWIN_SCHEDULE_HOOKS_H

#include "../ntwin/inside.h"

/* Why a thread comes to a point: it calls, lets others go first, sleeps, or has ended. */
enum point { AT_CALL, AT_YIELD, AT_SLEEP, AT_END };

#if defined STRANDS_H || defined HAS_NO_SCHEDULER
/* (A test with a scheduler of its own has none beside it; and a test counts what this costs.) */
enum { is_scheduled = false, notes_touches = false };
#define touch(what, writes) ((void)(what))
#define touch_all() ((void)0)
#define touch_word(word) ((void)(word))
#define begin_touching() ((void)0)
#define come_to(point) ((void)(point))
#define come_to_object(object) ((void)(object))
#define come_to_seen(object) ((void)(object))
#define come_to_dispatcher() ((void)0)
#define come_to_clock() ((void)0)
#define come_in() ((void)0)
#define sleep_scheduled(word, seen, until, bits) ((void)(word), (void)(seen), (void)(until), (void)(bits))
#define wake_scheduled(word, count, bits) ((void)(word), (void)(count), (void)(bits))
#define scheduled_time() UINT64_C(0)
#define schedule_thread(seat) ((void)0)
#define unschedule_thread(seat) ((void)0)
#define begin_scheduled(seat) ((void)0)
#define end_with_knot(text) ((void)(text))
#define scheduled_number(seat) (seat)
#define begin_schedule(asked) ((void)(asked))
#define leave_schedule() ((void)0)
#define leave_turns() ((void)0)
#else
NTW_VARIABLE bool is_scheduled;  /* written before main, and in a child that the program forks */
NTW_VARIABLE bool notes_touches; /* so is this: what each step touches is noted, since two that touch nothing in common may change places (sleep_sets.c) */

NTW_INTERNAL void touch(const volatile void *what, bool writes);
NTW_INTERNAL void touch_all(void);
__attribute__((unused)) NTW_INTERNAL void touch_word(void *word); /* (A build for one sanitizer calls it nowhere.) */
NTW_INTERNAL void begin_touching(void);
NTW_INTERNAL void come_to(enum point point);
NTW_INTERNAL void come_to_object(const volatile void *object);
NTW_INTERNAL void come_to_seen(const volatile void *object);
NTW_INTERNAL void come_to_dispatcher(void);
NTW_INTERNAL void come_to_clock(void);
NTW_INTERNAL void come_in(void);
NTW_INTERNAL void sleep_scheduled(const _Atomic uint32_t *word, uint32_t seen, const struct timespec *until, uint32_t bits);
NTW_INTERNAL int wake_scheduled(const void *word, int count, uint32_t bits);
NTW_INTERNAL uint64_t scheduled_time(void);
NTW_INTERNAL void schedule_thread(const struct seat *seat);
NTW_INTERNAL void unschedule_thread(const struct seat *seat);
NTW_INTERNAL void begin_scheduled(const struct seat *seat);
NTW_INTERNAL void end_with_knot(char *text);
NTW_INTERNAL uint32_t scheduled_number(uint32_t seat);
NTW_INTERNAL void begin_schedule(const char *asked);
NTW_INTERNAL void leave_schedule(void);
NTW_INTERNAL void leave_turns(void);
#endif

static inline bool by_schedule(void)
{
    return __builtin_expect(is_scheduled, 0);
}

/* Another thread may go on here. The caller touches only this object from here on, and nothing where that is null, as far as is known here:
 * what it takes, gives back, wakes or sleeps on is noted where it does so. */
static inline void may_switch_at(const volatile void *object)
{
    if (by_schedule())
        come_to_object(object);
}

/* The same, where the caller has looked at the object since its point before. */
static inline void may_switch_at_seen(const volatile void *object)
{
    if (by_schedule())
        come_to_seen(object);
}

/* The same before a call of the dispatcher. (What it touches is noted there: looked.c.) */
static inline void may_switch_before_call(void)
{
    if (by_schedule())
        come_to_dispatcher();
}

/* The same, where the caller looks at the time. */
static inline void may_switch_at_clock(void)
{
    if (by_schedule())
        come_to_clock();
}

/* The caller is about to take its seat: a thread that the scheduler did not know waits for its turn. */
static inline void may_come_in(void)
{
    if (by_schedule())
        come_in();
}

static inline void yield_to_others(void)
{
    if (by_schedule())
        come_to(AT_YIELD);
    else
        sched_yield();
}

/* Where there is a scheduler, sleeps on the word, or wakes those that sleep on it, by that. Answers whether there is one. */
static inline bool slept_by_schedule(const _Atomic uint32_t *word, uint32_t seen, const struct timespec *until, uint32_t bits)
{
    if (by_schedule())
        sleep_scheduled(word, seen, until, bits);
    return by_schedule();
}

static inline bool woke_by_schedule(const _Atomic uint32_t *word, int count, uint32_t bits)
{
    if (by_schedule())
        wake_scheduled(word, count, bits);
    return by_schedule();
}

#endif
