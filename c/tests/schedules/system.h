/* What ntwin.c asks of the system, and its steps on words, as strands make them. */
#ifndef SYSTEM_H
#define SYSTEM_H

#include "writing.h"

/* ---- The system, here. */

/* Has each other strand pass a barrier. (Once in a while the system refuses that from then on.) */
static long pass_all_barriers(void)
{
    struct strand *me = run.runs;
    end_all_stores();
    if (me == NULL)
        return 0;
    if (one_in(400)) {
        me->is_refused_barrier = true;
        return -1;
    }
    note_step(&process.has_barriers);
    me->tells.has_barred = true;
    point();
    return 0;
}

/* Sleeps on the word while it has this value, to this time at the longest. Once in a while it returns for no reason, or a signal ends the sleep and
 * the system begins it again. */
static long sleep_on_word(void *word, uint32_t value, uint64_t until)
{
    struct strand *me = run.runs;
    for (;;) {
        if (*(volatile uint32_t *)word != value) {
            tell_sleep(word, DID_NOT_SLEEP);
            return -1;
        }
        tell_sleep(word, SLEPT);
        if (one_in(50)) {
            tell_end_of_sleep(word);
            return -1;
        }
        const bool is_interrupted = one_in(8);
        me->word = word;
        me->is_woken = false;
        me->until = is_interrupted && run.now + 1000 < until ? run.now + below(1000) : until;
        stand_aside(SLEEPS);
        me->word = NULL;
        if (me->is_woken || me->until == until)
            break;
        tell_sleep(word, SLEEPS_AGAIN);
    }
    tell_end_of_sleep(word);
    return 0;
}

static long use_system(long number, void *word, int operation, uint32_t value, const struct timespec *until)
{
    struct strand *me = run.runs, *sleepers[MOST_STRANDS];
    uint32_t count = 0;
    point();
    if (number == SYS_membarrier)
        return pass_all_barriers();
    end_store(me);
    if (operation == FUTEX_WAKE_PRIVATE) {
        be_interrupted_before_wake(word);
        for (int i = 0; i < run.count; i++)
            if (run.strands[i].state == SLEEPS && run.strands[i].word == word && !run.strands[i].is_woken)
                sleepers[count++] = &run.strands[i];
        struct strand *woken = count > 0 ? sleepers[below(count)] : NULL;
        if (woken != NULL)
            woken->is_woken = true;
        tell_wake(word, woken);
        return woken != NULL;
    }
    const bool is_lock = word == &waiting.lock && is_to_sleep_on_lock();
    if (is_lock)
        be_interrupted(InterruptsAtSleep, ResumesAtSleep);
    const long slept =
        sleep_on_word(word, value,
                      until == NULL || until->tv_sec > NANOSECONDS ? NEVER
                                                                   : (uint64_t)until->tv_sec * NANOSECONDS + (uint64_t)until->tv_nsec);
    if (is_lock)
        be_interrupted(InterruptsAtMark, ResumesAtMark);
    return slept;
}

static int read_clock(struct timespec *at)
{
    at->tv_sec = (time_t)(run.now / NANOSECONDS);
    at->tv_nsec = (long)(run.now % NANOSECONDS);
    return 0;
}

/* (Once in a while there is no thread more.) */
static int create_strand(pthread_t *thread, void *(*start)(void *), void *argument)
{
    point();
    struct strand *strand = one_in(60) ? NULL : add_strand(start, argument);
    if (strand == NULL)
        return EAGAIN;
    *thread = (pthread_t)(strand - run.strands);
    point();
    return 0;
}

static int join_strand(pthread_t thread, int error)
{
    point();
    return run.strands[thread].state == HAS_ENDED ? 0 : error;
}

static int keep_value(const void *value)
{
    run.runs->leaving = value;
    return 0;
}

static int yield_strand(void)
{
    point();
    return 0;
}

#define syscall(number, word, operation, value, until, other, bits) \
    ((void)(bits), use_system(number, (void *)(uintptr_t)(word), operation, value, until))
#define clock_gettime(clock, at) read_clock(at)
/* (The system has no thread more now and then.) */
#define pthread_create(thread, attributes, start, argument) ((void)(attributes), one_in(20) ? EAGAIN : create_strand(thread, start, argument))
#define pthread_tryjoin_np(thread, value) join_strand(thread, EBUSY)
#define pthread_self() ((pthread_t)(run.runs - run.strands))
#define pthread_exit(value) end_strand()
#define pthread_key_create(key, at_end) ((void)(key), run.destructor = (at_end), 0)
#define pthread_setspecific(key, value) keep_value(value)
#define sched_yield() yield_strand()
#define sysconf(name) 4L
#define gettid() ((pid_t)(1 + (run.runs - run.strands)))
#define abort() broken("what always holds does not")
#undef TELLS_WHETHER_ALONE

/* ---- Steps on a word, which is a number or a pointer. */

#undef atomic_load_explicit
#undef atomic_store_explicit
#undef atomic_exchange_explicit
#undef atomic_compare_exchange_strong_explicit
#undef atomic_fetch_add_explicit
#undef atomic_fetch_sub_explicit
#undef atomic_thread_fence
#if defined __clang__
#define load_step(word) __c11_atomic_load(word, __ATOMIC_SEQ_CST)
#define store_step(word, value) __c11_atomic_store(word, value, __ATOMIC_SEQ_CST)
#define exchange_step(word, value) __c11_atomic_exchange(word, value, __ATOMIC_SEQ_CST)
#define compare_step(word, seen, value) __c11_atomic_compare_exchange_strong(word, seen, value, __ATOMIC_SEQ_CST, __ATOMIC_SEQ_CST)
#define add_step(word, value) __c11_atomic_fetch_add(word, value, __ATOMIC_SEQ_CST)
#else
#define load_step(word) __atomic_load_n(word, __ATOMIC_SEQ_CST)
#define store_step(word, value) __atomic_store_n(word, value, __ATOMIC_SEQ_CST)
#define exchange_step(word, value) __atomic_exchange_n(word, value, __ATOMIC_SEQ_CST)
#define compare_step(word, seen, value) __atomic_compare_exchange_n(word, seen, value, false, __ATOMIC_SEQ_CST, __ATOMIC_SEQ_CST)
#define add_step(word, value) __atomic_fetch_add(word, value, __ATOMIC_SEQ_CST)
#endif
#define own_late_word(word) (run.runs != NULL && (void *)run.runs->late_word == (void *)(word))
#define atomic_load_explicit(word, order) (point(), own_late_word(word) ? end_store(run.runs) : (void)0, note_step(word), load_step(word))
#define atomic_store_explicit(word, value, order) \
    (point(), run.runs != NULL && sizeof *(word) == sizeof(uint32_t) ? store_late((void *)(word), (uint32_t)(uintptr_t)(value)) \
                                                                     : (end_store(run.runs), store_step(word, value)))
/* (Another may run right after an exchange, too: that is how the lock is taken and given back.) */
#define atomic_exchange_explicit(word, value, order) \
    __extension__({ \
        point(); \
        end_store(run.runs); \
        note_step(word); \
        __auto_type found_by_step = exchange_step(word, value); \
        point(); \
        found_by_step; \
    })
#define atomic_compare_exchange_strong_explicit(word, seen, value, one, other) \
    (point(), end_store(run.runs), note_step(word), compare_step(word, seen, value))
#define atomic_fetch_add_explicit(word, value, order) (point(), end_store(run.runs), note_step(word), add_step(word, value))
#define atomic_fetch_sub_explicit(word, value, order) (point(), end_store(run.runs), note_step(word), add_step(word, -(value)))
#define atomic_thread_fence(order) (point(), end_store(run.runs))

#endif
