/* What a program on POSIX would write for some of the shapes, for bench/users; or, with -DOVER_FIFO, workers at one lock in the order of arrival. */
#include "users.h"
#include <pthread.h>

#include "fifo_lock.h"

static pthread_t begin_thread(void *(*what)(void *), void *with)
{
    pthread_t thread;
    must(pthread_create(&thread, NULL, what, with) == 0);
    return thread;
}

/* ---- Threads that begin together. */

static pthread_barrier_t BEGIN;
static uint64_t PLACE;

static void together(const char *name, unsigned count, void *(*rounds)(void *))
{
    pthread_t threads[MANY];
    pthread_barrier_init(&BEGIN, NULL, count + 1);
    for (unsigned i = 0; i < count; i++)
        threads[i] = begin_thread(rounds, NULL);
    usleep(20000);
    const struct moment began = now();
    pthread_barrier_wait(&BEGIN);
    for (unsigned i = 0; i < count; i++)
        must(pthread_join(threads[i], NULL) == 0);
    tell_since(name, 2 * count * ROUNDS, began);
}

#if defined OVER_FIFO
static struct fifo_lock FIFO;
static _Thread_local struct fifo_place MINE;

static void *take_in_order(void *none)
{
    pthread_barrier_wait(&BEGIN);
    for (uint64_t i = 0; i < ROUNDS; i++) {
        fifo_take(&FIFO, &MINE);
        PLACE++;
        fifo_give(&FIFO, &MINE);
    }
    return none;
}

static void in_order(const char *name, unsigned count)
{
    together(name, count, take_in_order);
    must(PLACE == count * ROUNDS);
}

static void lock_2(const char *name) { in_order(name, 2); }
static void lock_8(const char *name) { in_order(name, 8); }
static void lock_64(const char *name) { in_order(name, 64); }

const struct shape POSIX_SHAPES[] = { { "lock_2", lock_2 }, { "lock_8", lock_8 }, { "lock_64", lock_64 }, { NULL, NULL } };
#else

/* ---- One thread calls, beside another that waits. */

static pthread_mutex_t MUTEX = PTHREAD_MUTEX_INITIALIZER, RECURSIVE = PTHREAD_RECURSIVE_MUTEX_INITIALIZER_NP;
static pthread_rwlock_t RWLOCK = PTHREAD_RWLOCK_INITIALIZER;

static bool is_locked(pthread_mutex_t *mutex)
{
    if (pthread_mutex_lock(mutex) != 0)
        return false;
    PLACE++;
    return pthread_mutex_unlock(mutex) == 0;
}

static bool is_written(void)
{
    if (pthread_rwlock_wrlock(&RWLOCK) != 0)
        return false;
    PLACE++;
    return pthread_rwlock_unlock(&RWLOCK) == 0;
}

static bool is_read(void)
{
    return pthread_rwlock_rdlock(&RWLOCK) == 0 && pthread_rwlock_unlock(&RWLOCK) == 0;
}

static void *rest(void *none)
{
    for (;;)
        pause();
    return none;
}

#define BESIDE(shape, ...) \
    static void shape(const char *name) \
    { \
        begin_thread(rest, NULL); \
        TIME(name, 2, __VA_ARGS__); \
    }
BESIDE(section, is_locked(&RECURSIVE))
BESIDE(section_mutex, is_locked(&MUTEX))
BESIDE(exclusive, is_written())
BESIDE(shared, is_read())

static void section_inner(const char *name)
{
    pthread_mutex_lock(&RECURSIVE);
    section(name);
}

#define TOGETHER(shape, count, ...) \
    static void *shape##_rounds(void *none) \
    { \
        pthread_barrier_wait(&BEGIN); \
        for (uint64_t i = 0; i < ROUNDS; i++) \
            must(__VA_ARGS__); \
        return none; \
    } \
    static void shape(const char *name) { together(name, count, shape##_rounds); }
TOGETHER(lock_2, 2, is_locked(&MUTEX))
TOGETHER(lock_4, 4, is_locked(&MUTEX))
TOGETHER(lock_8, 8, is_locked(&MUTEX))
TOGETHER(lock_64, 64, is_locked(&MUTEX))
TOGETHER(exclusive_4, 4, is_written())
TOGETHER(shared_4, 4, is_read())

/* ---- Two threads hand a turn to and fro. */

static pthread_cond_t CONDITIONS[2] = { PTHREAD_COND_INITIALIZER, PTHREAD_COND_INITIALIZER };
static _Atomic uint32_t WANTED, ASLEEP;

static void *turn_by_variable(void *mine)
{
    const uint32_t me = mine != NULL;
    for (uint64_t i = 0; i < ROUNDS; i++) {
        pthread_mutex_lock(&MUTEX);
        while (WANTED != me)
            pthread_cond_wait(&CONDITIONS[me], &MUTEX);
        WANTED = !me;
        pthread_mutex_unlock(&MUTEX);
        pthread_cond_signal(&CONDITIONS[!me]);
    }
    return NULL;
}

/* By a word: who waits looks at it before it sleeps on it, and who hands over wakes only where somebody sleeps. */
static void *turn_by_address(void *mine)
{
    const uint32_t me = mine != NULL;
    struct looks looks = { 0 };
    for (uint64_t i = 0; i < ROUNDS; i++) {
        if (!look_for(&looks, &WANTED, me)) {
            ASLEEP++;
            while (WANTED != me)
                syscall(SYS_futex, &WANTED, FUTEX_WAIT_PRIVATE, !me, NULL, NULL, 0);
            ASLEEP--;
        }
        WANTED = !me;
        if (ASLEEP > 0)
            syscall(SYS_futex, &WANTED, FUTEX_WAKE_PRIVATE, 1, NULL, NULL, 0);
    }
    return NULL;
}

static void to_and_fro(const char *name, void *(*turn)(void *))
{
    const pthread_t other = begin_thread(turn, &MUTEX);
    const struct moment began = now();
    turn(NULL);
    must(pthread_join(other, NULL) == 0);
    tell_since(name, 2 * ROUNDS, began);
}

static void variable(const char *name) { to_and_fro(name, turn_by_variable); }
static void address(const char *name) { to_and_fro(name, turn_by_address); }

/* ---- A pool: a thread for each processor, and a queue of works, each with a count of its calls, under one mutex. Of the threads that sleep only one
   is woken at a time, and it wakes the next where there is more to do: so whoever posts mostly makes no call of the system. */

enum { CALLBACKS = 1000 };

struct work {
    void (*call)(void *with);
    void *with;
    uint32_t to_come, running;
    struct work *next;
};

static pthread_mutex_t POOL = PTHREAD_ADAPTIVE_MUTEX_INITIALIZER_NP;
static pthread_cond_t POSTED = PTHREAD_COND_INITIALIZER, DONE = PTHREAD_COND_INITIALIZER;
static struct work *FIRST, **LAST = &FIRST;
static uint32_t SLEEPERS;
static bool IS_WOKEN;

static void append(struct work *it)
{
    it->next = NULL;
    *LAST = it;
    LAST = &it->next;
}

/* Gives the mutex back, and wakes a thread where there is something to do and none is on its way. */
static void give_pool(void)
{
    const bool wakes = FIRST != NULL && SLEEPERS > 0 && !IS_WOKEN;
    IS_WOKEN |= wakes;
    pthread_mutex_unlock(&POOL);
    if (wakes)
        pthread_cond_signal(&POSTED);
}

static void post(struct work *it)
{
    pthread_mutex_lock(&POOL);
    if (it->to_come++ == 0)
        append(it);
    give_pool();
}

static struct work *take_work(void)
{
    while (FIRST == NULL) {
        SLEEPERS++;
        pthread_cond_wait(&POSTED, &POOL);
        SLEEPERS--;
        IS_WOKEN = false;
    }
    struct work *taken = FIRST;
    FIRST = taken->next;
    if (FIRST == NULL)
        LAST = &FIRST;
    if (--taken->to_come > 0)
        append(taken);
    taken->running++;
    return taken;
}

static void *work_in_pool(void *none)
{
    pthread_mutex_lock(&POOL);
    for (;;) {
        struct work *it = take_work();
        give_pool();
        it->call(it->with);
        pthread_mutex_lock(&POOL);
        if (--it->running == 0 && it->to_come == 0)
            pthread_cond_broadcast(&DONE);
    }
    return none;
}

static bool is_done(struct work *it)
{
    for (int i = 0; i < CALLBACKS; i++)
        post(it);
    pthread_mutex_lock(&POOL);
    while (it->to_come > 0 || it->running > 0)
        pthread_cond_wait(&DONE, &POOL);
    give_pool();
    return true;
}

static void call_back(void *count)
{
    __atomic_fetch_add((uint64_t *)count, 1, __ATOMIC_RELAXED);
}

static void pool(const char *name)
{
    uint64_t count = 0;
    struct work work = { call_back, &count, 0, 0, NULL };
    for (long i = sysconf(_SC_NPROCESSORS_ONLN); i > 0; i--)
        begin_thread(work_in_pool, NULL);
    must(is_done(&work));
    const struct moment began = now();
    for (uint64_t i = 0; i < ROUNDS; i++)
        must(is_done(&work));
    tell_since(name, CALLBACKS * ROUNDS, began);
    must(count == CALLBACKS * (ROUNDS + 1));
}

/* ---- Things that are made and gone; storage; time. */

static bool is_mutex_made(void)
{
    pthread_mutex_t *made = malloc(sizeof *made);
    if (made == NULL || pthread_mutex_init(made, NULL) != 0)
        return false;
    __asm__ volatile("" : : "r"(made) : "memory"); /* (So that it is made indeed.) */
    pthread_mutex_destroy(made);
    free(made);
    return true;
}

static void mutex_made(const char *name)
{
    TIME(name, 2, is_mutex_made());
}

static void *nothing(void *none)
{
    return none;
}

static void thread(const char *name)
{
    TIME(name, 1, pthread_join(begin_thread(nothing, NULL), NULL) == 0);
}

static void storage(const char *name)
{
    pthread_key_t key;
    must(pthread_key_create(&key, NULL) == 0);
    TIME(name, 2, pthread_setspecific(key, &ROUNDS) == 0 && pthread_getspecific(key) == &ROUNDS);
}

static uint64_t coarse_milliseconds(void)
{
    struct timespec time;
    clock_gettime(CLOCK_MONOTONIC_COARSE, &time);
    return (uint64_t)time.tv_sec * 1000 + (uint64_t)time.tv_nsec / 1000000;
}

static void tick_count(const char *name)
{
    TIME(name, 1, coarse_milliseconds() != 0);
}

const struct shape POSIX_SHAPES[] = {
    { "section", section },
    { "section_mutex", section_mutex },
    { "section_inner", section_inner },
    { "section_2", lock_2 },
    { "section_4", lock_4 },
    { "exclusive", exclusive },
    { "exclusive_mutex", section_mutex },
    { "shared", shared },
    { "exclusive_4", exclusive_4 },
    { "shared_4", shared_4 },
    { "lock_2", lock_2 },
    { "lock_8", lock_8 },
    { "lock_64", lock_64 },
    { "variable", variable },
    { "address", address },
    { "pool", pool },
    { "mutex_made", mutex_made },
    { "thread", thread },
    { "storage", storage },
    { "tick_count", tick_count },
    { NULL, NULL },
};
#endif
