/* The same rounds of threads over one of three peers, for bench/c: Win32's names over the proved dispatcher (-DWIN32_NAMES, c/ntwin.h),
   a dispatcher written by hand in plain C (-DPLAIN, bench/dispatcher.c, without its journal), or what pthreads have by themselves.

   usage: peers SHAPE ROUNDS: prints how many calls that were, and picoseconds a call */
#define _GNU_SOURCE
#include <pthread.h>
#include <stdbool.h>
#include <stdint.h>
#include <stdio.h>
#include <stdlib.h>
#include <string.h>
#include <time.h>

enum { MOST_THREADS = 65, MANY = 64 };

static void must(bool holds)
{
    if (!holds) {
        fputs("a call did not answer what it has to\n", stderr);
        exit(1);
    }
}

#if defined WIN32_NAMES

#include <windows.h>

typedef HANDLE object;
static void open_peer(uint32_t threads) { (void)threads; }
static object make_event(uint32_t me) { (void)me; return CreateEvent(NULL, FALSE, FALSE, NULL); }
static object make_mutex(uint32_t me) { (void)me; return CreateMutex(NULL, FALSE, NULL); }
static object make_semaphore(uint32_t me) { (void)me; return CreateSemaphore(NULL, 0, INT32_MAX, NULL); }
static bool set(uint32_t me, object event) { (void)me; return SetEvent(event); }
static bool take(uint32_t me, object it) { (void)me; return WaitForSingleObject(it, INFINITE) == WAIT_OBJECT_0; }
static bool give_mutex(uint32_t me, object mutex) { (void)me; return ReleaseMutex(mutex); }
static bool give_semaphore(uint32_t me, object semaphore) { (void)me; return ReleaseSemaphore(semaphore, 1, NULL); }
static bool none_is_set(uint32_t me, const object *events) { (void)me; return WaitForMultipleObjects(MANY, events, FALSE, 0) == WAIT_TIMEOUT; }
static bool take_any(uint32_t me, const object *events) { (void)me; return WaitForMultipleObjects(MANY, events, FALSE, INFINITE) < MANY; }

#elif defined PLAIN

#include "dispatcher.h"

typedef uint32_t object;
static struct dispatcher *D;
static void open_peer(uint32_t threads) { D = open_dispatcher(threads, 0, true); must(D != NULL); }
static object make_event(uint32_t me) { return (object)create_event(D, me, false); }
static object make_mutex(uint32_t me) { return (object)create_mutex(D, me); }
static object make_semaphore(uint32_t me) { return (object)create_semaphore(D, me, 0, INT32_MAX); }
static bool set(uint32_t me, object event) { return set_event(D, me, event) == DONE; }
static bool take(uint32_t me, object it) { return wait_objects(D, me, &it, 1, false, INFINITE, true) == 0; }
static bool give_mutex(uint32_t me, object mutex) { return release_mutex(D, me, mutex) == DONE; }
static bool give_semaphore(uint32_t me, object semaphore) { return release_semaphore(D, me, semaphore, 1) >= 0; }
static bool none_is_set(uint32_t me, const object *events) { return wait_objects(D, me, events, MANY, false, 0, false) == TIMEOUT; }
static bool take_any(uint32_t me, const object *events) { return wait_objects(D, me, events, MANY, false, INFINITE, true) >= 0; }

#else

/* An event or a semaphore is a count under a lock, with a condition variable; a mutex is pthread's. None of them has an order, and no
   wait is for several: 64 events are 64 flags under one lock. */
struct thing {
    pthread_mutex_t lock;
    pthread_cond_t changed;
    bool is_event;
    int32_t count;
};
typedef struct thing *object;
static pthread_mutex_t ALL = PTHREAD_MUTEX_INITIALIZER;
static void open_peer(uint32_t threads) { (void)threads; }
static object make(bool is_event)
{
    object it = calloc(1, sizeof *it);
    must(it != NULL && pthread_mutex_init(&it->lock, NULL) == 0 && pthread_cond_init(&it->changed, NULL) == 0);
    it->is_event = is_event;
    return it;
}
static object make_event(uint32_t me) { (void)me; return make(true); }
static object make_semaphore(uint32_t me) { (void)me; return make(false); }
static object make_mutex(uint32_t me)
{
    (void)me;
    object it = make(false);
    it->count = -1;
    return it;
}
static bool add(object it)
{
    pthread_mutex_lock(&it->lock);
    it->count = it->is_event ? 1 : it->count + 1;
    pthread_mutex_unlock(&it->lock);
    return pthread_cond_signal(&it->changed) == 0;
}
static bool set(uint32_t me, object event) { (void)me; return add(event); }
static bool give_semaphore(uint32_t me, object semaphore) { (void)me; return add(semaphore); }
static bool give_mutex(uint32_t me, object mutex) { (void)me; return pthread_mutex_unlock(&mutex->lock) == 0; }
static bool take(uint32_t me, object it)
{
    (void)me;
    if (pthread_mutex_lock(&it->lock) != 0 || it->count < 0)
        return it->count < 0;
    while (it->count == 0)
        pthread_cond_wait(&it->changed, &it->lock);
    it->count--;
    return pthread_mutex_unlock(&it->lock) == 0;
}
static bool none_is_set(uint32_t me, const object *events)
{
    int32_t set_ones = 0;
    (void)me;
    pthread_mutex_lock(&ALL);
    for (int i = 0; i < MANY; i++)
        set_ones += events[i]->count;
    pthread_mutex_unlock(&ALL);
    return set_ones == 0;
}
static bool take_any(uint32_t me, const object *events) { return take(me, events[MANY - 1]); }

#endif

/* ---- Shapes. Each answers how many calls it made. */

static uint64_t ROUNDS, CALLS, BEGAN, ENDED;

static uint64_t now(void)
{
    struct timespec t;
    clock_gettime(CLOCK_MONOTONIC, &t);
    return (uint64_t)t.tv_sec * 1000000000u + (uint64_t)t.tv_nsec;
}

static void event(uint32_t unused)
{
    object it = make_event(0);
    (void)unused;
    BEGAN = now();
    for (uint64_t i = 0; i < ROUNDS; i++)
        must(set(0, it) && take(0, it));
    ENDED = now();
    CALLS = 2 * ROUNDS;
}

static void mutex(uint32_t unused)
{
    object it = make_mutex(0);
    (void)unused;
    BEGAN = now();
    for (uint64_t i = 0; i < ROUNDS; i++)
        must(take(0, it) && give_mutex(0, it));
    ENDED = now();
    CALLS = 2 * ROUNDS;
}

static void semaphore(uint32_t unused)
{
    object it = make_semaphore(0);
    (void)unused;
    BEGAN = now();
    for (uint64_t i = 0; i < ROUNDS; i++)
        must(give_semaphore(0, it) && take(0, it));
    ENDED = now();
    CALLS = 2 * ROUNDS;
}

static void any_of_64(uint32_t unused)
{
    object these[MANY];
    (void)unused;
    for (int i = 0; i < MANY; i++)
        these[i] = make_event(0);
    BEGAN = now();
    for (uint64_t i = 0; i < ROUNDS; i++)
        must(none_is_set(0, these));
    ENDED = now();
    CALLS = ROUNDS;
}

static object THERE, BACK, EVENTS[MANY];

static void *answer(void *unused)
{
    (void)unused;
    for (uint64_t i = 0; i < ROUNDS; i++)
        must(take(1, THERE) && set(1, BACK));
    return NULL;
}

static void round_trip(uint32_t unused)
{
    pthread_t other;
    (void)unused;
    THERE = make_event(0);
    BACK = make_event(0);
    must(pthread_create(&other, NULL, answer, NULL) == 0);
    BEGAN = now();
    for (uint64_t i = 0; i < ROUNDS; i++)
        must(set(0, THERE) && take(0, BACK));
    ENDED = now();
    pthread_join(other, NULL);
    CALLS = 4 * ROUNDS;
}

static void *answer_any(void *unused)
{
    (void)unused;
    for (uint64_t i = 0; i < ROUNDS; i++)
        must(take_any(1, EVENTS) && set(1, BACK));
    return NULL;
}

/* A round trip where the other thread waits for any of 64 events, of which the last is set. */
static void round_trip_64(uint32_t unused)
{
    pthread_t other;
    (void)unused;
    for (int i = 0; i < MANY; i++)
        EVENTS[i] = make_event(0);
    BACK = make_event(0);
    must(pthread_create(&other, NULL, answer_any, NULL) == 0);
    BEGAN = now();
    for (uint64_t i = 0; i < ROUNDS; i++)
        must(set(0, EVENTS[MANY - 1]) && take(0, BACK));
    ENDED = now();
    pthread_join(other, NULL);
    CALLS = 4 * ROUNDS;
}

/* Workers take one mutex, release a semaphore and release the mutex. They begin together, at a barrier. */
static object SHARED, COUNTED;
static pthread_barrier_t START;
static uint64_t SUM;

static void *work(void *at)
{
    const uint32_t me = (uint32_t)(uintptr_t)at;
    pthread_barrier_wait(&START);
    for (uint64_t i = 0; i < ROUNDS; i++) {
        must(take(me, SHARED));
        SUM++;
        must(give_semaphore(me, COUNTED) && give_mutex(me, SHARED));
    }
    return NULL;
}

static void workers(uint32_t count)
{
    pthread_t threads[MOST_THREADS];
    SHARED = make_mutex(0);
    COUNTED = make_semaphore(0);
    must(pthread_barrier_init(&START, NULL, count + 1) == 0);
    for (uintptr_t i = 0; i < count; i++)
        must(pthread_create(&threads[i], NULL, work, (void *)(i + 1)) == 0);
    BEGAN = now();
    pthread_barrier_wait(&START);
    for (uint32_t i = 0; i < count; i++)
        pthread_join(threads[i], NULL);
    ENDED = now();
    must(SUM == count * ROUNDS);
    CALLS = 3 * count * ROUNDS;
}

static const struct {
    const char *name;
    void (*run)(uint32_t);
    uint32_t threads;
} SHAPES[] = {
    { "event", event, 0 },
    { "mutex", mutex, 0 },
    { "semaphore", semaphore, 0 },
    { "any_of_64", any_of_64, 0 },
    { "round_trip", round_trip, 1 },
    { "round_trip_64", round_trip_64, 1 },
    { "workers_2", workers, 2 },
    { "workers_8", workers, 8 },
    { "workers_64", workers, 64 },
};

int main(int count, char **words)
{
    must(count == 3);
    ROUNDS = strtoull(words[2], NULL, 10);
    for (size_t i = 0; i < sizeof SHAPES / sizeof *SHAPES; i++)
        if (strcmp(words[1], SHAPES[i].name) == 0) {
            open_peer(SHAPES[i].threads + 1);
            SHAPES[i].run(SHAPES[i].threads);
            printf("%llu calls, %llu ps a call\n", (unsigned long long)CALLS, (unsigned long long)((ENDED - BEGAN) * 1000 / CALLS));
            return 0;
        }
    return 2;
}
