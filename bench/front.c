/* The calls that crates/nt_front_bench times on the front, made on the dispatcher of bench/dispatcher.c, and what lies below both:
   a bare pthread mutex, and a round trip over two futexes.

   usage: front [SHAPE ROUNDS]      without words, a few rounds of each shape, without times; with them, one shape twice: first on
   a journal whose memory was never touched, and then on one that was */
#define _GNU_SOURCE
#include "dispatcher.h"
#include <linux/futex.h>
#include <pthread.h>
#include <stdatomic.h>
#include <stdio.h>
#include <stdlib.h>
#include <string.h>
#include <sys/syscall.h>
#include <time.h>
#include <unistd.h>

enum { CROWD_THREADS = 256, CROWD_OBJECTS = 10000 };

static void *some(void *made) { if (!made) { fputs("out of memory\n", stderr); exit(1); } return made; }
static void wants(bool it) { if (!it) { fputs("a call was refused\n", stderr); exit(1); } }

static uint64_t now(void) {
    struct timespec t;
    clock_gettime(CLOCK_MONOTONIC, &t);
    return (uint64_t)t.tv_sec * 1000000000u + (uint64_t)t.tv_nsec;
}

/* What a shape was given, and what it made. */
struct run { uint32_t size; uint64_t rounds, calls, grants, nanos; };

/* A dispatcher of n threads, or of a crowd: then with objects that no call touches. The journal has room for that number of rows, and more. */
static struct dispatcher *stage(uint32_t threads, bool crowd, size_t rows, bool journal, bool locked) {
    uint32_t all = crowd ? CROWD_THREADS : threads;
    struct dispatcher *d = some(open_dispatcher(all, journal ? rows + CROWD_OBJECTS + 1000 : 0, locked));
    for (uint32_t i = 0; crowd && i < CROWD_OBJECTS; i++) wants(create_event(d, 0, false) >= 0);
    return d;
}

/* ---- one thread: the pairs. Beside them stands nothing (1), a crowd that no call touches (2), or a thread that waits (3): in a
   process of one thread the C library takes a lock with no atomic step. */

struct sleeper { struct dispatcher *d; uint32_t ready, last; pthread_t thread; };

static void *rest(void *it) {
    struct sleeper *s = it;
    wants(set_event(s->d, 1, s->ready) == DONE);
    wants(wait_objects(s->d, 1, &s->last, 1, false, INFINITE, true) == 0);
    return NULL;
}

static void *nothing(void *it) { return it; }

/* What the C library takes for a thread it keeps for the next one: taken before the first journal, it does not lie in the way of the second. */
static void make_room_for_a_thread(void) {
    pthread_t thread;
    wants(pthread_create(&thread, NULL, nothing, NULL) == 0);
    pthread_join(thread, NULL);
}

static void begin_beside(struct sleeper *s, struct dispatcher *d) {
    *s = (struct sleeper){.d = d, .ready = (uint32_t)create_event(d, 0, false), .last = (uint32_t)create_event(d, 0, false)};
    wants(pthread_create(&s->thread, NULL, rest, s) == 0);
    wants(wait_objects(d, 0, &s->ready, 1, false, INFINITE, true) == 0);
}

static void end_beside(struct sleeper *s) {
    wants(set_event(s->d, 0, s->last) == DONE);
    pthread_join(s->thread, NULL);
}

/* Makes the rounds of a pair, and times them. */
static void pairs(struct run *r, struct dispatcher *d, uint32_t object, void (*rounds)(struct dispatcher *, uint32_t, uint64_t)) {
    struct sleeper sleeper;
    if (r->size == 3) begin_beside(&sleeper, d);
    uint64_t began = now();
    rounds(d, object, r->rounds);
    r->nanos = now() - began;
    r->calls = 2 * r->rounds;
    if (r->size == 3) end_beside(&sleeper);
    close_dispatcher(d);
}

static struct dispatcher *stage_of(const struct run *r) { return stage(r->size == 3 ? 2 : 1, r->size == 2, 2 * r->rounds, true, true); }

static void set_and_take(struct dispatcher *d, uint32_t e, uint64_t rounds) {
    for (uint64_t i = 0; i < rounds; i++) {
        wants(set_event(d, 0, e) == DONE);
        wants(wait_objects(d, 0, &e, 1, false, 0, false) == 0);
    }
}

static void take_and_release(struct dispatcher *d, uint32_t m, uint64_t rounds) {
    for (uint64_t i = 0; i < rounds; i++) {
        wants(wait_objects(d, 0, &m, 1, false, INFINITE, false) == 0);
        wants(release_mutex(d, 0, m) == DONE);
    }
}

static void release_and_take(struct dispatcher *d, uint32_t s, uint64_t rounds) {
    for (uint64_t i = 0; i < rounds; i++) {
        wants(release_semaphore(d, 0, s, 1) == 0);
        wants(wait_objects(d, 0, &s, 1, false, INFINITE, false) == 0);
    }
}

static void events_on(struct run *r, struct dispatcher *d) { pairs(r, d, (uint32_t)create_event(d, 0, false), set_and_take); }
static void event(struct run *r) { events_on(r, stage_of(r)); }
static void core_alone(struct run *r) { events_on(r, stage(1, false, 2 * r->rounds, false, false)); }
static void core_and_journal(struct run *r) { events_on(r, stage(1, false, 2 * r->rounds, true, false)); }

static void mutex(struct run *r) {
    struct dispatcher *d = stage_of(r);
    pairs(r, d, (uint32_t)create_mutex(d, 0), take_and_release);
}

static void semaphore(struct run *r) {
    struct dispatcher *d = stage_of(r);
    pairs(r, d, (uint32_t)create_semaphore(d, 0, 0, 1), release_and_take);
}

/* A wait for any of 64 objects, none of which is signaled. */
static void any_of_64(struct run *r) {
    struct dispatcher *d = stage(1, r->size > 1, MOST_ROWS * r->rounds, true, true);
    uint32_t handles[MOST_HANDLES];
    for (uint32_t i = 0; i < MOST_HANDLES; i++) handles[i] = (uint32_t)create_event(d, 0, false);
    uint64_t began = now();
    for (uint64_t i = 0; i < r->rounds; i++) wants(wait_objects(d, 0, handles, MOST_HANDLES, false, 0, false) == TIMEOUT);
    r->nanos = now() - began;
    r->calls = r->rounds;
    close_dispatcher(d);
}

/* 64 threads wait for all of a common event and one of their own. One waits, its own is set, and then the common one. */
static void one_of_64(struct run *r) {
    struct dispatcher *d = stage(65, r->size > 1, 5 * r->rounds + 2 * 64, true, true);
    uint32_t common = (uint32_t)create_event(d, 0, false), own[65];
    for (uint32_t t = 1; t <= 64; t++) own[t] = (uint32_t)create_event(d, 0, false);
    for (uint32_t t = 1; t <= 64; t++) wants(wait_objects(d, t, (uint32_t[]){common, own[t]}, 2, true, INFINITE, false) == PENDED);
    uint64_t began = now();
    for (uint64_t i = 0; i < r->rounds; i++) {
        uint32_t t = (uint32_t)(i % 64) + 1;
        wants(set_event(d, 0, own[t]) == DONE);
        wants(set_event(d, 0, common) == DONE);
        wants(poll_wait(d, t) == 0);
        wants(wait_objects(d, t, (uint32_t[]){common, own[t]}, 2, true, INFINITE, false) == PENDED);
    }
    r->nanos = now() - began;
    r->calls = 3 * r->rounds;
    r->grants = r->rounds;
    close_dispatcher(d);
}

/* So many periodic timers, one of which is due at each tick. */
static void ticks(struct run *r) {
    struct dispatcher *d = stage(1, false, r->rounds + 3 * (size_t)r->size, true, true);
    uint64_t period = (uint64_t)r->size * 10000;
    for (uint32_t i = 0; i < r->size; i++) {
        uint32_t x = (uint32_t)create_timer(d, 0, true);
        wants(arm_timer(d, 0, x, (i + 1) * (uint64_t)10000, period) == DONE);
    }
    uint64_t began = now();
    for (uint64_t i = 0; i < r->rounds; i++) wants(tick(d, 0, (i + 1) * 10000) == DONE);
    r->nanos = now() - began;
    r->calls = r->rounds;
    close_dispatcher(d);
}

/* ---- two threads */

struct player { struct dispatcher *d; uint32_t who, mine, other; uint64_t rounds; };

static void *answers(void *it) {
    struct player *p = it;
    for (uint64_t i = 0; i < p->rounds; i++) {
        wants(wait_objects(p->d, p->who, &p->mine, 1, false, INFINITE, true) == 0);
        wants(set_event(p->d, p->who, p->other) == DONE);
    }
    return NULL;
}

static void round_trip(struct run *r) {
    struct dispatcher *d = stage(2, r->size > 1, 6 * r->rounds, true, true);
    uint32_t a = (uint32_t)create_event(d, 0, false), b = (uint32_t)create_event(d, 0, false);
    struct player second = {d, 1, b, a, r->rounds};
    pthread_t child;
    wants(pthread_create(&child, NULL, answers, &second) == 0);
    uint64_t began = now();
    for (uint64_t i = 0; i < r->rounds; i++) {
        wants(set_event(d, 0, b) == DONE);
        wants(wait_objects(d, 0, &a, 1, false, INFINITE, true) == 0);
    }
    r->nanos = now() - began;
    pthread_join(child, NULL);
    r->calls = 4 * r->rounds;
    close_dispatcher(d);
}

/* ---- the plan of `ntrun threads`: workers take a mutex, release a semaphore and release the mutex */

struct worker { struct dispatcher *d; uint32_t who, mutex, semaphore, start; uint64_t rounds; };

static void *work(void *it) {
    struct worker *w = it;
    wants(wait_objects(w->d, w->who, &w->start, 1, false, INFINITE, true) == 0);
    for (uint64_t i = 0; i < w->rounds; i++) {
        wants(wait_objects(w->d, w->who, &w->mutex, 1, false, INFINITE, true) == 0);
        wants(release_semaphore(w->d, w->who, w->semaphore, 1) >= 0);
        wants(release_mutex(w->d, w->who, w->mutex) == DONE);
    }
    wants(exit_thread(w->d, w->who) == DONE);
    return NULL;
}

static void workers(struct run *r) {
    uint32_t n = r->size;
    uint64_t began = now();
    struct dispatcher *d = some(open_dispatcher(n + 1, 7 + MOST_ROWS + n * (4 * r->rounds + 3), true));
    uint32_t m = (uint32_t)create_mutex(d, 0), s = (uint32_t)create_semaphore(d, 0, 0, (int32_t)(n * r->rounds));
    uint32_t start = (uint32_t)create_event(d, 0, true), threads[MOST_HANDLES];
    struct worker worker[MOST_HANDLES];
    pthread_t child[MOST_HANDLES];
    for (uint32_t i = 0; i < n; i++) {
        threads[i] = i + 1;
        worker[i] = (struct worker){d, i + 1, m, s, start, r->rounds};
        wants(pthread_create(&child[i], NULL, work, &worker[i]) == 0);
    }
    wants(set_event(d, 0, start) == DONE);
    wants(wait_objects(d, 0, threads, n, true, INFINITE, true) == 0);
    wants(exit_thread(d, 0) == DONE);
    for (uint32_t i = 0; i < n; i++) pthread_join(child[i], NULL);
    r->grants = count_releases(d);
    r->nanos = now() - began;
    wants(r->grants == n * r->rounds);
    r->calls = 3 * n * r->rounds;
    close_dispatcher(d);
}

/* ---- what lies below */

static void bare_mutex(struct run *r) {
    pthread_mutex_t lock = PTHREAD_MUTEX_INITIALIZER;
    volatile uint64_t held = 0;
    uint64_t began = now();
    for (uint64_t i = 0; i < r->rounds; i++) { pthread_mutex_lock(&lock); held++; pthread_mutex_unlock(&lock); }
    r->nanos = now() - began;
    r->calls = r->rounds;
}

static _Atomic uint32_t turn;

static void futex_until(uint32_t wanted) {
    for (uint32_t seen; (seen = atomic_load(&turn)) != wanted;) syscall(SYS_futex, &turn, FUTEX_WAIT_PRIVATE, seen, NULL, NULL, 0);
}
static void futex_pass(uint32_t to) { atomic_store(&turn, to); syscall(SYS_futex, &turn, FUTEX_WAKE_PRIVATE, 1, NULL, NULL, 0); }
static void *futex_answers(void *it) {
    for (uint64_t i = 0; i < *(uint64_t *)it; i++) { futex_until(1); futex_pass(0); }
    return NULL;
}

static void futex_round_trip(struct run *r) {
    pthread_t child;
    turn = 0;
    wants(pthread_create(&child, NULL, futex_answers, &r->rounds) == 0);
    uint64_t began = now();
    for (uint64_t i = 0; i < r->rounds; i++) { futex_pass(1); futex_until(0); }
    r->nanos = now() - began;
    pthread_join(child, NULL);
    r->calls = 4 * r->rounds;
}

/* ---- the program */

static const struct { const char *name; void (*run)(struct run *); uint32_t size; } shapes[] = {
    {"event", event, 1}, {"event_beside", event, 3}, {"event_crowd", event, 2},
    {"mutex", mutex, 1}, {"mutex_beside", mutex, 3}, {"mutex_crowd", mutex, 2},
    {"semaphore", semaphore, 1}, {"semaphore_beside", semaphore, 3}, {"semaphore_crowd", semaphore, 2}, {"any_of_64", any_of_64, 1}, {"any_of_64_crowd", any_of_64, 2},
    {"one_of_64", one_of_64, 1}, {"one_of_64_crowd", one_of_64, 2}, {"tick_100", ticks, 100}, {"tick_10000", ticks, 10000},
    {"round_trip", round_trip, 1}, {"round_trip_crowd", round_trip, 2},
    {"threads_2", workers, 2}, {"threads_8", workers, 8}, {"threads_64", workers, 64},
    {"core_alone", core_alone, 1}, {"core_and_journal", core_and_journal, 1},
    {"bare_lock", bare_mutex, 1}, {"futex_round_trip", futex_round_trip, 1},
};

static uint64_t picoseconds(const struct run *r) { return r->nanos * 1000 / (r->calls ? r->calls : 1); }

int main(int count, char **words) {
    bool asked = count > 2;
    for (size_t i = 0; i < sizeof shapes / sizeof *shapes; i++) {
        if (asked && strcmp(words[1], shapes[i].name)) continue;
        struct run cold = {.size = shapes[i].size, .rounds = asked ? strtoull(words[2], NULL, 10) : 3}, warm = cold;
        if (shapes[i].size == 3) make_room_for_a_thread();
        shapes[i].run(&cold);
        if (asked) shapes[i].run(&warm);
        printf("%s: %llu calls, %llu grants", shapes[i].name, (unsigned long long)cold.calls, (unsigned long long)cold.grants);
        if (asked) printf(", %llu ps a call at first, %llu ps a call then", (unsigned long long)picoseconds(&cold), (unsigned long long)picoseconds(&warm));
        puts("");
    }
    return 0;
}
