#define _GNU_SOURCE
#include "dispatcher.h"
#include <linux/futex.h>
#include <pthread.h>
#include <stdatomic.h>
#include <stdlib.h>
#include <string.h>
#include <sys/syscall.h>
#include <unistd.h>

enum kind { EVENT, SEMAPHORE, MUTEX, TIMER, THREAD };
enum { MOST_OBJECTS = 65536, NOBODY = -1, WOKEN_LATER = 64 };
#define NOWHERE UINT32_MAX

/* How often a thread looks at its word before it sleeps: half as often where that was in vain, and again in 2 of a number of waits. */
enum { LOOKS = 1000, TRIES = 2, WAITS_A_TRY = 4096 };

/* What a thread's word says: the status of its wait that ended, or that it pends and its thread looks (PENDED) or sleeps. */
enum { SLEEPS = -5 };

struct block {
    struct block *next, *previous;
    uint32_t thread, object;
};

/* Any kind is signaled for a thread where `signal` is above 0 or the thread owns it: a semaphore's count; 1 of a free mutex, a set event. */
struct object {
    int32_t signal, owner;
    struct block *first, *last;
    uint32_t stamp;         /* of the last wait that named it */
    uint8_t kind;
    bool manual, mark;
    int32_t maximum;
    uint32_t depth;
    uint32_t next_owned, previous_owned;    /* in its owner's list */
    uint32_t place;         /* among the armed timers */
    uint64_t due, period;
};

struct thread {
    _Atomic int word;
    bool pends, all, ended;
    uint32_t count, first_owned, looks;
    struct block blocks[MOST_HANDLES];
};

struct dispatcher {
    pthread_mutex_t lock;
    bool locked;
    uint32_t threads, objects, room, armed, stamp, begun;
    uint32_t wakes, woken[WOKEN_LATER];     /* the threads that sleep and whose waits the present call ended */
    struct object *object;
    struct thread *thread;
    uint32_t *timers;                       /* a heap by due moment, of the armed timers' numbers */
    uint32_t *freed;                        /* the mutexes that an exit frees */
    uint64_t now;
    uint32_t pending;
    struct row *journal;
    size_t rows, places;
};

/* What is tested on each call, and mostly is not so. */
#define rarely(it) __builtin_expect(!!(it), 0)
#define INLINE static inline __attribute__((always_inline))
#define APART static __attribute__((noinline))

/* ---- the lock, and the threads to be woken */

static void sleep_on(_Atomic int *word, int seen) { syscall(SYS_futex, word, FUTEX_WAIT_PRIVATE, seen, NULL, NULL, 0); }
static void wake(_Atomic int *word) { syscall(SYS_futex, word, FUTEX_WAKE_PRIVATE, 1, NULL, NULL, 0); }

INLINE void enter(struct dispatcher *d) {
    if (d->locked) pthread_mutex_lock(&d->lock);
}

APART void leave_and_wake(struct dispatcher *d) {
    uint32_t wakes = d->wakes, woken[WOKEN_LATER];
    memcpy(woken, d->woken, wakes * sizeof *woken);
    d->wakes = 0;
    pthread_mutex_unlock(&d->lock);
    for (uint32_t i = 0; i < wakes; i++) wake(&d->thread[woken[i]].word);
}

/* Gives the lock back, and then wakes those who sleep and whose waits ended. */
INLINE void leave(struct dispatcher *d) {
    if (!d->locked) return;
    if (rarely(d->wakes)) leave_and_wake(d);
    else pthread_mutex_unlock(&d->lock);
}

/* ---- the journal */

/* Whether it has no room for that number of rows and one for the end of each wait that pends. */
INLINE bool is_full(const struct dispatcher *d, uint32_t rows) { return rarely(d->places && d->rows + rows + d->pending > d->places); }

INLINE struct row *write_row(struct dispatcher *d, enum call call, uint32_t who, uint32_t object, int32_t count, int32_t answer, uint64_t moment) {
    if (!d->places) return NULL;
    struct row *row = &d->journal[d->rows++];
    *row = (struct row){(uint8_t)call, false, false, (uint16_t)who, object, count, answer, moment};
    return row;
}

static uint32_t rows_of(uint32_t handles) { return (handles + HANDLES_A_ROW - 1) / HANDLES_A_ROW; }

/* ---- what an object of each kind answers */

INLINE bool signaled(const struct object *o, uint32_t t) { return o->signal > 0 || o->owner == (int32_t)t; }

static void own(struct dispatcher *d, struct object *o, uint32_t t) {
    uint32_t h = (uint32_t)(o - d->object);
    struct thread *owner = &d->thread[t];
    o->owner = (int32_t)t;
    o->signal = 0;
    o->previous_owned = NOWHERE;
    o->next_owned = owner->first_owned;
    if (owner->first_owned != NOWHERE) d->object[owner->first_owned].previous_owned = h;
    owner->first_owned = h;
}

static void disown(struct dispatcher *d, struct object *o) {
    if (o->previous_owned != NOWHERE) d->object[o->previous_owned].next_owned = o->next_owned;
    else d->thread[o->owner].first_owned = o->next_owned;
    if (o->next_owned != NOWHERE) d->object[o->next_owned].previous_owned = o->previous_owned;
    o->owner = NOBODY;
    o->signal = 1;
    o->depth = 0;
}

INLINE void take(struct dispatcher *d, struct object *o, uint32_t t) {
    switch (o->kind) {
    case EVENT: case TIMER: if (!o->manual) o->signal = 0; break;
    case SEMAPHORE: o->signal--; break;
    case MUTEX: if (o->owner == NOBODY) own(d, o, t); o->depth++; o->mark = false; break;
    case THREAD: break;
    }
}

/* Takes this object for a wait of which it is the one with this index; the status of the wait. */
INLINE int take_at(struct dispatcher *d, struct object *o, uint32_t t, uint32_t index) {
    int status = (int)index + (o->mark ? 0x80 : 0);
    take(d, o, t);
    return status;
}

/* The status of a pending wait that its objects satisfy, which it then takes; or PENDED. */
static int try_blocks(struct dispatcher *d, uint32_t t, const struct thread *w) {
    if (!w->all) {
        for (uint32_t i = 0; i < w->count; i++) {
            struct object *o = &d->object[w->blocks[i].object];
            if (signaled(o, t)) return take_at(d, o, t, i);
        }
        return PENDED;
    }
    bool mark = false;
    for (uint32_t i = 0; i < w->count; i++) {
        const struct object *o = &d->object[w->blocks[i].object];
        if (!signaled(o, t)) return PENDED;
        mark |= o->mark;
    }
    for (uint32_t i = 0; i < w->count; i++) take(d, &d->object[w->blocks[i].object], t);
    return mark ? 0x80 : 0;
}

/* ---- pending waits */

INLINE void link_blocks(struct dispatcher *d, uint32_t t, const uint32_t *handles, uint32_t count, bool all) {
    struct thread *w = &d->thread[t];
    w->count = count;
    w->all = all;
    w->pends = true;
    atomic_store_explicit(&w->word, PENDED, memory_order_relaxed);
    for (uint32_t i = 0; i < count; i++) {
        struct block *b = &w->blocks[i];
        struct object *o = &d->object[handles[i]];
        *b = (struct block){NULL, o->last, t, handles[i]};
        if (o->last) o->last->next = b; else o->first = b;
        o->last = b;
    }
    d->pending++;
}

INLINE void unlink_block(struct dispatcher *d, struct block *b) {
    struct object *o = &d->object[b->object];
    if (b->previous) b->previous->next = b->next; else o->first = b->next;
    if (b->next) b->next->previous = b->previous; else o->last = b->previous;
}

static void end_wait(struct dispatcher *d, uint32_t t, int status) {
    struct thread *w = &d->thread[t];
    for (uint32_t i = 0; i < w->count; i++) unlink_block(d, &w->blocks[i]);
    w->pends = false;
    d->pending--;
    write_row(d, GRANT, t, 0, 0, status, 0);
    if (atomic_exchange_explicit(&w->word, status, memory_order_acq_rel) != SLEEPS) return;
    if (d->wakes < WOKEN_LATER) d->woken[d->wakes++] = t;
    else wake(&w->word);
}

/* Grants the waits on this object that fit, from the oldest on, as long as it is signaled for somebody. */
APART void serve(struct dispatcher *d, struct object *o) {
    for (struct block *b = o->first, *next; b && signaled(o, b->thread); b = next) {
        next = b->next;
        uint32_t t = b->thread;
        const struct thread *w = &d->thread[t];
        int status = w->count == 1 ? take_at(d, o, t, 0) : try_blocks(d, t, w);
        if (status != PENDED) end_wait(d, t, status);
    }
}

INLINE void served(struct dispatcher *d, struct object *o) {
    if (o->first) serve(d, o);
}

/* ---- armed timers */

static void place_timer(struct dispatcher *d, uint32_t at, uint32_t h) { d->timers[at] = h; d->object[h].place = at; }

static void sift(struct dispatcher *d, uint32_t at) {
    uint32_t h = d->timers[at];
    uint64_t due = d->object[h].due;
    while (at > 0 && d->object[d->timers[(at - 1) / 2]].due > due) { place_timer(d, at, d->timers[(at - 1) / 2]); at = (at - 1) / 2; }
    for (uint32_t child; (child = 2 * at + 1) < d->armed; at = child) {
        if (child + 1 < d->armed && d->object[d->timers[child + 1]].due < d->object[d->timers[child]].due) child++;
        if (d->object[d->timers[child]].due >= due) break;
        place_timer(d, at, d->timers[child]);
    }
    place_timer(d, at, h);
}

static void disarm(struct dispatcher *d, uint32_t h) {
    uint32_t at = d->object[h].place, last = d->timers[--d->armed];
    d->object[h].place = NOWHERE;
    if (last != h) { place_timer(d, at, last); sift(d, at); }
}

static void arm(struct dispatcher *d, uint32_t h) {
    place_timer(d, d->armed++, h);
    sift(d, d->armed - 1);
}

/* ---- calls: the row of a call comes before those of the waits that it ends */

INLINE bool is_caller(const struct dispatcher *d, uint32_t who) { return who < d->threads && !d->thread[who].pends && !d->thread[who].ended; }
INLINE bool is(const struct dispatcher *d, uint32_t h, enum kind kind) { return h < d->objects && d->object[h].kind == kind; }

/* Gives the lock back after a call that the journal has no room for. */
APART int full(struct dispatcher *d) { leave(d); return FULL; }

static bool has_room(struct dispatcher *d) {
    if (d->objects < d->room) return true;
    struct object *object = realloc(d->object, 2 * d->room * sizeof *object);
    if (object) d->object = object;
    uint32_t *timers = realloc(d->timers, 2 * d->room * sizeof *timers);
    if (timers) d->timers = timers;
    uint32_t *freed = realloc(d->freed, 2 * d->room * sizeof *freed);
    if (freed) d->freed = freed;
    if (object && timers && freed) d->room *= 2;
    return object && timers && freed;
}

static int create(struct dispatcher *d, uint32_t who, struct object made) {
    enter(d);
    if (is_full(d, 1)) return full(d);
    int answer = REFUSED;
    if (is_caller(d, who) && d->objects < MOST_OBJECTS) {
        answer = MEMORY;
        if (has_room(d)) {
            made.owner = NOBODY;
            made.place = NOWHERE;
            d->object[d->objects] = made;
            answer = (int)d->objects++;
        }
    }
    write_row(d, CREATE, who, made.kind, made.maximum, answer, 0);
    leave(d);
    return answer;
}

int create_event(struct dispatcher *d, uint32_t who, bool manual) { return create(d, who, (struct object){.kind = EVENT, .manual = manual}); }
int create_mutex(struct dispatcher *d, uint32_t who) { return create(d, who, (struct object){.kind = MUTEX, .signal = 1}); }
int create_timer(struct dispatcher *d, uint32_t who, bool manual) { return create(d, who, (struct object){.kind = TIMER, .manual = manual}); }
int create_semaphore(struct dispatcher *d, uint32_t who, int32_t count, int32_t maximum) {
    if (maximum <= 0 || count < 0 || count > maximum) return REFUSED;
    return create(d, who, (struct object){.kind = SEMAPHORE, .signal = count, .maximum = maximum});
}

int set_event(struct dispatcher *d, uint32_t who, uint32_t event) {
    enter(d);
    if (is_full(d, 1)) return full(d);
    bool may = is_caller(d, who) && is(d, event, EVENT);
    write_row(d, SET, who, event, 0, may ? DONE : REFUSED, 0);
    if (may && !d->object[event].signal) { d->object[event].signal = 1; served(d, &d->object[event]); }
    leave(d);
    return may ? DONE : REFUSED;
}

int reset_event(struct dispatcher *d, uint32_t who, uint32_t event) {
    enter(d);
    if (is_full(d, 1)) return full(d);
    bool may = is_caller(d, who) && is(d, event, EVENT);
    write_row(d, RESET, who, event, 0, may ? DONE : REFUSED, 0);
    if (may) d->object[event].signal = 0;
    leave(d);
    return may ? DONE : REFUSED;
}

int release_semaphore(struct dispatcher *d, uint32_t who, uint32_t semaphore, int32_t count) {
    enter(d);
    if (is_full(d, 1)) return full(d);
    struct object *o = &d->object[semaphore];
    bool may = is_caller(d, who) && is(d, semaphore, SEMAPHORE) && count > 0 && count <= o->maximum - o->signal;
    int answer = may ? o->signal : REFUSED;
    write_row(d, RELEASE, who, semaphore, count, answer, 0);
    if (may) { o->signal += count; served(d, o); }
    leave(d);
    return answer;
}

int release_mutex(struct dispatcher *d, uint32_t who, uint32_t mutex) {
    enter(d);
    if (is_full(d, 1)) return full(d);
    struct object *o = &d->object[mutex];
    bool may = is_caller(d, who) && is(d, mutex, MUTEX) && o->owner == (int32_t)who;
    write_row(d, UNLOCK, who, mutex, 0, may ? DONE : REFUSED, 0);
    if (may && --o->depth == 0) { disown(d, o); served(d, o); }
    leave(d);
    return may ? DONE : REFUSED;
}

int arm_timer(struct dispatcher *d, uint32_t who, uint32_t timer, uint64_t due, uint64_t period) {
    enter(d);
    if (is_full(d, 1)) return full(d);
    bool may = is_caller(d, who) && is(d, timer, TIMER) && due > d->now;
    if (may) {
        struct object *o = &d->object[timer];
        if (o->place != NOWHERE) disarm(d, timer);
        o->signal = 0;
        o->due = due;
        o->period = period;
        arm(d, timer);
    }
    write_row(d, ARM, who, timer, 0, may ? DONE : REFUSED, due);
    leave(d);
    return may ? DONE : REFUSED;
}

int tick(struct dispatcher *d, uint32_t who, uint64_t moment) {
    enter(d);
    if (is_full(d, 1)) return full(d);
    bool may = moment >= d->now;
    write_row(d, TICK, who, 0, 0, may ? DONE : REFUSED, moment);
    if (may) d->now = moment;
    while (may && d->armed && d->object[d->timers[0]].due <= moment) {
        uint32_t h = d->timers[0];
        struct object *o = &d->object[h];
        bool was_set = o->signal;
        o->signal = 1;
        if (o->period) { o->due += (moment - o->due) / o->period * o->period + o->period; sift(d, 0); }
        else disarm(d, h);
        if (!was_set) served(d, o);
    }
    leave(d);
    return may ? DONE : REFUSED;
}

int exit_thread(struct dispatcher *d, uint32_t who) {
    enter(d);
    if (is_full(d, 1)) return full(d);
    bool may = is_caller(d, who);
    write_row(d, EXIT, who, 0, 0, may ? DONE : REFUSED, 0);
    if (may) {
        uint32_t count = 0;
        d->thread[who].ended = true;
        d->object[who].signal = 1;
        for (uint32_t h = d->thread[who].first_owned, next; h != NOWHERE; h = next) {
            next = d->object[h].next_owned;
            disown(d, &d->object[h]);
            d->object[h].mark = true;
            d->freed[count++] = h;
        }
        served(d, &d->object[who]);
        for (uint32_t i = 0; i < count; i++) served(d, &d->object[d->freed[i]]);
    }
    leave(d);
    return may ? DONE : REFUSED;
}

/* ---- waits */

/* Looks at the thread's word for a while, and then sleeps on it, until its wait has ended. */
APART int sleep_until_granted(struct thread *w, bool tries) {
    uint32_t looks = tries ? LOOKS : w->looks;
    int status = PENDED;
    for (uint32_t i = 0; i < looks; i++) {
        if ((status = atomic_load_explicit(&w->word, memory_order_acquire)) != PENDED) { w->looks = LOOKS; return status; }
        __builtin_ia32_pause();
    }
    if (looks) w->looks /= 2;
    if (!atomic_compare_exchange_strong_explicit(&w->word, &status, SLEEPS, memory_order_acq_rel, memory_order_acquire)) return status;
    while ((status = atomic_load_explicit(&w->word, memory_order_acquire)) == SLEEPS) sleep_on(&w->word, SLEEPS);
    return status;
}

/* The wait pends from now on, and where the caller sleeps it does so until that has ended. */
APART int pend(struct dispatcher *d, uint32_t who, const uint32_t *handles, uint32_t count, bool all, bool sleeps) {
    if (count == 1) link_blocks(d, who, handles, 1, false);
    else link_blocks(d, who, handles, count, all);
    bool tries = d->begun++ % WAITS_A_TRY < TRIES;
    leave(d);
    return sleeps && d->locked ? sleep_until_granted(&d->thread[who], tries) : PENDED;
}

static int wait_for_one(struct dispatcher *d, uint32_t who, const uint32_t *handle, uint32_t ms, bool sleeps) {
    enter(d);
    if (is_full(d, 1)) return full(d);
    struct object *o = &d->object[*handle];
    int answer = REFUSED;
    if (is_caller(d, who) && *handle < d->objects) answer = signaled(o, who) ? take_at(d, o, who, 0) : ms == 0 ? TIMEOUT : PENDED;
    write_row(d, WAIT, who, *handle, (int32_t)ms, answer, 0);
    if (answer == PENDED) return pend(d, who, handle, 1, false, sleeps);
    leave(d);
    return answer;
}

/* Whether the wait names objects that are there, none twice. On the way it finds the first that is signaled, and how many are. */
static bool look_at(struct dispatcher *d, uint32_t who, const uint32_t *handles, uint32_t count, uint32_t *first, uint32_t *ready, bool *mark) {
    uint32_t stamp = ++d->stamp;
    for (uint32_t i = count; i-- > 0;) {
        struct object *o = &d->object[handles[i]];
        if (handles[i] >= d->objects || o->stamp == stamp) return false;
        o->stamp = stamp;
        if (signaled(o, who)) { *first = i; ++*ready; *mark |= o->mark; }
    }
    return true;
}

static int wait_for_several(struct dispatcher *d, uint32_t who, const uint32_t *handles, uint32_t count, bool all, uint32_t ms, bool sleeps) {
    uint32_t rows = rows_of(count), first = 0, ready = 0;
    bool mark = false;
    enter(d);
    if (is_full(d, 1 + rows)) return full(d);
    int answer = REFUSED;
    if (is_caller(d, who) && look_at(d, who, handles, count, &first, &ready, &mark)) {
        answer = ms == 0 ? TIMEOUT : PENDED;
        if (!all && ready) {
            answer = take_at(d, &d->object[handles[first]], who, first);
        } else if (all && ready == count) {
            for (uint32_t i = 0; i < count; i++) take(d, &d->object[handles[i]], who);
            answer = mark ? 0x80 : 0;
        }
    }
    struct row *row = write_row(d, WAIT, who, count, (int32_t)ms, answer, 0);
    if (row) {
        row->all = all;
        row->several = true;
        memcpy(row + 1, handles, count * sizeof *handles);
        d->rows += rows;
    }
    if (answer == PENDED) return pend(d, who, handles, count, all, sleeps);
    leave(d);
    return answer;
}

int wait_objects(struct dispatcher *d, uint32_t who, const uint32_t *handles, uint32_t count, bool all, uint32_t ms, bool sleeps) {
    if (count == 1) return wait_for_one(d, who, handles, ms, sleeps);
    return count == 0 || count > MOST_HANDLES ? REFUSED : wait_for_several(d, who, handles, count, all, ms, sleeps);
}

int poll_wait(struct dispatcher *d, uint32_t who) {
    int status = atomic_load_explicit(&d->thread[who].word, memory_order_acquire);
    return status == SLEEPS ? PENDED : status;
}

/* ---- opening and closing */

struct dispatcher *open_dispatcher(uint32_t threads, size_t rows, bool locked) {
    struct dispatcher *d = calloc(1, sizeof *d);
    if (!d) return NULL;
    pthread_mutex_init(&d->lock, NULL);
    d->locked = locked;
    d->threads = d->objects = threads;
    d->room = threads < 8 ? 8 : threads;
    d->object = calloc(d->room, sizeof *d->object);
    d->timers = calloc(d->room, sizeof *d->timers);
    d->freed = calloc(d->room, sizeof *d->freed);
    d->thread = calloc(threads, sizeof *d->thread);
    d->places = rows;
    d->journal = rows ? malloc(rows * sizeof *d->journal) : NULL;
    if (!d->object || !d->timers || !d->freed || !d->thread || (rows && !d->journal)) { close_dispatcher(d); return NULL; }
    for (uint32_t t = 0; t < threads; t++) {
        d->object[t] = (struct object){.kind = THREAD, .owner = NOBODY, .place = NOWHERE};
        d->thread[t].first_owned = NOWHERE;
        d->thread[t].looks = LOOKS;
    }
    return d;
}

void close_dispatcher(struct dispatcher *d) {
    free(d->object); free(d->timers); free(d->freed); free(d->thread); free(d->journal);
    free(d);
}

uint64_t count_releases(const struct dispatcher *d) {
    uint64_t count = 0;
    for (size_t at = 0; at < d->rows; at++) {
        const struct row *row = &d->journal[at];
        count += row->call == RELEASE && row->answer >= 0;
        if (row->several) at += rows_of(row->object);
    }
    return count;
}
