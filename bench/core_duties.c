/* A peer for the core in plain C, with the core's duties in the calls of the shapes: handles apart from objects, with rights, which keep their
   objects; a list of the mutexes of each thread; a wait's deadline, whether it is alertable, and the right to take APCs; marks of
   objects that nothing keeps; a count of the waits that were looked at. Else it is bench/core.c.

   What no shape needs it lacks: APCs, timers, a tree of deadlines, and the end of an object that is marked. */
#include <stdbool.h>
#include <stdint.h>
#include <stdio.h>
#include <stdlib.h>
#include <string.h>
#include <time.h>

/* What is called on every way stands in its caller, as it does in the core. */
#define INLINE static inline __attribute__((always_inline))

enum { THREADS = 256, MOST = 64, HANDLES = 65536 };
enum kind { EVENT, SEMAPHORE, MUTEX, THREAD };
enum { DONE = -1, PENDED = -2, REFUSED = -3, NOBODY = -1 };

struct block {
    struct block *next, *previous;
    uint32_t thread, object;
};
struct object {
    uint8_t kind;
    bool manual, set, mark;
    int32_t count, maximum;
    int32_t owner;
    uint32_t depth, stamp, named, next_owned, previous_owned;
    struct block *first, *last;
};
struct wait {
    uint32_t count;
    bool all, pends, alertable, handing, ended;
    uint32_t first_owned, apcs;
    uint64_t deadline;
    struct block blocks[MOST];
};
struct grant {
    uint32_t thread;
    int status;
};
enum { SYNC = 1 << 20, MODIFY = 2 };
#define NOWHERE UINT32_MAX
struct handle {
    uint32_t object, access;
    bool open;
};
struct core {
    struct handle *handle;
    uint32_t handles, leaving;
    uint64_t looked, moment;
    uint32_t threads, objects, room, grants, stamp;
    struct object *object;
    struct wait *wait;
    struct grant granted[THREADS];
};

INLINE bool signaled(const struct object *o, uint32_t t) {
    switch (o->kind) {
    case SEMAPHORE: return o->count > 0;
    case MUTEX: return o->owner < 0 || o->owner == (int32_t)t;
    default: return o->set;
    }
}

static void own(struct core *c, uint32_t h, uint32_t t) {
    struct object *o = &c->object[h];
    o->previous_owned = NOWHERE;
    o->next_owned = c->wait[t].first_owned;
    if (o->next_owned != NOWHERE) c->object[o->next_owned].previous_owned = h;
    c->wait[t].first_owned = h;
}
static void disown(struct core *c, uint32_t h) {
    struct object *o = &c->object[h];
    if (o->previous_owned != NOWHERE) c->object[o->previous_owned].next_owned = o->next_owned;
    else c->wait[o->owner].first_owned = o->next_owned;
    if (o->next_owned != NOWHERE) c->object[o->next_owned].previous_owned = o->previous_owned;
    o->owner = NOBODY;
}
INLINE void take(struct core *c, struct object *o, uint32_t t) {
    switch (o->kind) {
    case EVENT:
        if (!o->manual) o->set = false;
        break;
    case SEMAPHORE: o->count--; break;
    case MUTEX:
        if (o->owner == NOBODY) {
            own(c, (uint32_t)(o - c->object), t);
            o->owner = (int32_t)t;
        }
        o->depth++;
        o->mark = false;
        break;
    case THREAD: break;
    }
}

INLINE int try_one(struct core *c, struct object *o, uint32_t t) {
    if (!signaled(o, t)) return -1;
    int status = o->mark ? 0x80 : 0;
    take(c, o, t);
    return status;
}

static int try_blocks(struct core *c, uint32_t t, const struct block *b, uint32_t count, bool all) {
    if (!all) {
        for (uint32_t i = 0; i < count; i++) {
            struct object *o = &c->object[b[i].object];
            if (signaled(o, t)) {
                int status = (int)i + (o->mark ? 0x80 : 0);
                take(c, o, t);
                return status;
            }
        }
        return -1;
    }
    bool mark = false;
    for (uint32_t i = 0; i < count; i++) {
        if (!signaled(&c->object[b[i].object], t)) return -1;
        mark |= c->object[b[i].object].mark;
    }
    for (uint32_t i = 0; i < count; i++) take(c, &c->object[b[i].object], t);
    return mark ? 0x80 : 0;
}

/* The status of a wait that its objects satisfy, which it then takes; or -1. */
static int try_wait(struct core *c, uint32_t t, const uint32_t *handles, uint32_t count, bool all) {
    if (!all) {
        for (uint32_t i = 0; i < count; i++) {
            struct object *o = &c->object[handles[i]];
            if (signaled(o, t)) {
                int status = (int)i + (o->mark ? 0x80 : 0);
                take(c, o, t);
                return status;
            }
        }
        return -1;
    }
    bool mark = false;
    for (uint32_t i = 0; i < count; i++) {
        if (!signaled(&c->object[handles[i]], t)) return -1;
        mark |= c->object[handles[i]].mark;
    }
    for (uint32_t i = 0; i < count; i++) take(c, &c->object[handles[i]], t);
    return mark ? 0x80 : 0;
}

static inline void leave_queue(struct object *o, struct block *b) {
    if (b->previous) b->previous->next = b->next;
    else o->first = b->next;
    if (b->next) b->next->previous = b->previous;
    else o->last = b->previous;
}

static void serve_first(struct core *c, uint32_t h) {
    struct object *o = &c->object[h];
    struct block *b = o->first, *next;
    do {
        next = b->next;
        uint32_t t = b->thread;
        struct wait *w = &c->wait[t];
        int status;
        c->looked++;
        if (w->count == 1) {
            status = try_one(c, o, t);
            if (status >= 0) {
                leave_queue(o, b);
                if (o->named == 0) c->leaving = h;
            }
        } else {
            status = try_blocks(c, t, w->blocks, w->count, w->all);
            if (status >= 0)
                for (uint32_t i = 0; i < w->count; i++) {
                    struct object *x = &c->object[w->blocks[i].object];
                    leave_queue(x, &w->blocks[i]);
                    if (x->named == 0) c->leaving = w->blocks[i].object;
                }
        }
        if (status >= 0) {
            w->pends = false;
            w->handing = false;
            c->granted[c->grants++] = (struct grant){t, status};
        }
        b = next;
    } while (b && signaled(o, b->thread));
}
static inline void serve(struct core *c, uint32_t h) {
    if (c->object[h].first) serve_first(c, h);
}

INLINE bool may_call(struct core *c, uint32_t who) {
    c->grants = 0;
    c->looked = 0;
    return who < c->threads && !c->wait[who].ended && !c->wait[who].pends;
}
INLINE bool opened(struct core *c, uint32_t *h, uint32_t right) {
    if (*h >= c->handles || !c->handle[*h].open) return false;
    bool may = (c->handle[*h].access & right) == right;
    *h = c->handle[*h].object;
    return may && *h < c->objects;
}
INLINE bool is(struct core *c, uint32_t *h, enum kind kind, uint32_t right) {
    return opened(c, h, right) && c->object[*h].kind == kind;
}
__attribute__((noinline)) static void end_left(struct core *c) {
    c->leaving = NOWHERE;
}
static inline int done(struct core *c, int answer) {
    if (c->leaving != NOWHERE) end_left(c);
    return answer;
}

static int set(struct core *c, uint32_t who, uint32_t h) {
    if (!may_call(c, who) || !is(c, &h, EVENT, MODIFY)) return REFUSED;
    if (!c->object[h].set) {
        c->object[h].set = true;
        serve(c, h);
    }
    return done(c, DONE);
}

static int pulse(struct core *c, uint32_t who, uint32_t h) {
    if (!may_call(c, who) || !is(c, &h, EVENT, MODIFY)) return REFUSED;
    if (!c->object[h].set) {
        c->object[h].set = true;
        serve(c, h);
    }
    c->object[h].set = false;
    return done(c, DONE);
}

static int release(struct core *c, uint32_t who, uint32_t h, int32_t n) {
    if (!may_call(c, who) || !is(c, &h, SEMAPHORE, MODIFY) || n <= 0) return REFUSED;
    struct object *o = &c->object[h];
    if ((int64_t)o->count + n > o->maximum) return REFUSED;
    int before = o->count;
    o->count += n;
    serve(c, h);
    return done(c, before);
}

static int unlock(struct core *c, uint32_t who, uint32_t h) {
    if (!may_call(c, who) || !is(c, &h, MUTEX, 0) || c->object[h].owner != (int32_t)who) return REFUSED;
    struct object *o = &c->object[h];
    if (--o->depth == 0) {
        disown(c, h);
        serve(c, h);
    }
    return done(c, DONE);
}

__attribute__((noinline)) static void set_deadline(struct core *c, uint32_t who, uint64_t at) {
    c->wait[who].deadline = at;
}
INLINE int begin(struct core *c, uint32_t who, const uint32_t *handles, uint32_t count, bool all, uint32_t ms, bool alertable) {
    int status = count == 1 ? try_one(c, &c->object[handles[0]], who) : try_wait(c, who, handles, count, all);
    struct wait *w = &c->wait[who];
    if (status >= 0) {
        w->handing = false;
        return status;
    }
    if (alertable && w->apcs) {
        w->handing = true;
        return 0xC0;
    }
    if (ms == 0) {
        w->handing = false;
        return 0x102;
    }
    w->count = count;
    w->all = all;
    w->pends = true;
    w->alertable = alertable;
    w->deadline = ms == UINT32_MAX ? UINT64_MAX : c->moment + ms * 10000ull;
    if (w->deadline != UINT64_MAX) set_deadline(c, who, w->deadline);
    for (uint32_t i = 0; i < count; i++) {
        struct block *b = &w->blocks[i];
        struct object *o = &c->object[handles[i]];
        *b = (struct block){NULL, o->last, who, handles[i]};
        if (o->last) o->last->next = b;
        else o->first = b;
        o->last = b;
    }
    return PENDED;
}

static int wait(struct core *c, uint32_t who, const uint32_t *handles, uint32_t count, bool all, uint32_t ms, bool alertable) {
    if (!may_call(c, who) || count == 0 || count > MOST) return REFUSED;
    if (count == 1) {
        uint32_t h = handles[0];
        return opened(c, &h, SYNC) ? done(c, begin(c, who, &h, 1, all, ms, alertable)) : REFUSED;
    }
    uint32_t list[MOST];
    c->stamp++;
    for (uint32_t i = 0; i < count; i++) {
        list[i] = handles[i];
        if (!opened(c, &list[i], SYNC) || c->object[list[i]].stamp == c->stamp) return REFUSED;
        c->object[list[i]].stamp = c->stamp;
    }
    return done(c, begin(c, who, list, count, all, ms, alertable));
}

/* Signals one object, serves the others, and waits for the other: all refusals first. */
static int swap(struct core *c, uint32_t who, uint32_t h, uint32_t object, uint32_t ms, bool alertable) {
    if (!may_call(c, who) || !opened(c, &h, MODIFY) || !opened(c, &object, SYNC)) return REFUSED;
    struct object *o = &c->object[h];
    switch (o->kind) {
    case EVENT:
        if (!o->set) {
            o->set = true;
            serve(c, h);
        }
        break;
    case SEMAPHORE:
        if (o->count == o->maximum) return REFUSED;
        o->count++;
        serve(c, h);
        break;
    case MUTEX:
        if (o->owner != (int32_t)who) return REFUSED;
        if (--o->depth == 0) {
            disown(c, h);
            serve(c, h);
        }
        break;
    case THREAD: return REFUSED;
    }
    return done(c, begin(c, who, &object, 1, false, ms, alertable));
}

static int make(struct core *c, uint32_t who, struct object made) {
    if (!may_call(c, who) || c->objects == HANDLES) return REFUSED;
    if (c->objects == c->room) {
        struct object *more = realloc(c->object, 2 * c->room * sizeof *more);
        if (!more) return REFUSED;
        c->object = more;
        c->room *= 2;
    }
    made.named = 1;
    c->object[c->objects] = made;
    if (made.owner >= 0) own(c, c->objects, (uint32_t)made.owner);
    c->handle[c->handles] = (struct handle){c->objects++, SYNC | MODIFY, true};
    return (int)c->handles++;
}

static void *room(size_t count, size_t size) {
    void *it = calloc(count, size);
    if (!it) exit(1);
    return it;
}

static struct core open_core(uint32_t threads) {
    struct core c = {.threads = threads, .objects = threads, .room = 512, .handles = threads, .leaving = NOWHERE};
    c.object = room(c.room, sizeof *c.object);
    c.wait = room(threads, sizeof *c.wait);
    c.handle = room(HANDLES, sizeof *c.handle);
    for (uint32_t t = 0; t < threads; t++) {
        c.object[t] = (struct object){.kind = THREAD, .owner = NOBODY, .named = 1};
        c.wait[t].first_owned = NOWHERE;
        c.handle[t] = (struct handle){t, SYNC, true};
    }
    return c;
}

static void close_core(struct core *c) {
    free(c->object);
    free(c->wait);
    free(c->handle);
}

#include "core_shapes.h"
