/* A peer for the core in plain C: the same calls of the same shapes. Objects and threads lie in arrays by number; a wait has its blocks in its
   thread, linked into the objects' queues; a call serves the queue of the object that it changed, until the object is used up. A call
   judges what the shapes can meet: its caller, its handle, the object's kind, the count of a release, and handles that are named twice,
   which it finds by a stamp on each object.

   It lacks: handles apart from objects, rights, lists of what a thread owns, deadlines, alertable waits, APCs, timers, and objects that
   end. bench/core_duties.c has the first five, as the core has them. */
#include <stdbool.h>
#include <stdint.h>
#include <stdio.h>
#include <stdlib.h>
#include <string.h>
#include <time.h>

/* What is called on every way stands in its caller, as it does in the core. */
#define INLINE static inline __attribute__((always_inline))

enum { THREADS = 256, MOST = 64, OBJECTS = 65536 };
enum kind { EVENT, SEMAPHORE, MUTEX, THREAD };
enum { DONE = -1, PENDED = -2, REFUSED = -3, NOBODY = -1 };

struct block {
    struct block *next, *previous;
    uint32_t thread, object;
};
struct object {
    uint8_t kind;
    bool manual, set, mark;
    int32_t count, maximum;
    int32_t owner;
    uint32_t depth, stamp;
    struct block *first, *last;
};
struct wait {
    uint32_t count;
    bool all, pends;
    struct block blocks[MOST];
};
struct grant {
    uint32_t thread;
    int status;
};
struct core {
    uint32_t threads, objects, room, grants, stamp;
    struct object *object;
    struct wait *wait;
    struct grant granted[THREADS];
};

INLINE bool signaled(const struct object *o, uint32_t t) {
    switch (o->kind) {
    case SEMAPHORE: return o->count > 0;
    case MUTEX: return o->owner < 0 || o->owner == (int32_t)t;
    default: return o->set;
    }
}

INLINE void take(struct object *o, uint32_t t) {
    switch (o->kind) {
    case EVENT:
        if (!o->manual) o->set = false;
        break;
    case SEMAPHORE: o->count--; break;
    case MUTEX:
        o->owner = (int32_t)t;
        o->depth++;
        o->mark = false;
        break;
    case THREAD: break;
    }
}

INLINE int try_one(struct object *o, uint32_t t) {
    if (!signaled(o, t)) return -1;
    int status = o->mark ? 0x80 : 0;
    take(o, t);
    return status;
}

static int try_blocks(struct core *c, uint32_t t, const struct block *b, uint32_t count, bool all) {
    if (!all) {
        for (uint32_t i = 0; i < count; i++) {
            struct object *o = &c->object[b[i].object];
            if (signaled(o, t)) {
                int status = (int)i + (o->mark ? 0x80 : 0);
                take(o, t);
                return status;
            }
        }
        return -1;
    }
    bool mark = false;
    for (uint32_t i = 0; i < count; i++) {
        if (!signaled(&c->object[b[i].object], t)) return -1;
        mark |= c->object[b[i].object].mark;
    }
    for (uint32_t i = 0; i < count; i++) take(&c->object[b[i].object], t);
    return mark ? 0x80 : 0;
}

/* The status of a wait that its objects satisfy, which it then takes; or -1. */
static int try_wait(struct core *c, uint32_t t, const uint32_t *handles, uint32_t count, bool all) {
    if (!all) {
        for (uint32_t i = 0; i < count; i++) {
            struct object *o = &c->object[handles[i]];
            if (signaled(o, t)) {
                int status = (int)i + (o->mark ? 0x80 : 0);
                take(o, t);
                return status;
            }
        }
        return -1;
    }
    bool mark = false;
    for (uint32_t i = 0; i < count; i++) {
        if (!signaled(&c->object[handles[i]], t)) return -1;
        mark |= c->object[handles[i]].mark;
    }
    for (uint32_t i = 0; i < count; i++) take(&c->object[handles[i]], t);
    return mark ? 0x80 : 0;
}

static inline void leave_queue(struct object *o, struct block *b) {
    if (b->previous) b->previous->next = b->next;
    else o->first = b->next;
    if (b->next) b->next->previous = b->previous;
    else o->last = b->previous;
}

static void serve_first(struct core *c, uint32_t h) {
    struct object *o = &c->object[h];
    struct block *b = o->first, *next;
    do {
        next = b->next;
        uint32_t t = b->thread;
        struct wait *w = &c->wait[t];
        int status;
        if (w->count == 1) {
            status = try_one(o, t);
            if (status >= 0) leave_queue(o, b);
        } else {
            status = try_blocks(c, t, w->blocks, w->count, w->all);
            if (status >= 0)
                for (uint32_t i = 0; i < w->count; i++) leave_queue(&c->object[w->blocks[i].object], &w->blocks[i]);
        }
        if (status >= 0) {
            w->pends = false;
            c->granted[c->grants++] = (struct grant){t, status};
        }
        b = next;
    } while (b && signaled(o, b->thread));
}
static inline void serve(struct core *c, uint32_t h) {
    if (c->object[h].first) serve_first(c, h);
}

INLINE bool may_call(struct core *c, uint32_t who) {
    c->grants = 0;
    return who < c->threads && !c->object[who].set && !c->wait[who].pends;
}
INLINE bool is(struct core *c, uint32_t h, enum kind kind) {
    return h < c->objects && c->object[h].kind == kind;
}

static int set(struct core *c, uint32_t who, uint32_t h) {
    if (!may_call(c, who) || !is(c, h, EVENT)) return REFUSED;
    if (!c->object[h].set) {
        c->object[h].set = true;
        serve(c, h);
    }
    return DONE;
}

static int pulse(struct core *c, uint32_t who, uint32_t h) {
    if (!may_call(c, who) || !is(c, h, EVENT)) return REFUSED;
    if (!c->object[h].set) {
        c->object[h].set = true;
        serve(c, h);
    }
    c->object[h].set = false;
    return DONE;
}

static int release(struct core *c, uint32_t who, uint32_t h, int32_t n) {
    if (!may_call(c, who) || !is(c, h, SEMAPHORE) || n <= 0) return REFUSED;
    struct object *o = &c->object[h];
    if ((int64_t)o->count + n > o->maximum) return REFUSED;
    int before = o->count;
    o->count += n;
    serve(c, h);
    return before;
}

static int unlock(struct core *c, uint32_t who, uint32_t h) {
    if (!may_call(c, who) || !is(c, h, MUTEX) || c->object[h].owner != (int32_t)who) return REFUSED;
    struct object *o = &c->object[h];
    if (--o->depth == 0) {
        o->owner = NOBODY;
        serve(c, h);
    }
    return DONE;
}

INLINE int begin(struct core *c, uint32_t who, const uint32_t *handles, uint32_t count, bool all, uint32_t ms) {
    int status = count == 1 ? try_one(&c->object[handles[0]], who) : try_wait(c, who, handles, count, all);
    if (status >= 0) return status;
    if (ms == 0) return 0x102;
    struct wait *w = &c->wait[who];
    w->count = count;
    w->all = all;
    w->pends = true;
    for (uint32_t i = 0; i < count; i++) {
        struct block *b = &w->blocks[i];
        struct object *o = &c->object[handles[i]];
        *b = (struct block){NULL, o->last, who, handles[i]};
        if (o->last) o->last->next = b;
        else o->first = b;
        o->last = b;
    }
    return PENDED;
}

static int wait(struct core *c, uint32_t who, const uint32_t *handles, uint32_t count, bool all, uint32_t ms, bool alertable) {
    (void)alertable;
    if (!may_call(c, who) || count == 0 || count > MOST) return REFUSED;
    if (count == 1) return handles[0] >= c->objects ? REFUSED : begin(c, who, handles, 1, all, ms);
    c->stamp++;
    for (uint32_t i = 0; i < count; i++) {
        if (handles[i] >= c->objects || c->object[handles[i]].stamp == c->stamp) return REFUSED;
        c->object[handles[i]].stamp = c->stamp;
    }
    return begin(c, who, handles, count, all, ms);
}

/* Signals one object, serves the others, and waits for the other: all refusals first. */
static int swap(struct core *c, uint32_t who, uint32_t h, uint32_t object, uint32_t ms, bool alertable) {
    (void)alertable;
    if (!may_call(c, who) || h >= c->objects || object >= c->objects) return REFUSED;
    struct object *o = &c->object[h];
    switch (o->kind) {
    case EVENT:
        if (!o->set) {
            o->set = true;
            serve(c, h);
        }
        break;
    case SEMAPHORE:
        if (o->count == o->maximum) return REFUSED;
        o->count++;
        serve(c, h);
        break;
    case MUTEX:
        if (o->owner != (int32_t)who) return REFUSED;
        if (--o->depth == 0) {
            o->owner = NOBODY;
            serve(c, h);
        }
        break;
    case THREAD: return REFUSED;
    }
    return begin(c, who, &object, 1, false, ms);
}

static int make(struct core *c, uint32_t who, struct object made) {
    if (!may_call(c, who) || c->objects == OBJECTS) return REFUSED;
    if (c->objects == c->room) {
        struct object *more = realloc(c->object, 2 * c->room * sizeof *more);
        if (!more) return REFUSED;
        c->object = more;
        c->room *= 2;
    }
    c->object[c->objects] = made;
    return (int)c->objects++;
}

static void *room(size_t count, size_t size) {
    void *it = calloc(count, size);
    if (!it) exit(1);
    return it;
}

static struct core open_core(uint32_t threads) {
    struct core c = {.threads = threads, .objects = threads, .room = 512};
    c.object = room(c.room, sizeof *c.object);
    c.wait = room(threads, sizeof *c.wait);
    for (uint32_t t = 0; t < threads; t++) c.object[t] = (struct object){.kind = THREAD, .owner = NOBODY};
    return c;
}

static void close_core(struct core *c) {
    free(c->object);
    free(c->wait);
}

#include "core_shapes.h"
