/* What nt.h tells of objects and handles, and why threads wait: row by row, for a dispatcher of three threads. */
#include "room.h"

#include <stdlib.h>
#include <string.h>

static struct nt nt;
static struct nt_reply reply;

static void open_three(void)
{
    nt.room = room();
    must(nt_open(&nt, 3) == 0);
}

static void close_three(void)
{
    nt_close(&nt);
    free(nt.room);
}

/* The object with this number, in the order of the fields. */
static void object(uint32_t number, struct nt_object wanted, int line)
{
    struct nt_object found;
    memset(&found, 99, sizeof found);
    check("nt_object", nt_object(&nt, number, &found), 0, __FILE__, line);
    check("kind", found.kind, wanted.kind, __FILE__, line);
    check("manual", found.manual, wanted.manual, __FILE__, line);
    check("set", found.set, wanted.set, __FILE__, line);
    check("owned", found.owned, wanted.owned, __FILE__, line);
    check("abandoned", found.abandoned, wanted.abandoned, __FILE__, line);
    check("armed", found.armed, wanted.armed, __FILE__, line);
    check("count", (unsigned)found.count, (unsigned)wanted.count, __FILE__, line);
    check("maximum", (unsigned)found.maximum, (unsigned)wanted.maximum, __FILE__, line);
    check("owner", found.owner, wanted.owner, __FILE__, line);
    check("depth", found.depth, wanted.depth, __FILE__, line);
    check("due", found.due, wanted.due, __FILE__, line);
    check("period", found.period, wanted.period, __FILE__, line);
}

#define OBJECT(number, ...) object(number, (struct nt_object){ __VA_ARGS__ }, __LINE__)

#define OPENED(handle, wanted_object, wanted_access) \
    do { \
        struct nt_opened opened = { 99, 99 }; \
        IS(nt_opened(&nt, handle, &opened), 0); \
        IS(opened.object, wanted_object); \
        IS(opened.access, wanted_access); \
    } while (0)

static void nothing_there(void)
{
    struct nt none = { NULL, false };
    struct nt_object found = { .kind = 99 };
    struct nt_opened opened = { 99, 99 };
    struct nt_why why = { true, true, 99 };
    bool knot[3] = { true, true, true };
    IS(nt_object(&none, 0, &found), NT_ERROR_INVALID_HANDLE);
    IS(nt_opened(&none, 0, &opened), NT_ERROR_INVALID_HANDLE);
    IS(nt_why(&none, knot, 0, 0, &why, knot, 3), NT_ERROR_INVALID_HANDLE);
    IS(nt_object(&nt, 3, &found), NT_ERROR_NO_MORE_ITEMS);
    IS(nt_opened(&nt, 3, &opened), NT_ERROR_INVALID_HANDLE);
    IS(nt_why(&nt, knot, 0, NT_GREATEST_MOMENT + 1, &why, knot, 3), NT_ERROR_INVALID_PARAMETER);
    IS(nt_why(&nt, knot, 0, 0, &why, knot, 2), NT_ERROR_INVALID_PARAMETER);
    IS(found.kind, 99);
    IS(opened.object, 99);
    IS(why.next, 99);
    IS(knot[0] && knot[1] && knot[2], true);
}

/* Handles 3 to 8, for the objects 3 to 7 and for object 5 once more. A millisecond has 10,000 moments. */
static void objects(void)
{
    must(nt_create_event(&nt, 0, NT_EVENT_MANUAL_RESET | NT_EVENT_INITIAL_SET, &reply) == 0);
    must(nt_create_semaphore(&nt, 0, 2, 5, &reply) == 0);
    must(nt_create_mutex(&nt, 1, NT_MUTEX_INITIAL_OWNER, &reply) == 0);
    must(nt_create_timer(&nt, 0, NT_TIMER_MANUAL_RESET, &reply) == 0);
    must(nt_create_mutex(&nt, 2, NT_MUTEX_INITIAL_OWNER, &reply) == 0);
    must(nt_set_timer(&nt, 0, 6, -30000, 4, &reply) == 0);
    must(nt_wait_object(&nt, 1, 5, 0, false, &reply) == 0);
    must(nt_duplicate(&nt, 0, 5, NT_SYNCHRONIZE, &reply) == 0);
    OBJECT(0, .kind = NT_THREAD);
    OBJECT(3, .kind = NT_EVENT, .manual = true, .set = true);
    OBJECT(4, .kind = NT_SEMAPHORE, .count = 2, .maximum = 5);
    OBJECT(5, .kind = NT_MUTEX, .owned = true, .owner = 1, .depth = 2);
    OBJECT(6, .kind = NT_TIMER, .manual = true, .armed = true, .due = 30000, .period = 4);
    OPENED(5, 5, NT_SYNCHRONIZE);
    OPENED(8, 5, NT_SYNCHRONIZE);
    OPENED(4, 4, NT_SYNCHRONIZE | NT_MODIFY_STATE);
    OPENED(2, 2, NT_SYNCHRONIZE | NT_SET_CONTEXT);
    must(nt_exit(&nt, 2, &reply) == 0);
    OBJECT(2, .kind = NT_THREAD, .set = true);
    OBJECT(7, .kind = NT_MUTEX, .abandoned = true);
    must(nt_close_handle(&nt, 0, 4, &reply) == 0);
    OBJECT(4, .kind = NT_GONE);
    must(nt_tick(&nt, 30000) == 0);
    OBJECT(6, .kind = NT_TIMER, .manual = true, .set = true, .armed = true, .due = 70000, .period = 4);
}

/* Whether all is stuck, what is due, and who is of the knot; thread 2 makes no further call if `over` says so. */
#define WHY(is_over, wanted_stuck, wanted_due, wanted_next, first, second, third) \
    do { \
        struct nt_why why = { !(wanted_stuck), !(wanted_due), 99 }; \
        const bool over[3] = { false, false, is_over }; \
        bool knot[3] = { !(first), !(second), !(third) }; \
        IS(nt_why(&nt, over, 3, NT_GREATEST_MOMENT, &why, knot, 3), 0); \
        IS(why.stuck, wanted_stuck); \
        IS(why.due, wanted_due); \
        IS(why.next, wanted_next); \
        IS(knot[0], first); \
        IS(knot[1], second); \
        IS(knot[2], third); \
    } while (0)

/* Threads 0 and 1 take a mutex each, and wait for the other's; thread 2 runs, and then waits for both threads to end. */
static void a_knot(void)
{
    const uint32_t both[2] = { 0, 1 };
    must(nt_create_mutex(&nt, 0, NT_MUTEX_INITIAL_OWNER, &reply) == 0);
    must(nt_create_mutex(&nt, 1, NT_MUTEX_INITIAL_OWNER, &reply) == 0);
    WHY(false, false, false, 0, false, false, false);
    must(nt_wait_object(&nt, 0, 4, NT_INFINITE, false, &reply) == 0);
    WHY(false, false, false, 0, false, false, false);
    must(nt_wait_object(&nt, 1, 3, NT_INFINITE, false, &reply) == 0);
    WHY(false, false, false, 0, true, true, false);
    WHY(true, true, false, 0, true, true, true);
    must(nt_wait(&nt, 2, both, 2, true, NT_INFINITE, false, &reply) == 0);
    WHY(false, true, false, 0, true, true, true);
}

/* Each thread waits for an event that a handle names: nobody is left to set it, and yet there is no knot. */
static void stuck_and_no_knot(void)
{
    must(nt_create_event(&nt, 0, 0, &reply) == 0);
    must(nt_wait_object(&nt, 0, 3, NT_INFINITE, false, &reply) == 0);
    must(nt_wait_object(&nt, 1, 3, NT_INFINITE, false, &reply) == 0);
    WHY(false, false, false, 0, false, false, false);
    WHY(true, true, false, 0, false, false, true);
    must(nt_wait_object(&nt, 2, 3, 7, false, &reply) == 0);
    WHY(false, false, true, 70000, false, false, false);
}

enum { MANY = 257 };

/* Of more threads than a front may have, the first and the last hold each other, and memory to find that is there. */
static void many_threads(void)
{
    static const bool over[MANY];
    static bool knot[MANY];
    struct nt_why why = { true, true, 99 };
    nt.room = room();
    must(nt_open_lasting(&nt, MANY) == 0);
    must(nt_create_mutex(&nt, 0, NT_MUTEX_INITIAL_OWNER, &reply) == 0);
    must(nt_create_mutex(&nt, MANY - 1, NT_MUTEX_INITIAL_OWNER, &reply) == 0);
    must(nt_wait_object(&nt, 0, MANY + 1, NT_INFINITE, false, &reply) == 0);
    must(nt_wait_object(&nt, MANY - 1, MANY, NT_INFINITE, false, &reply) == 0);
    IS(nt_why(&nt, over, MANY, NT_GREATEST_MOMENT, &why, knot, MANY), 0);
    IS(why.stuck, false);
    IS(why.due, false);
    for (uint32_t who = 0; who < MANY; who++)
        IS(knot[who], who == 0 || who == MANY - 1);
    close_three();
}

static void with(void (*test)(void))
{
    open_three();
    test();
    close_three();
}

int main(void)
{
    with(nothing_there);
    with(objects);
    with(a_knot);
    with(stuck_and_no_knot);
    many_threads();
    return counted();
}
