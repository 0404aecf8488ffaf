/* Who sleeps to which moment, and whom a call or tick tells: nt_pend, nt_told and nt_woke of nt.h, row by row. */
#include "../nt.h"
#include "check.h"

#include <stdlib.h>

enum { TIMED, UNTIMED, WATCHER, OTHER, DRIVER, THREADS };

static struct nt nt;
static struct nt_reply reply;
static uint32_t event, timer;

static void *room(void)
{
    return aligned_alloc(16, (nt_room() + 15) / 16 * 16);
}

/* What is reported at this index. */
#define TELLS(index, wanted_thread, wanted_status, wanted_called) \
    do { \
        struct nt_told told = { 99, 99, !(wanted_called) }; \
        IS(nt_told(&nt, index, &told), 0); \
        IS(told.thread, wanted_thread); \
        IS(told.status, wanted_status); \
        IS(told.called, wanted_called); \
    } while (0)

#define TELLS_NO_MORE(index) \
    do { \
        struct nt_told told = { 99, 99, true }; \
        IS(nt_told(&nt, index, &told), NT_ERROR_NO_MORE_ITEMS); \
        IS(told.thread, 99); \
    } while (0)

/* The thread sleeps to this moment, or until nt_told names it. */
#define SLEEPS_TO(thread, watches, wanted) \
    do { \
        uint64_t moment = 99; \
        IS(nt_pend(&nt, thread, watches, &moment), 0); \
        IS(moment, wanted); \
    } while (0)

#define SLEEPS_ON(thread, watches) \
    do { \
        uint64_t moment = 99; \
        IS(nt_pend(&nt, thread, watches, &moment), NT_ERROR_NO_MORE_ITEMS); \
        IS(moment, 99); \
    } while (0)

static void waits(uint32_t thread, uint32_t object, uint32_t ms)
{
    IS(nt_wait_object(&nt, thread, object, ms, false, &reply), 0);
    IS(reply.kind, NT_PENDED);
}

static void without_dispatcher(void)
{
    struct nt_told told = { 99, 99, true };
    uint64_t moment = 99;
    IS(nt_told(&nt, 0, &told), NT_ERROR_INVALID_HANDLE);
    IS(nt_pend(&nt, 0, true, &moment), NT_ERROR_INVALID_HANDLE);
    IS(nt_woke(&nt, 0), NT_ERROR_INVALID_HANDLE);
    IS(told.thread, 99);
    IS(moment, 99);
}

/* A millisecond has 10,000 moments. Who does not watch sleeps to the deadline alone. */
static void deadlines(void)
{
    waits(TIMED, event, 7);
    SLEEPS_TO(TIMED, false, 70000);
    waits(UNTIMED, event, NT_INFINITE);
    SLEEPS_ON(UNTIMED, false);
    SLEEPS_ON(DRIVER, false);
    SLEEPS_ON(DRIVER, true);
    uint64_t moment = 99;
    IS(nt_pend(&nt, THREADS, true, &moment), NT_ERROR_UNKNOWN_THREAD);
    IS(nt_woke(&nt, THREADS), NT_ERROR_UNKNOWN_THREAD);
    TELLS_NO_MORE(0);
}

/* Nobody watches, so nobody is called. A watcher then sleeps to the timer, and is called once that is due sooner. */
static void timers(void)
{
    IS(nt_set_timer(&nt, DRIVER, timer, 50000, 0, &reply), 0);
    TELLS_NO_MORE(0);
    waits(WATCHER, timer, NT_INFINITE);
    SLEEPS_TO(WATCHER, true, 50000);
    waits(OTHER, timer, 6);
    SLEEPS_TO(OTHER, true, 60000);
    IS(nt_set_timer(&nt, DRIVER, timer, 20000, 0, &reply), 0);
    TELLS(0, WATCHER, 0, true);
    TELLS_NO_MORE(1);
    IS(nt_set_timer(&nt, DRIVER, timer, 10000, 0, &reply), 0);
    TELLS_NO_MORE(0);
    SLEEPS_TO(WATCHER, true, 10000);
}

/* A refused call tells nobody. */
static void refusals(void)
{
    IS(nt_set_event(&nt, DRIVER, timer, &reply), NT_ERROR_INVALID_HANDLE);
    TELLS_NO_MORE(0);
    IS(nt_tick(&nt, NT_GREATEST_MOMENT + 1), NT_ERROR_INVALID_PARAMETER);
    TELLS_NO_MORE(0);
}

/* The timer is auto-reset: it ends the watcher's wait, and is set again for the other, which sleeps too long. */
static void grants(void)
{
    IS(nt_tick(&nt, 10000), 0);
    TELLS(0, WATCHER, NT_WAIT_OBJECT_0, false);
    TELLS_NO_MORE(1);
    IS(nt_set_timer(&nt, DRIVER, timer, 30000, 0, &reply), 0);
    TELLS(0, OTHER, 0, true);
    SLEEPS_TO(OTHER, true, 30000);
    waits(WATCHER, timer, NT_INFINITE);
    SLEEPS_ON(WATCHER, true);
}

/* Who is gone is followed by another; in a copy too. */
static void goners(void)
{
    struct nt whole = nt;
    nt = (struct nt){ room(), false };
    IS(nt_copy(&whole, &nt), 0);
    IS(nt_woke(&nt, OTHER), 0);
    TELLS(0, WATCHER, 0, true);
    TELLS_NO_MORE(1);
    SLEEPS_TO(WATCHER, true, 30000);
    IS(nt_woke(&nt, WATCHER), 0);
    TELLS_NO_MORE(0);
    nt_close(&nt);
    free(nt.room);
    nt = whole;
}

/* All that is due comes in one tick: the timer ends the wait that began first, and a deadline another. */
static void all_at_once(void)
{
    IS(nt_tick(&nt, 70000), 0);
    TELLS(0, OTHER, NT_WAIT_OBJECT_0, false);
    TELLS(1, TIMED, NT_WAIT_TIMEOUT, false);
    TELLS_NO_MORE(2);
    IS(nt_set_event(&nt, DRIVER, event, &reply), 0);
    TELLS(0, UNTIMED, NT_WAIT_OBJECT_0, false);
    TELLS_NO_MORE(1);
}

int main(void)
{
    nt.room = room();
    without_dispatcher();
    must(nt.room != NULL && nt_open(&nt, THREADS) == 0);
    must(nt_create_event(&nt, DRIVER, 0, &reply) == 0);
    event = reply.number;
    must(nt_create_timer(&nt, DRIVER, 0, &reply) == 0);
    timer = reply.number;
    deadlines();
    timers();
    refusals();
    grants();
    goners();
    all_at_once();
    nt_close(&nt);
    free(nt.room);
    return counted();
}
