/* Each function of nt.h: what it answers and writes, row by row. The answers are those of docs/WIN32.md. */
#include "room.h"

#include <stdlib.h>
#include <string.h>

static struct nt nt;
static struct nt_reply reply;

/* What no call writes. */
static const struct nt_reply UNTOLD = { 99, 99, 99, true, 99, 99, 99 };

/* A call that is accepted, and answers this kind with this number. */
#define TELLS(call, wanted_kind, wanted_number) \
    do { \
        reply = UNTOLD; \
        IS(call, 0); \
        IS(reply.kind, wanted_kind); \
        IS(reply.number, wanted_number); \
    } while (0)

/* A call that is refused, and writes nothing. */
#define REFUSED(call, wanted) \
    do { \
        reply = UNTOLD; \
        IS(call, wanted); \
        IS(reply.kind, 99); \
        IS(reply.number, 99); \
        IS(reply.previous, 99); \
        IS(reply.routine, 99); \
    } while (0)

/* The grant at this index. */
#define GRANTS(index, wanted_thread, wanted_status) \
    do { \
        struct nt_grant grant = { 99, 99 }; \
        IS(nt_grant(&nt, index, &grant), 0); \
        IS(grant.thread, wanted_thread); \
        IS(grant.status, wanted_status); \
    } while (0)

#define NO_GRANT(index) \
    do { \
        struct nt_grant grant = { 99, 99 }; \
        IS(nt_grant(&nt, index, &grant), NT_ERROR_NO_MORE_ITEMS); \
        IS(grant.thread, 99); \
    } while (0)

/* A handle with no dispatcher: every call answers 6, but for those that look at their arguments first. */
static void without_dispatcher(void)
{
    struct nt other = { room(), false };
    struct nt_grant grant;
    uint32_t handle = 0, threads = 99;
    uint64_t moment = 99;
    size_t waits = 99;
    bool waiting = true;
    struct nt_pending_wait wait = { .count = 99 };
    REFUSED(nt_create_event(&nt, 0, 0, &reply), 6);
    REFUSED(nt_create_semaphore(&nt, 0, 0, 1, &reply), 6);
    REFUSED(nt_create_mutex(&nt, 0, 0, &reply), 6);
    REFUSED(nt_create_timer(&nt, 0, 0, &reply), 6);
    REFUSED(nt_set_event(&nt, 0, 0, &reply), 6);
    REFUSED(nt_reset_event(&nt, 0, 0, &reply), 6);
    REFUSED(nt_pulse_event(&nt, 0, 0, &reply), 6);
    REFUSED(nt_release_semaphore(&nt, 0, 0, 1, &reply), 6);
    REFUSED(nt_release_mutex(&nt, 0, 0, &reply), 6);
    REFUSED(nt_set_timer(&nt, 0, 0, 0, 0, &reply), 6);
    REFUSED(nt_set_timer_apc(&nt, 0, 0, 0, 0, 1, 2, &reply), 6);
    REFUSED(nt_cancel_timer(&nt, 0, 0, &reply), 6);
    REFUSED(nt_queue_apc(&nt, 0, 0, 1, 2, &reply), 6);
    REFUSED(nt_next_apc(&nt, 0, &reply), 6);
    REFUSED(nt_duplicate(&nt, 0, 0, 0, &reply), 6);
    REFUSED(nt_close_handle(&nt, 0, 0, &reply), 6);
    REFUSED(nt_exit(&nt, 0, &reply), 6);
    REFUSED(nt_wait(&nt, 0, &handle, 1, false, 0, false, &reply), 6);
    REFUSED(nt_wait_object(&nt, 0, handle, 0, false, &reply), 6);
    REFUSED(nt_sleep(&nt, 0, 0, false, &reply), 6);
    REFUSED(nt_swap(&nt, 0, 0, 0, 0, false, &reply), 6);
    IS(nt_tick(&nt, 0), 6);
    IS(nt_now(&nt, &moment), 6);
    IS(nt_due(&nt, 0, &moment), 6);
    IS(nt_tested(&nt, &moment), 6);
    IS(nt_pending(&nt, &waits), 6);
    IS(nt_threads(&nt, &threads), 6);
    IS(nt_is_waiting(&nt, 0, &waiting), 6);
    IS(nt_waits_for(&nt, 0, &wait), 6);
    IS(nt_waited_object(&nt, 0, 0, &threads), 6);
    IS(nt_grant(&nt, 0, &grant), 6);
    IS(nt_copy(&nt, &other), 6);
    IS(other.live, false);
    nt_close(&nt);
    free(other.room);
    IS(moment, 99);
    IS(waits, 99);
    IS(threads, 99);
    IS(waiting, true);
    IS(wait.count, 99);
}

static void opening(void)
{
    uint32_t threads = 99;
    IS(nt_room() > 0, true);
    IS(nt_open(&nt, 0), 87);
    IS(nt_open(&nt, 257), 87);
    IS(nt.live, false);
    IS(nt_open(&nt, 4), 0);
    IS(nt.live, true);
    IS(nt_open(&nt, 4), 87);
    IS(nt_threads(&nt, &threads), 0);
    IS(threads, 4);
}

/* Threads have the handles 0 to 3, so what is created has the handles from 4 on. */
static void creations(void)
{
    TELLS(nt_create_event(&nt, 0, 0, &reply), NT_HANDLE, 4);
    TELLS(nt_create_event(&nt, 0, NT_EVENT_MANUAL_RESET | NT_EVENT_INITIAL_SET, &reply), NT_HANDLE, 5);
    REFUSED(nt_create_event(&nt, 0, 4, &reply), 87);
    TELLS(nt_create_semaphore(&nt, 0, 0, 2, &reply), NT_HANDLE, 6);
    REFUSED(nt_create_semaphore(&nt, 0, -1, 2, &reply), 87);
    REFUSED(nt_create_semaphore(&nt, 0, 3, 2, &reply), 87);
    REFUSED(nt_create_semaphore(&nt, 0, 0, 0, &reply), 87);
    TELLS(nt_create_mutex(&nt, 0, NT_MUTEX_INITIAL_OWNER, &reply), NT_HANDLE, 7);
    REFUSED(nt_create_mutex(&nt, 0, 2, &reply), 87);
    TELLS(nt_create_timer(&nt, 0, NT_TIMER_MANUAL_RESET, &reply), NT_HANDLE, 8);
    REFUSED(nt_create_timer(&nt, 0, 2, &reply), 87);
    REFUSED(nt_create_event(&nt, 4, 0, &reply), NT_ERROR_UNKNOWN_THREAD);
}

/* Event 4 is auto-reset and not set, event 5 manual-reset and set. */
static void events(void)
{
    const uint32_t event = 4;
    uint64_t tested = 99;
    size_t waits = 99;
    bool waiting = false;
    TELLS(nt_wait(&nt, 0, &event, 1, false, NT_INFINITE, false, &reply), NT_PENDED, 0);
    TELLS(nt_wait_object(&nt, 1, event, NT_INFINITE, false, &reply), NT_PENDED, 0);
    IS(nt_pending(&nt, &waits), 0);
    IS(waits, 2);
    IS(nt_is_waiting(&nt, 0, &waiting), 0);
    IS(waiting, true);
    IS(nt_is_waiting(&nt, 2, &waiting), 0);
    IS(waiting, false);
    IS(nt_is_waiting(&nt, 4, &waiting), NT_ERROR_UNKNOWN_THREAD);
    REFUSED(nt_set_event(&nt, 0, event, &reply), NT_ERROR_THREAD_WAITING);
    TELLS(nt_set_event(&nt, 2, event, &reply), NT_DONE, 0);
    GRANTS(0, 0, NT_WAIT_OBJECT_0);
    NO_GRANT(1);
    IS(nt_tested(&nt, &tested), 0);
    IS(tested, 1);
    TELLS(nt_pulse_event(&nt, 2, event, &reply), NT_DONE, 0);
    GRANTS(0, 1, NT_WAIT_OBJECT_0);
    NO_GRANT(1);
    TELLS(nt_wait(&nt, 0, &event, 1, false, 0, false, &reply), NT_STATUS, NT_WAIT_TIMEOUT);
    TELLS(nt_wait_object(&nt, 0, event, 0, false, &reply), NT_STATUS, NT_WAIT_TIMEOUT);
    TELLS(nt_wait_object(&nt, 0, 5, 0, false, &reply), NT_STATUS, NT_WAIT_OBJECT_0);
    TELLS(nt_reset_event(&nt, 0, 5, &reply), NT_DONE, 0);
    REFUSED(nt_set_event(&nt, 0, 6, &reply), 6);
    REFUSED(nt_reset_event(&nt, 0, 6, &reply), 6);
    REFUSED(nt_pulse_event(&nt, 0, 9, &reply), 6);
}

/* The pending wait of this thread names this number of objects. */
#define WAITS_FOR(thread, wanted_count, wanted_all, wanted_alertable, wanted_timed, wanted_deadline) \
    do { \
        struct nt_pending_wait wait; \
        IS(nt_waits_for(&nt, thread, &wait), 0); \
        IS(wait.count, wanted_count); \
        IS(wait.all, wanted_all); \
        IS(wait.alertable, wanted_alertable); \
        IS(wait.timed, wanted_timed); \
        IS(wait.deadline, wanted_deadline); \
    } while (0)

/* The objects have the numbers of their handles so far. A millisecond has 10,000 moments, and it is moment 0. */
static void pending_waits(void)
{
    const uint32_t three[3] = { 6, 4, 2 };
    uint32_t object = 99;
    struct nt_pending_wait wait = { .count = 99 };
    IS(nt_waits_for(&nt, 0, &wait), NT_ERROR_NO_MORE_ITEMS);
    IS(nt_waits_for(&nt, 4, &wait), NT_ERROR_UNKNOWN_THREAD);
    IS(nt_waited_object(&nt, 0, 0, &object), NT_ERROR_NO_MORE_ITEMS);
    IS(nt_waited_object(&nt, 4, 0, &object), NT_ERROR_UNKNOWN_THREAD);
    TELLS(nt_wait(&nt, 0, three, 3, true, 7, true, &reply), NT_PENDED, 0);
    TELLS(nt_wait(&nt, 1, three + 1, 1, false, NT_INFINITE, false, &reply), NT_PENDED, 0);
    TELLS(nt_sleep(&nt, 2, 7, true, &reply), NT_PENDED, 0);
    IS(nt_waited_object(&nt, 0, 3, &object), NT_ERROR_NO_MORE_ITEMS);
    IS(nt_waited_object(&nt, 2, 0, &object), NT_ERROR_NO_MORE_ITEMS);
    IS(wait.count, 99);
    IS(object, 99);
    WAITS_FOR(0, 3, true, true, true, 70000);
    WAITS_FOR(1, 1, false, false, false, 0);
    WAITS_FOR(2, 0, false, true, true, 70000);
    for (size_t i = 0; i < 3; i++) {
        IS(nt_waited_object(&nt, 0, i, &object), 0);
        IS(object, three[i]);
    }
}

/* The same waits in a copy of the dispatcher, which alone goes on. */
static void pending_waits_in_a_copy(void)
{
    struct nt whole = nt;
    nt = (struct nt){ room(), false };
    IS(nt_copy(&whole, &nt), 0);
    pending_waits();
    nt_close(&nt);
    free(nt.room);
    nt = whole;
}

static void lists_of_handles(void)
{
    uint32_t handles[65] = { 4, 4 };
    const uint32_t unknown = 9;
    REFUSED(nt_wait(&nt, 0, NULL, 1, false, 0, false, &reply), 87);
    REFUSED(nt_wait(&nt, 0, NULL, 0, false, 0, false, &reply), 87);
    REFUSED(nt_wait(&nt, 0, handles, 0, false, 0, false, &reply), 87);
    REFUSED(nt_wait(&nt, 0, handles, 65, false, 0, false, &reply), 87);
    REFUSED(nt_wait_objects(&nt, 0, handles, 65, false, 0, false, &reply), 87);
    REFUSED(nt_wait(&nt, 0, handles, SIZE_MAX, false, 0, false, &reply), 87);
    REFUSED(nt_wait(&nt, 0, handles, 2, true, 0, false, &reply), 87);
    REFUSED(nt_wait(&nt, 0, &unknown, 1, false, 0, false, &reply), 6);
    REFUSED(nt_wait_object(&nt, 0, unknown, 0, false, &reply), 6);
    REFUSED(nt_wait_object(&nt, 4, unknown, 0, false, &reply), NT_ERROR_UNKNOWN_THREAD);
    REFUSED(nt_wait(&nt, 4, NULL, 0, false, 0, false, &reply), NT_ERROR_UNKNOWN_THREAD);
}

/* Semaphore 6 has the count 0 and the maximum 2. */
static void semaphores(void)
{
    const uint32_t semaphore = 6;
    TELLS(nt_release_semaphore(&nt, 0, semaphore, 2, &reply), NT_PREVIOUS, 0);
    IS(reply.previous, 0);
    REFUSED(nt_release_semaphore(&nt, 0, semaphore, 1, &reply), 298);
    REFUSED(nt_release_semaphore(&nt, 0, semaphore, 0, &reply), 87);
    REFUSED(nt_release_semaphore(&nt, 0, 4, 1, &reply), 6);
    TELLS(nt_wait(&nt, 0, &semaphore, 1, false, 0, false, &reply), NT_STATUS, NT_WAIT_OBJECT_0);
    TELLS(nt_release_semaphore(&nt, 0, semaphore, 1, &reply), NT_PREVIOUS, 0);
    IS(reply.previous, 1);
}

/* Mutex 7 is owned by thread 0. */
static void mutexes(void)
{
    const uint32_t mutex = 7, both[2] = { 6, 7 };
    REFUSED(nt_release_mutex(&nt, 1, mutex, &reply), 288);
    REFUSED(nt_release_mutex(&nt, 0, 6, &reply), 6);
    TELLS(nt_wait(&nt, 1, both, 2, true, NT_INFINITE, false, &reply), NT_PENDED, 0);
    TELLS(nt_release_mutex(&nt, 0, mutex, &reply), NT_DONE, 0);
    GRANTS(0, 1, NT_WAIT_OBJECT_0);
    TELLS(nt_swap(&nt, 1, mutex, 4, NT_INFINITE, false, &reply), NT_PENDED, 0);
    REFUSED(nt_swap(&nt, 0, mutex, 4, 0, false, &reply), 288);
    REFUSED(nt_swap(&nt, 0, 8, 4, 0, false, &reply), 6);
    TELLS(nt_set_event(&nt, 0, 4, &reply), NT_DONE, 0);
    GRANTS(0, 1, NT_WAIT_OBJECT_0);
}

/* Timer 8 is manual-reset. A millisecond has 10,000 moments. */
static void timers(void)
{
    const uint32_t timer = 8;
    uint64_t moment = 99;
    IS(nt_due(&nt, NT_GREATEST_MOMENT, &moment), NT_ERROR_NO_MORE_ITEMS);
    IS(nt_due(&nt, NT_GREATEST_MOMENT + 1, &moment), 87);
    IS(moment, 99);
    TELLS(nt_set_timer_apc(&nt, 0, timer, -500, 0, 7, 9, &reply), NT_DONE, 0);
    REFUSED(nt_set_timer(&nt, 0, timer, 0, -1, &reply), 87);
    REFUSED(nt_set_timer(&nt, 0, 4, 0, 0, &reply), 6);
    REFUSED(nt_set_timer_apc(&nt, 0, timer, 0, -1, 1, 1, &reply), 87);
    TELLS(nt_sleep(&nt, 1, 1, false, &reply), NT_PENDED, 0);
    IS(nt_due(&nt, 499, &moment), NT_ERROR_NO_MORE_ITEMS);
    IS(nt_due(&nt, 500, &moment), 0);
    IS(moment, 500);
    TELLS(nt_sleep(&nt, 0, NT_INFINITE, true, &reply), NT_PENDED, 0);
    IS(nt_tick(&nt, 600), 0);
    GRANTS(0, 0, NT_WAIT_IO_COMPLETION);
    NO_GRANT(1);
    TELLS(nt_next_apc(&nt, 0, &reply), NT_APC, 0);
    IS(reply.timed, true);
    IS(reply.routine, 7);
    IS(reply.arg, 9);
    IS(reply.at, 500);
    TELLS(nt_next_apc(&nt, 0, &reply), NT_NO_APC, 0);
    IS(nt_due(&nt, NT_GREATEST_MOMENT, &moment), 0);
    IS(moment, 10000);
    IS(nt_tick(&nt, 10000), 0);
    GRANTS(0, 1, NT_WAIT_OBJECT_0);
    TELLS(nt_set_timer(&nt, 0, timer, 20000, 0, &reply), NT_DONE, 0);
    TELLS(nt_cancel_timer(&nt, 0, timer, &reply), NT_DONE, 0);
    REFUSED(nt_cancel_timer(&nt, 0, 4, &reply), 6);
    IS(nt_due(&nt, NT_GREATEST_MOMENT, &moment), NT_ERROR_NO_MORE_ITEMS);
    IS(nt_tick(&nt, 9999), NT_ERROR_MOMENT_BACK);
    IS(nt_tick(&nt, NT_GREATEST_MOMENT + 1), 87);
    IS(nt_now(&nt, &moment), 0);
    IS(moment, 10000);
}

static void apcs_and_rights(void)
{
    uint32_t rightless = 10;
    TELLS(nt_queue_apc(&nt, 0, 1, 3, 4, &reply), NT_DONE, 0);
    REFUSED(nt_queue_apc(&nt, 0, 4, 3, 4, &reply), 6);
    TELLS(nt_next_apc(&nt, 1, &reply), NT_NO_APC, 0);
    TELLS(nt_sleep(&nt, 1, 0, true, &reply), NT_STATUS, NT_WAIT_IO_COMPLETION);
    TELLS(nt_next_apc(&nt, 1, &reply), NT_APC, 0);
    IS(reply.timed, false);
    IS(reply.routine, 3);
    IS(reply.arg, 4);
    IS(reply.at, 0);
    TELLS(nt_duplicate(&nt, 0, 4, NT_SYNCHRONIZE | NT_MODIFY_STATE, &reply), NT_HANDLE, 9);
    TELLS(nt_duplicate(&nt, 0, 9, 0, &reply), NT_HANDLE, rightless);
    REFUSED(nt_duplicate(&nt, 0, 4, NT_SET_CONTEXT, &reply), 5);
    REFUSED(nt_duplicate(&nt, 0, 11, 0, &reply), 6);
    REFUSED(nt_set_event(&nt, 0, rightless, &reply), 5);
    REFUSED(nt_wait(&nt, 0, &rightless, 1, false, 0, false, &reply), 5);
    REFUSED(nt_wait_object(&nt, 0, rightless, 0, false, &reply), 5);
    TELLS(nt_close_handle(&nt, 0, rightless, &reply), NT_DONE, 0);
    REFUSED(nt_close_handle(&nt, 0, rightless, &reply), 6);
    REFUSED(nt_set_event(&nt, 0, rightless, &reply), 6);
    REFUSED(nt_duplicate(&nt, 0, rightless, 0, &reply), 6);
    REFUSED(nt_close_handle(&nt, 0, 11, &reply), 6);
}

/* A copy goes its own way, from the grants on that both have. Thread 1 owns mutex 7 and ends, in the copy alone. */
static void copies_and_exits(void)
{
    struct nt copy = { room(), false };
    const uint32_t mutex = 7;
    TELLS(nt_wait(&nt, 1, &mutex, 1, false, 0, false, &reply), NT_STATUS, NT_WAIT_OBJECT_0);
    TELLS(nt_wait(&nt, 0, &mutex, 1, false, NT_INFINITE, false, &reply), NT_PENDED, 0);
    IS(nt_copy(&nt, &copy), 0);
    IS(nt_copy(&nt, &copy), 87);
    struct nt_grant grant = { 99, 99 };
    TELLS(nt_exit(&copy, 1, &reply), NT_DONE, 0);
    IS(nt_grant(&copy, 0, &grant), 0);
    IS(grant.thread, 0);
    IS(grant.status, NT_WAIT_ABANDONED_0);
    REFUSED(nt_exit(&copy, 1, &reply), NT_ERROR_THREAD_ENDED);
    REFUSED(nt_queue_apc(&copy, 0, 1, 3, 4, &reply), 31);
    REFUSED(nt_exit(&nt, 0, &reply), NT_ERROR_THREAD_WAITING);
    TELLS(nt_release_mutex(&nt, 1, mutex, &reply), NT_DONE, 0);
    GRANTS(0, 0, NT_WAIT_OBJECT_0);
    nt_close(&copy);
    IS(copy.live, false);
    IS(nt_copy(&nt, &copy), 0);
    IS(nt_grant(&copy, 0, &grant), 0);
    IS(grant.thread, 0);
    IS(grant.status, NT_WAIT_OBJECT_0);
    TELLS(nt_set_event(&copy, 1, 4, &reply), NT_DONE, 0);
    IS(nt_grant(&copy, 0, &grant), NT_ERROR_NO_MORE_ITEMS);
    GRANTS(0, 0, NT_WAIT_OBJECT_0);
    NO_GRANT(1);
    nt_close(&copy);
    free(copy.room);
}

/* Numbers are used once, so all of them are used up. */
static void last_handle(void)
{
    uint32_t next = 11, refused = 0;
    while (refused == 0 && next < NT_MAXIMUM_HANDLES + 1) {
        refused = nt_create_event(&nt, 0, 0, &reply);
        next += refused == 0;
    }
    IS(next, NT_MAXIMUM_HANDLES);
    IS(refused, NT_ERROR_HANDLE_LIMIT);
}

int main(void)
{
    nt.room = room();
    without_dispatcher();
    opening();
    creations();
    events();
    pending_waits_in_a_copy();
    lists_of_handles();
    semaphores();
    mutexes();
    timers();
    apcs_and_rights();
    copies_and_exits();
    last_handle();
    nt_close(&nt);
    IS(nt.live, false);
    IS(nt_open(&nt, 256), 0);
    nt_close(&nt);
    free(nt.room);
    return counted();
}
