/* Numbers of handles and threads that a dispatcher gives again, by nt.h, or does not: row by row. */
#include "room.h"

#include <stdlib.h>

static struct nt_reply reply;

/* The number of an event that the first thread makes; 0 if it is refused. */
static uint32_t made_in(struct nt *it)
{
    return nt_create_event(it, 0, 0, &reply) == 0 ? reply.number : 0;
}

/* A dispatcher that lasts gives numbers again, the one that was freed last first; any other gives each once. */
static void numbers(void)
{
    struct nt once = { room(), false }, lasting = { room(), false }, copy = { room(), false };
    IS(nt_open_lasting(&lasting, 0), NT_ERROR_INVALID_PARAMETER);
    IS(nt_open_lasting(&lasting, 4097), NT_ERROR_INVALID_PARAMETER);
    IS(lasting.live, false);
    IS(nt_open(&once, 257), NT_ERROR_INVALID_PARAMETER);
    IS(nt_open_lasting(&lasting, 4096), 0);
    IS(made_in(&lasting), 4096);
    nt_close(&lasting);
    IS(nt_open(&once, 2), 0);
    IS(nt_open_lasting(&lasting, 2), 0);
    IS(nt_open_lasting(&lasting, 2), NT_ERROR_INVALID_PARAMETER);
    for (uint32_t number = 2; number < 5; number++) {
        IS(made_in(&once), number);
        IS(made_in(&lasting), number);
    }
    for (uint32_t number = 2; number < 4; number++) {
        IS(nt_close_handle(&once, 0, number, &reply), 0);
        IS(nt_close_handle(&lasting, 0, number, &reply), 0);
    }
    IS(nt_set_event(&lasting, 0, 3, &reply), NT_ERROR_INVALID_HANDLE);
    IS(nt_copy(&lasting, &copy), 0);
    IS(made_in(&once), 5);
    IS(made_in(&lasting), 3);
    IS(made_in(&copy), 3);
    IS(nt_duplicate(&lasting, 0, 4, NT_SYNCHRONIZE, &reply), 0);
    IS(reply.number, 2);
    IS(made_in(&lasting), 5);
    IS(made_in(&copy), 2);
    nt_close(&once);
    nt_close(&lasting);
    nt_close(&copy);
    free(once.room);
    free(lasting.room);
    free(copy.room);
}

/* A thread begins in the place of one that has ended and that no handle names any longer. */
static void places(void)
{
    struct nt lasting = { room(), false };
    struct nt_begun begun = { 7, 8 };
    IS(nt_begin(&lasting, &begun), NT_ERROR_INVALID_HANDLE);
    IS(nt_open(&lasting, 2), 0);
    IS(nt_exit(&lasting, 1, &reply), 0);
    IS(nt_close_handle(&lasting, 0, 1, &reply), 0);
    IS(nt_begin(&lasting, &begun), NT_ERROR_NO_MORE_ITEMS);
    nt_close(&lasting);
    IS(nt_open_lasting(&lasting, 2), 0);
    IS(nt_begin(&lasting, &begun), NT_ERROR_NO_MORE_ITEMS);
    IS(nt_exit(&lasting, 1, &reply), 0);
    IS(made_in(&lasting), 2);
    IS(nt_close_handle(&lasting, 0, 2, &reply), 0);
    IS(nt_begin(&lasting, &begun), NT_ERROR_NO_MORE_ITEMS);
    IS(nt_close_handle(&lasting, 0, 1, &reply), 0);
    IS(begun.thread, 7);
    IS(begun.handle, 8);
    IS(nt_create_event(&lasting, 1, 0, &reply), NT_ERROR_THREAD_ENDED);
    IS(nt_begin(&lasting, &begun), 0);
    IS(begun.thread, 1);
    IS(begun.handle, 1);
    IS(nt_begin(&lasting, &begun), NT_ERROR_NO_MORE_ITEMS);
    IS(nt_create_event(&lasting, 1, 0, &reply), 0);
    IS(reply.number, 2);
    IS(nt_wait_object(&lasting, 0, 1, 0, false, &reply), 0);
    IS(reply.number, NT_WAIT_TIMEOUT);
    IS(nt_next_apc(&lasting, 1, &reply), 0);
    IS(reply.kind, NT_NO_APC);
    nt_close(&lasting);
    free(lasting.room);
}

/* The object of a thread that has ended is set aside: its handle names it by another number, and its place is another thread's. */
static void aside(void)
{
    struct nt lasting = { room(), false };
    struct nt_begun begun = { 7, 8 };
    struct nt_opened opened;
    IS(nt_set_aside(&lasting, 1), NT_ERROR_INVALID_HANDLE);
    IS(nt_open(&lasting, 2), 0);
    IS(nt_exit(&lasting, 1, &reply), 0);
    IS(nt_set_aside(&lasting, 1), NT_ERROR_INVALID_HANDLE);
    nt_close(&lasting);
    IS(nt_open_lasting(&lasting, 2), 0);
    IS(nt_set_aside(&lasting, 1), NT_ERROR_INVALID_HANDLE);
    IS(nt_exit(&lasting, 1, &reply), 0);
    IS(nt_set_aside(&lasting, 1), NT_ERROR_HANDLE_LIMIT);
    IS(made_in(&lasting), 2);
    IS(nt_close_handle(&lasting, 0, 2, &reply), 0);
    IS(nt_begin(&lasting, &begun), NT_ERROR_NO_MORE_ITEMS);
    IS(nt_set_aside(&lasting, 1), 0);
    IS(nt_opened(&lasting, 1, &opened), 0);
    IS(opened.object, 2);
    IS(opened.access, NT_SYNCHRONIZE | NT_SET_CONTEXT);
    IS(nt_set_aside(&lasting, 1), NT_ERROR_INVALID_HANDLE);
    IS(nt_begin(&lasting, &begun), 0);
    IS(begun.thread, 1);
    IS(begun.handle, 2);
    IS(nt_wait_object(&lasting, 0, 1, 0, false, &reply), 0);
    IS(reply.number, NT_WAIT_OBJECT_0);
    IS(nt_wait_object(&lasting, 0, 2, 0, false, &reply), 0);
    IS(reply.number, NT_WAIT_TIMEOUT);
    nt_close(&lasting);
    free(lasting.room);
}

/* A creation is refused once 65,536 handles are open, and no longer once one is closed. */
static void limit(void)
{
    struct nt lasting = { room(), false };
    uint32_t count = 1, last = 0, number;
    IS(nt_open_lasting(&lasting, 1), 0);
    while ((number = made_in(&lasting)) != 0) {
        last = number;
        count++;
    }
    IS(count, NT_MAXIMUM_HANDLES);
    IS(last, NT_MAXIMUM_HANDLES - 1);
    IS(nt_create_event(&lasting, 0, 0, &reply), NT_ERROR_HANDLE_LIMIT);
    IS(nt_duplicate(&lasting, 0, 0, 0, &reply), NT_ERROR_HANDLE_LIMIT);
    IS(nt_close_handle(&lasting, 0, 100, &reply), 0);
    IS(made_in(&lasting), 100);
    IS(made_in(&lasting), 0);
    nt_close(&lasting);
    free(lasting.room);
}

/* A dispatcher that gave each number once gives the numbers of closed handles and of objects that are gone again, once that is asked for. */
static void from_now_on(void)
{
    struct nt once = { room(), false };
    struct nt_begun begun;
    uint32_t count = 2, number;
    IS(nt_give_again(&once), NT_ERROR_INVALID_HANDLE);
    IS(nt_open(&once, 2), 0);
    while ((number = made_in(&once)) != 0)
        count++;
    IS(count, NT_MAXIMUM_HANDLES);
    IS(nt_close_handle(&once, 0, 100, &reply), 0);
    IS(nt_close_handle(&once, 0, 200, &reply), 0);
    IS(nt_exit(&once, 1, &reply), 0);
    IS(nt_close_handle(&once, 0, 1, &reply), 0);
    IS(nt_create_event(&once, 0, 0, &reply), NT_ERROR_HANDLE_LIMIT);
    IS(nt_begin(&once, &begun), NT_ERROR_NO_MORE_ITEMS);
    IS(nt_give_again(&once), 0);
    IS(made_in(&once), 200);
    IS(nt_set_event(&once, 0, 100, &reply), NT_ERROR_INVALID_HANDLE);
    IS(nt_give_again(&once), 0);
    IS(made_in(&once), 100);
    IS(nt_begin(&once, &begun), 0);
    IS(begun.thread, 1);
    IS(begun.handle, 1);
    IS(made_in(&once), 0);
    IS(nt_close_handle(&once, 0, 300, &reply), 0);
    IS(made_in(&once), 300);
    nt_close(&once);
    free(once.room);
}

/* In this dispatcher, as below, all is set, and the wait for 64 objects and the timer's APC come. */
static void come_to_the_end(struct nt *it, const uint32_t *handles, uint32_t timer)
{
    struct nt_grant grant = { 99, 99 };
    for (uint32_t k = 0; k < NT_MAXIMUM_WAIT_OBJECTS; k++) {
        IS(nt_grant(it, 0, &grant), NT_ERROR_NO_MORE_ITEMS);
        IS(nt_set_event(it, 1, handles[k], &reply), 0);
    }
    IS(nt_grant(it, 0, &grant), 0);
    IS(grant.thread, 0);
    IS(grant.status, NT_WAIT_OBJECT_0);
    IS(nt_tick(it, 10), 0);
    IS(nt_wait_object(it, 1, timer, 0, false, &reply), 0);
    IS(reply.number, NT_WAIT_OBJECT_0);
    IS(nt_sleep(it, 1, 0, true, &reply), 0);
    IS(reply.number, NT_WAIT_IO_COMPLETION);
    IS(nt_next_apc(it, 1, &reply), 0);
    IS(reply.kind, NT_APC);
    IS(reply.routine, 7);
    IS(reply.arg, 9);
    IS(reply.at, 10);
}

/* If memory is there, none is refused, however large the numbers: to a timer with a routine, to a wait for 64 objects that pends, to a copy then. */
static void far_numbers(void)
{
    struct nt lasting = { room(), false }, copy = { room(), false };
    uint32_t handles[NT_MAXIMUM_WAIT_OBJECTS];
    const uint32_t timer = 5000;
    IS(nt_open_lasting(&lasting, 2), 0);
    for (uint32_t number = 2; number < timer; number++)
        must(made_in(&lasting) == number);
    IS(nt_create_timer(&lasting, 0, 0, &reply), 0);
    IS(reply.number, timer);
    IS(nt_set_timer_apc(&lasting, 1, timer, 10, 0, 7, 9, &reply), 0);
    for (uint32_t k = 0; k < NT_MAXIMUM_WAIT_OBJECTS; k++)
        handles[k] = 4096 + k;
    IS(nt_wait(&lasting, 0, handles, NT_MAXIMUM_WAIT_OBJECTS, true, NT_INFINITE, false, &reply), 0);
    IS(reply.kind, NT_PENDED);
    IS(nt_copy(&lasting, &copy), 0);
    come_to_the_end(&lasting, handles, timer);
    come_to_the_end(&copy, handles, timer);
    nt_close(&lasting);
    nt_close(&copy);
    free(lasting.room);
    free(copy.room);
}

/* A number that was freed is given again before new ones end, whatever is still awaited; a copy goes on where its original was. */
static void turns(void)
{
    struct nt lasting = { room(), false }, copy = { room(), false };
    IS(nt_open_lasting(&lasting, 4), 0);
    for (uint32_t number = 4; number < 8; number++)
        IS(made_in(&lasting), number);
    /* The objects 4, 5 and 7 are awaited still, 6 is gone; 7 was freed last, and the turn is that of 4. */
    for (uint32_t who = 1; who < 4; who++)
        IS(nt_wait_object(&lasting, who, (uint32_t[]){ 4, 5, 7 }[who - 1], NT_INFINITE, false, &reply), 0);
    for (uint32_t number = 4; number < 8; number++)
        IS(nt_close_handle(&lasting, 0, number, &reply), 0);
    struct nt_opened opened = { 99, 99 };
    /* New objects, while 4 and then 5 are awaited. */
    for (uint32_t object = 8; object < 10; object++) {
        const uint32_t handle = made_in(&lasting);
        IS(nt_opened(&lasting, handle, &opened), 0);
        IS(opened.object, object);
    }
    IS(nt_copy(&lasting, &copy), 0);
    for (int k = 0; k < 2; k++) {
        struct nt *it = k ? &copy : &lasting;
        const uint32_t handle = made_in(it);
        IS(nt_opened(it, handle, &opened), 0);
        IS(opened.object, 6);
        nt_close(it);
        free(it->room);
    }
}

int main(void)
{
    numbers();
    far_numbers();
    turns();
    places();
    aside();
    limit();
    from_now_on();
    return counted();
}
