/* The dispatcher's lock in pairs (pairs.h), with each of its own instructions tried: beside the thread that it favours nobody waits in vain. And
 * a call of that thread is a full barrier. */
#define LEAST_PATIENCE 2
#define MOST_PATIENCE 16
#define TURNS_THAT_PAY 8
#define TEST "lock_steps.c"
#include "shared_page.h"

/* The caller takes the lock, and gives it back, until that favours it. */
static struct seat *become_favoured(void)
{
    struct seat *seat = ntw_join();
    must(seat != NULL);
    for (int i = 0; i <= 2 * MOST_PATIENCE; i++) {
        must(take_lock_for(seat));
        give_lock_for(seat);
    }
    must(!process.has_barriers || lock_is(FAVOURS + seat->number));
    return seat;
}

static void take_and_give_for_caller(void)
{
    must(take_lock_for(own.seat));
    give_lock_for(own.seat);
}

static void take_and_give(void)
{
    take_lock();
    give_lock();
}

static void become_favoured_first(void)
{
    become_favoured();
}

/* ---- The favoured thread has the lock until the call has ended that is stepped through. */

static _Atomic bool has_lock;

static void have_lock_for_a_while(void)
{
    struct seat *seat = become_favoured();
    must(take_lock_for(seat));
    has_lock = true;
    while (!stepped.has_ended)
        doze();
    give_lock_for(seat);
}

static void favoured_one_has_it(void)
{
    static act *const has_it = have_lock_for_a_while;
    has_lock = stepped.has_ended = false;
    must(pthread_create(&waiter, NULL, run_act, (void *)(uintptr_t)&has_it) == 0);
    while (!has_lock)
        doze();
}

static void try_in_vain(void)
{
    must(!try_lock());
}

/* ---- A call of the favoured thread is a full barrier, as one of Windows is (full_barrier.c): one of its instructions is, by which it gives the lock
 * back. (It is looked for: the processor has each store of a thread that stops seen, so that no stop would tell.) */

static void count_barriers_of_call(void)
{
    step(take_and_give_for_caller, nothing, LONG_MAX);
    if (process.has_barriers)
        IS(stepped.barriers, 1);
}

int main(void)
{
    begin_pairs();
    is_of_lock = true;
    stepped.before = become_favoured_first;
    try_pair("a call of the favoured thread", nothing, take_and_give_for_caller, take_and_give, nothing, 20);
    count_barriers_of_call();
    stepped.before = NULL;
    try_pair("who tries it in vain", favoured_one_has_it, try_in_vain, take_and_give, end_waiter, 10);
    return counted_checks();
}
