/* A handler of signals calls in a thread that begins, or that ends: a part of interrupted.c. */
#ifndef INTERRUPTED_LIVES_H
#define INTERRUPTED_LIVES_H

/* ---- A handler in a thread that begins: that has one place, though the handler may have taken one before it. */

static struct seat *beginner;
static HANDLE has_begun;
static uint32_t alive;

/* (Who steps it joins it.) */
static DWORD WINAPI forget_runner(LPVOID none)
{
    (void)none;
    free(own.seat->runner);
    own.seat->runner = NULL;
    return 0;
}

static void seat_beginner(void)
{
    struct nt_reply reply;
    struct seat *caller = ntw_begin();
    alive = waiting.alive;
    must(caller != NULL && seat_thread(caller, &beginner, &reply) == 0);
    has_begun = give_handle(reply.number);
    must(ntw_finish(caller, 0) && (beginner->runner = calloc(1, sizeof *beginner->runner)) != NULL);
    beginner->start = forget_runner;
}

static void begin(void)
{
    run_thread(beginner);
}

static void has_ended(void)
{
    must(WaitForSingleObject(has_begun, INFINITE) == WAIT_OBJECT_0 && CloseHandle(has_begun) && waiting.alive == alive);
    look_at_others();
    seat_beginner();
}

static void *begin_unstepped(void *none)
{
    begin();
    return none;
}

static void interrupt_begins(void)
{
    pthread_t last;
    seat_beginner();
    interrupt_by(set_others, has_ended, "the beginning of a thread", NULL, begin, nothing);
    must(pthread_create(&last, NULL, begin_unstepped, NULL) == 0 && pthread_join(last, NULL) == 0 && CloseHandle(has_begun));
}

/* ---- A handler in a thread that ends, which owns what another waits for. */

static HANDLE mutex;
static struct seat *_Atomic waiter_for_mutex;

static void *wait_for_mutex(void *none)
{
    waiter_for_mutex = ntw_join();
    must(WaitForSingleObject(mutex, INFINITE) == WAIT_ABANDONED && ReleaseMutex(mutex));
    return none;
}

static pthread_t who_waits;

static void own_and_be_waited_for(void)
{
    waiter_for_mutex = NULL;
    must(WaitForSingleObject(mutex, INFINITE) == WAIT_OBJECT_0 && pthread_create(&who_waits, NULL, wait_for_mutex, NULL) == 0);
    while (waiter_for_mutex == NULL || atomic_load(&waiter_for_mutex->word) != IS_ASLEEP)
        doze();
}

static void end_to_be_waited_for(void)
{
    must(pthread_join(who_waits, NULL) == 0);
    look_at_others();
}

static void interrupt_ends(void)
{
    must((mutex = CreateMutex(NULL, FALSE, NULL)) != NULL);
    stepped.to_the_end = true;
    interrupt("the end of a thread", call_once, nothing, nothing);
    interrupt_by(set_others, end_to_be_waited_for, "the end of a thread that owns a mutex", own_and_be_waited_for, nothing, nothing);
    stepped.to_the_end = false;
}

#endif
