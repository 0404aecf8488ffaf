/* What a thread finds as it begins, and what is left where none can begin. */
#include "creating.h"

#include <stdbool.h>

/* What stands in the system's place. */
static creation *creates = create_by_system;

int pthread_create(pthread_t *thread, const pthread_attr_t *attributes, void *(*start)(void *), void *argument)
{
    return creates(thread, attributes, start, argument);
}

/* early_apcs. Within 10 s: 6 passed, 0 failed.
 *
 * APCs that are queued before a thread begins run as it begins, in their order, before its function, which need make no alertable wait. So
 * do those that they queue. Here each thread waits to begin until it may. */

static LONG may_begin;

struct beginning {
    void *(*start)(void *);
    void *argument;
};

static void *begin_late(void *at)
{
    const struct beginning it = *(struct beginning *)at;
    free(at);
    await(&may_begin);
    return it.start(it.argument);
}

static int create_late(pthread_t *thread, const pthread_attr_t *attributes, void *(*start)(void *), void *argument)
{
    struct beginning *it = malloc(sizeof *it);
    must(it != NULL);
    *it = (struct beginning){ start, argument };
    return create_by_system(thread, attributes, begin_late, it);
}

/* What ran, in order: a digit for each. */
static ULONG_PTR order;

static void add(ULONG_PTR digit)
{
    order = order * 10 + digit;
    if (digit == 2)
        must(QueueUserAPC(add, GetCurrentThread(), 4) != 0);
}

static DWORD run(LPVOID unused)
{
    (void)unused;
    add(9);
    return 0;
}

int case_early_apcs(void)
{
    creates = create_late;
    HANDLE thread = CreateThread(NULL, 0, run, NULL, 0, NULL);
    for (ULONG_PTR digit = 1; digit <= 3; digit++)
        IS(QueueUserAPC(add, thread, digit) != 0, 1);
    IS(order, 0);
    raise_flag(&may_begin);
    IS(WaitForSingleObject(thread, INFINITE), WAIT_OBJECT_0);
    IS(order, 12349);
    return counted();
}

/* failed_creations. Within 10 s: 8404 passed, 0 failed.
 *
 * While the system has no thread more, CreateThread fails with ERROR_NOT_ENOUGH_MEMORY, as often as it is tried. It succeeds as soon as
 * there is one: what failed took no place, and its handle is closed. */

static volatile bool is_full;

static int create_unless_full(pthread_t *thread, const pthread_attr_t *attributes, void *(*start)(void *), void *argument)
{
    return is_full ? EAGAIN : create_by_system(thread, attributes, start, argument);
}

static DWORD do_nothing(LPVOID unused)
{
    (void)unused;
    return 0;
}

int case_failed_creations(void)
{
    creates = create_unless_full;
    HANDLE event = CreateEvent(NULL, TRUE, FALSE, NULL);
    is_full = true;
    for (int i = 0; i < 4200; i++) {
        SetLastError(0);
        IS(CreateThread(NULL, 0, do_nothing, NULL, 0, NULL) == NULL, 1);
        IS(GetLastError(), ERROR_NOT_ENOUGH_MEMORY);
    }
    is_full = false;
    IS(is_closed((HANDLE)((ULONG_PTR)event + 4)), 1);
    HANDLE thread = CreateThread(NULL, 0, do_nothing, NULL, 0, NULL);
    IS(thread != NULL, 1);
    IS(WaitForSingleObject(thread, INFINITE), WAIT_OBJECT_0);
    IS(SetEvent(event), TRUE);
    return counted();
}

/* id_before_thread. Within 10 s: 2 passed, 0 failed.
 *
 * A thread's id is written before the thread runs, which may read it, and may free the memory in which it stands. Here who creates a thread
 * rests as soon as that runs. */

enum { ROUNDS = 50, FREED = 0x55 };

struct job {
    DWORD id;
    BOOL is_right;
};

static int create_and_rest(pthread_t *thread, const pthread_attr_t *attributes, void *(*start)(void *), void *argument)
{
    const int error = create_by_system(thread, attributes, start, argument);
    rest_ms(3);
    return error;
}

static DWORD reads(LPVOID at)
{
    struct job *job = at;
    job->is_right = job->id == GetCurrentThreadId();
    return 0;
}

/* (As good as free: what is written later is seen.) */
static DWORD frees(LPVOID at)
{
    memset(at, FREED, sizeof(struct job));
    return 0;
}

int case_id_before_thread(void)
{
    creates = create_and_rest;
    struct job jobs[2][ROUNDS] = { 0 };
    int right = 0, left_alone = 0;
    for (int i = 0; i < ROUNDS; i++) {
        must(WaitForSingleObject(CreateThread(NULL, 0, reads, &jobs[0][i], 0, &jobs[0][i].id), INFINITE) == WAIT_OBJECT_0);
        right += jobs[0][i].is_right;
        must(WaitForSingleObject(CreateThread(NULL, 0, frees, &jobs[1][i], 0, &jobs[1][i].id), INFINITE) == WAIT_OBJECT_0);
        left_alone += jobs[1][i].id == FREED * 0x01010101u;
    }
    IS(right, ROUNDS);
    IS(left_alone, ROUNDS);
    return counted();
}
