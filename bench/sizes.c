/* The calls of c/nt.h that bench/sizes counts, beside so much that they don't touch.
 *
 * usage: sizes WHAT SIZE ROUNDS     makes SIZE of what is to be there, and then each round so often
 *        sizes once SIZE ROUNDS     the same for SIZE threads, in a dispatcher that gives each number once
 *
 * It writes what that took of memory, and what a round of each took. Under valgrind's callgrind each round's instructions are dumped by
 * its name. Each answer is looked at: a call that is refused, or answers another kind, ends the program with status 1. */
#define _GNU_SOURCE
#include <stdio.h>
#include <stdlib.h>
#include <string.h>
#include <valgrind/callgrind.h>

#include "nt.h"

enum { THREADS = 260, A_WAIT = NT_MAXIMUM_WAIT_OBJECTS, FAR = 1000000000 };

static struct nt nt;
static struct nt_reply reply;
static unsigned ROUNDS;

/* ---- How many bytes were asked for (the linker has the library call these). */

static size_t asked;
void *__real_malloc(size_t size);
void *__real_realloc(void *old, size_t size);
void *__real_aligned_alloc(size_t alignment, size_t size);
void *__wrap_malloc(size_t size);
void *__wrap_realloc(void *old, size_t size);
void *__wrap_aligned_alloc(size_t alignment, size_t size);

void *__wrap_malloc(size_t size)
{
    asked += size;
    return __real_malloc(size);
}

void *__wrap_realloc(void *old, size_t size)
{
    asked += size;
    return __real_realloc(old, size);
}

void *__wrap_aligned_alloc(size_t alignment, size_t size)
{
    asked += size;
    return __real_aligned_alloc(alignment, size);
}

/* ---- Calls that answer what they have to. */

/* Ends the program unless the call was accepted with this kind of answer. */
static void expect(uint32_t error, uint32_t kind)
{
    if (error != 0 || reply.kind != kind) {
        fprintf(stderr, "error %u, kind %u where %u was expected\n", error, reply.kind, kind);
        exit(1);
    }
}

static uint32_t created(uint32_t error)
{
    expect(error, NT_HANDLE);
    return reply.number;
}

static uint32_t event(void) { return created(nt_create_event(&nt, 0, 0, &reply)); }
static uint32_t mutex(void) { return created(nt_create_mutex(&nt, 0, 0, &reply)); }
static uint32_t semaphore(void) { return created(nt_create_semaphore(&nt, 0, 0, 1, &reply)); }
static uint32_t timer(void) { return created(nt_create_timer(&nt, 0, 0, &reply)); }
static void set(uint32_t handle) { expect(nt_set_event(&nt, 0, handle, &reply), NT_DONE); }
static void closed(uint32_t handle) { expect(nt_close_handle(&nt, 0, handle, &reply), NT_DONE); }
static void armed(uint32_t handle, uint32_t due) { expect(nt_set_timer(&nt, 0, handle, due, 0, &reply), NT_DONE); }

static void waits(uint32_t who, uint32_t handle, uint32_t ms, uint32_t kind)
{
    expect(nt_wait_object(&nt, who, handle, ms, false, &reply), kind);
}

/* ---- What is there, and not touched. */

static void events(unsigned size)
{
    while (size-- != 0)
        event();
}

static void timers(unsigned size)
{
    for (unsigned i = 0; i < size; i++)
        armed(timer(), FAR + i);
}

/* So many waits pend, each for any of 64 events of its own. */
static void pending(unsigned size)
{
    uint32_t list[A_WAIT];
    for (unsigned who = 2; who < 2 + size; who++) {
        for (unsigned i = 0; i < A_WAIT; i++)
            list[i] = event();
        expect(nt_wait(&nt, who, list, A_WAIT, false, NT_INFINITE, false, &reply), NT_PENDED);
    }
}

/* ---- Rounds: what each makes before stands in `own`. */

static uint32_t own[A_WAIT];

static void set_and_take(void)
{
    set(own[0]);
    waits(0, own[0], 0, NT_STATUS);
}

static void set_and_reset(void)
{
    set(own[0]);
    expect(nt_reset_event(&nt, 0, own[0], &reply), NT_DONE);
}

static void released_by(uint32_t who) { expect(nt_release_mutex(&nt, who, own[0], &reply), NT_DONE); }

static void take_and_release(void)
{
    waits(0, own[0], 0, NT_STATUS);
    released_by(0);
}

/* Thread 0 takes a mutex, hands it to thread 1, and gets it back. */
static void to_and_fro(void)
{
    waits(0, own[0], 0, NT_STATUS);
    waits(1, own[0], NT_INFINITE, NT_PENDED);
    released_by(0);
    waits(0, own[0], NT_INFINITE, NT_PENDED);
    released_by(1);
    released_by(0);
}

static void release_and_take(void)
{
    expect(nt_release_semaphore(&nt, 0, own[0], 1, &reply), NT_PREVIOUS);
    waits(0, own[0], 0, NT_STATUS);
}

/* Thread 1 waits for an event, which is set. */
static void hand_over(void)
{
    waits(1, own[0], NT_INFINITE, NT_PENDED);
    set(own[0]);
}

/* The same to a deadline. */
static void hand_over_in_time(void)
{
    waits(1, own[0], FAR, NT_PENDED);
    set(own[0]);
}

static void look_for_any(void)
{
    expect(nt_wait(&nt, 0, own, A_WAIT, false, 0, false, &reply), NT_STATUS);
}

static void pend_for_any(void)
{
    expect(nt_wait(&nt, 1, own, A_WAIT, false, NT_INFINITE, false, &reply), NT_PENDED);
    set(own[A_WAIT - 1]);
}

/* Thread 1 waits for an event; thread 0 sets it and waits for another, which thread 1 sets. */
static void swap(void)
{
    waits(1, own[0], NT_INFINITE, NT_PENDED);
    expect(nt_swap(&nt, 0, own[0], own[1], NT_INFINITE, false, &reply), NT_PENDED);
    expect(nt_set_event(&nt, 1, own[1], &reply), NT_DONE);
}

static void arm_and_cancel(void)
{
    armed(own[0], FAR / 2);
    expect(nt_cancel_timer(&nt, 0, own[0], &reply), NT_DONE);
}

static void create_and_close(void) { closed(event()); }
static void duplicate_and_close(void) { closed(created(nt_duplicate(&nt, 0, own[0], NT_SYNCHRONIZE, &reply))); }

/* A tick at which nothing is due. */
static void tick(void)
{
    static uint64_t moment;
    if (nt_tick(&nt, ++moment) != 0)
        exit(1);
}

static const struct {
    const char *name;
    void (*round)(void);
    uint32_t (*make)(void);
    unsigned made;
} SHAPES[] = {
    { "set_and_take", set_and_take, event, 1 },
    { "set_and_reset", set_and_reset, event, 1 },
    { "take_and_release", take_and_release, mutex, 1 },
    { "release_and_take", release_and_take, semaphore, 1 },
    { "hand_over", hand_over, event, 1 },
    { "hand_over_in_time", hand_over_in_time, event, 1 },
    { "look_for_any", look_for_any, event, A_WAIT },
    { "pend_for_any", pend_for_any, event, A_WAIT },
    { "swap", swap, event, 2 },
    { "to_and_fro", to_and_fro, mutex, 1 },
    { "arm_and_cancel", arm_and_cancel, timer, 1 },
    { "create_and_close", create_and_close, event, 0 },
    { "duplicate_and_close", duplicate_and_close, event, 1 },
    { "tick", tick, event, 0 },
};

/* Makes what the shape needs, a round of it so that what is kept for the next is there, and then the rounds that count. */
static void run(const char *name, void (*round)(void), uint32_t (*make)(void), unsigned made)
{
    for (unsigned i = 0; i < made; i++)
        own[i] = make();
    round();
    const size_t before = asked;
    CALLGRIND_ZERO_STATS;
    for (unsigned i = 0; i < ROUNDS; i++)
        round();
    CALLGRIND_DUMP_STATS_AT(name);
    printf("%s: %zu bytes\n", name, (asked - before) / ROUNDS);
    /* (The last one first, so that the next shape's numbers rise, too, if they are given again.) */
    for (unsigned i = made; i > 0; i--)
        closed(own[i - 1]);
}

/* Opens the dispatcher for this. */
static uint32_t opened_for(const char *what, unsigned size)
{
    if (strcmp(what, "once") == 0)
        return nt_open(&nt, size);
    return nt_open_lasting(&nt, strcmp(what, "threads") == 0 ? size : THREADS);
}

int main(int words, char **word)
{
    if (words != 4) {
        fprintf(stderr, "usage: sizes WHAT SIZE ROUNDS\n");
        return 2;
    }
    const unsigned size = (unsigned)strtoul(word[2], NULL, 10);
    ROUNDS = (unsigned)strtoul(word[3], NULL, 10);
    nt.room = aligned_alloc(16, (nt_room() + 15) / 16 * 16);
    if (nt.room == NULL || opened_for(word[1], size) != 0)
        return 1;
    if (strcmp(word[1], "objects") == 0)
        events(size);
    else if (strcmp(word[1], "timers") == 0)
        timers(size);
    else if (strcmp(word[1], "waits") == 0)
        pending(size);
    for (size_t i = 0; i < sizeof SHAPES / sizeof *SHAPES; i++)
        run(SHAPES[i].name, SHAPES[i].round, SHAPES[i].make, SHAPES[i].made);
    nt_close(&nt);
    free(nt.room);
    return 0;
}
