/* Threads of a test's own, with ntwin.c as a part of the test: each runs until it comes to a point at which another may run in its place, and
 * chance decides. Such points are each step on a word, each call of the dispatcher, and each call of the system, which are all made here. The
 * time is a number: it moves a little as these threads run, and jumps when all of them sleep. So a run is the same each time for a seed. */
#ifndef STRANDS_H
#define STRANDS_H

#define _GNU_SOURCE
#define NTWIN_ONE_UNIT /* (as ntwin.c has it) */
#define CHECKS_WAITING
#define LOOKS_AT_LOCK 2
#define LOOKS_AT_WORD 3
#define WAITS_PER_TRY 5
#define MINDED_AT_MOST 2
#define LEAST_PATIENCE 2
#define MOST_PATIENCE 8
#define TURNS_THAT_PAY 3
/* What a thread finds of its own is one variable, which is changed at each switch. */
#define own OWN
#define own_place (*place_of_strand(run.runs))
#define PARKED_THREAD(word) strand_of_place(word)
#include "step_names.h"
#include "../../nt.h"
/* (To open and close a dispatcher for 4,096 threads takes longer than most of these programs.) */
#undef NT_MANY_THREADS
#define NT_MANY_THREADS NT_MAXIMUM_THREADS
#include "../../ntwin/inside.h"
#include "../../schedule/chance.h"

#include <stdarg.h>
#include <stdio.h>
#include <string.h>
#include <ucontext.h>

static struct own own;

enum {
    MOST_STRANDS = 64,
    STACK = 128 * 1024,
    MOST_POINTS = 30000000, /* in a run */
    MOST_JUMPS = 60,        /* of the time, between two turns of who rests */
    ROUNDS_AT_END = PTHREAD_DESTRUCTOR_ITERATIONS,
    STEPS_KNOWN = 8,        /* of a strand's last ones, where each is in the trace */
    NANOSECONDS = 1000000000
};

/* A strand: a thread, here. */
struct strand {
    enum { CAN_RUN, SLEEPS, RESTS, HAS_ENDED } state;
    bool has_begun;
    ucontext_t beginning;
    jmp_buf at;             /* where it goes on */
    jmp_buf end;            /* and where it ends */
    char *stack;
    void *(*start)(void *);
    void *argument;
    const void *word;       /* on which it sleeps, */
    uint64_t until;         /* to this time at the longest, in ns, */
    bool is_woken;          /* unless it was woken */
    uint32_t *late_word;    /* to which it has stored this, which others do not see yet; null where there is none (system.h): */
    uint32_t late_value;
    int priority;
    const void *leaving;    /* the value of its key */
    bool is_refused_barrier; /* it was refused a barrier, and rests until others' stores have arrived */
    bool is_told_asleep;    /* it sleeps, as the trace has it */
    bool is_in_handler;     /* a handler of signals has interrupted it, */
    bool is_in_call;        /* and in a call, as the words' protocol has it */
    uint64_t owes;          /* the sleepers that it has granted or called and not woken since: a bit for each thread of that protocol */
    struct telling {        /* what it is to tell (trace.h) */
        struct made_step {  /* its last steps, as many as there are: */
            const volatile void *word;
            size_t place;
        } made[STEPS_KNOWN];
        uint32_t steps_made;
        uint32_t is_thread[PROTOCOLS]; /* which thread of each protocol it is, */
        uint32_t next_lock_thread;     /* and of the lock's is to be (plus one) */
        uint32_t returns_as;           /* what its next return is; 0 where that is one */
        uint32_t address;              /* at which of those addresses it waits, or unparks others */
        bool has_missed;               /* its last step found that the lock no longer favours it */
        bool has_barred;               /* it has had the others pass a barrier */
        enum { OUT_OF_CALL, IN_CALL, IN_WAIT } stands; /* where it is, as the words' protocol has it */
        struct {
            enum protocol protocol;
            const volatile void *word;
            uint32_t names[5];
        } to_sleep;
        struct {
            enum protocol protocol;
            const volatile void *word;
            uint32_t names[3];
        } to_wake;
    } tells;
    struct own kept;
};

/* How chance decides whether another strand runs at a point. */
enum habit { OFTEN, SOMETIMES, BY_PRIORITY, SELDOM, HABITS };

static struct {
    struct strand strands[MOST_STRANDS];
    int count;
    struct strand *runs;      /* null before a run */
    jmp_buf end;            /* of the run */
    enum habit habit;
    uint64_t seed, state[2];
    uint64_t now;           /* in ns */
    uint64_t points;
    int jumps;              /* since who rests had its turn */
    int changes;            /* of priorities */
    void (*destructor)(void *);
    void (*look)(void);     /* what is looked at whenever all strands sleep */
    void (*handle)(void);   /* what a handler of signals does */
} run;

/* ---- Chance. */

static uint64_t any_number(void)
{
    return next_of_chance(run.state);
}

/* A number below this one. */
static uint32_t below(uint32_t limit)
{
    return (uint32_t)(any_number() % limit);
}

static bool one_in(uint32_t count)
{
    return below(count) == 0;
}

/* ---- The place of each strand among those that wait at an address. */

struct parked;
static struct parked *place_of_strand(const struct strand *strand);

enum { NO_STRAND = MOST_STRANDS };

/* Whose word this is, or NO_STRAND. */
static uint32_t strand_of_place(const volatile void *word);

/* ---- What does not hold ends the test, with the trace to there. */

static void write_trace(void);

__attribute__((format(printf, 1, 2), noreturn)) static void broken(const char *format, ...)
{
    va_list list;
    va_start(list, format);
    printf("schedules: seed %llu, at %llu ns, thread %d: ", (unsigned long long)run.seed, (unsigned long long)run.now,
           run.runs == NULL ? -1 : (int)(run.runs - run.strands));
    vprintf(format, list);
    putchar('\n');
    va_end(list);
    fflush(stdout);
    write_trace();
    _Exit(1);
}

/* ---- What a strand has stored last is late: others see it by chance, or once it makes a step, stores more, sleeps, or passes a barrier. */

static void note_step(const volatile void *word);
static void note_arrival(struct strand *strand, const volatile void *word, uint32_t value);

static void end_store(struct strand *strand)
{
    if (strand != NULL && strand->late_word != NULL) {
        __atomic_store_n(strand->late_word, strand->late_value, __ATOMIC_SEQ_CST);
        note_arrival(strand, strand->late_word, strand->late_value);
    }
    if (strand != NULL)
        strand->late_word = NULL;
}

static void store_late(void *word, uint32_t value)
{
    end_store(run.runs);
    note_step(word);
    run.runs->late_word = word;
    run.runs->late_value = value;
}

static void end_all_stores(void)
{
    for (int i = 0; i < run.count; i++)
        end_store(&run.strands[i]);
}

/* ---- Which strand runs. */

static bool is_ready(const struct strand *strand)
{
    return strand->state == CAN_RUN || (strand->state == SLEEPS && (strand->is_woken || strand->until <= run.now));
}

/* When the first strand stops sleeping by itself. */
static uint64_t next_end_of_sleep(void)
{
    uint64_t next = NEVER;
    for (int i = 0; i < run.count; i++)
        if (run.strands[i].state == SLEEPS && run.strands[i].until < next)
            next = run.strands[i].until;
    return next;
}

static struct strand *who_rests(void)
{
    for (int i = 0; i < run.count; i++)
        if (run.strands[i].state == RESTS)
            return &run.strands[i];
    return NULL;
}

/* One of those that are ready, or null. */
static struct strand *choose(void)
{
    struct strand *ready[MOST_STRANDS], *best = NULL;
    uint32_t count = 0;
    for (int i = 0; i < run.count; i++)
        if (is_ready(&run.strands[i])) {
            ready[count++] = &run.strands[i];
            if (best == NULL || run.strands[i].priority > best->priority)
                best = &run.strands[i];
        }
    return count == 0 || run.habit == BY_PRIORITY ? best : ready[below(count)];
}

/* All strands sleep: the time jumps to when the first one stops, or who rests has its turn. False where none is left. */
static bool pass_idle(void)
{
    const uint64_t next = next_end_of_sleep();
    struct strand *rests = who_rests();
    if (next == NEVER && rests == NULL) {
        for (int i = 0; i < run.count; i++)
            if (run.strands[i].state != HAS_ENDED)
                broken("all threads sleep for good");
        return false;
    }
    run.look();
    if (rests != NULL && (next == NEVER || ++run.jumps > MOST_JUMPS)) {
        run.jumps = 0;
        rests->state = CAN_RUN;
    } else {
        run.now = next + (one_in(4) ? below(1000000) : 0);
    }
    return true;
}

/* The strand that runs next; null where none is left. */
static struct strand *next_strand(void)
{
    for (;;) {
        struct strand *next = choose();
        if (next != NULL || !pass_idle())
            return next;
    }
}

/* Has this strand run, or ends the run. What the caller left comes back here, in its own stack. */
__attribute__((noinline)) static void switch_to(struct strand *next)
{
    struct strand *last = run.runs;
    if (next == last)
        return;
    if (last != NULL)
        last->kept = own;
    if (last != NULL && _setjmp(last->at) != 0)
        return;
    run.runs = next;
    if (next == NULL)
        _longjmp(run.end, 1);
    own = next->kept;
    if (next->has_begun)
        _longjmp(next->at, 1);
    next->has_begun = true;
    setcontext(&next->beginning);
}

/* The caller does not run, but for this reason, until it is chosen. */
static void stand_aside(int state)
{
    struct strand *me = run.runs;
    end_store(me);
    me->state = state;
    switch_to(next_strand());
    me->state = CAN_RUN;
}

/* A point at which another strand may run: but where all sleep, and are looked at. */
static void point(void)
{
    struct strand *me = run.runs;
    static const uint32_t seldom[HABITS] = { [OFTEN] = 2, [SOMETIMES] = 8, [BY_PRIORITY] = 1, [SELDOM] = 40 };
    if (me == NULL || me->state != CAN_RUN)
        return;
    if (++run.points > MOST_POINTS)
        broken("the run does not end");
    if (one_in(4))
        end_store(&run.strands[below((uint32_t)run.count)]);
    if (one_in(64))
        run.now += below(2000);
    if (one_in(2000))
        run.now += below(5000000);
    if (run.habit == BY_PRIORITY && one_in(200))
        me->priority = (int)below(1000) - 1000 * (++run.changes % 3);
    if (one_in(seldom[run.habit]))
        switch_to(choose());
}

/* ---- Strands begin and end. */

__attribute__((noreturn)) static void end_strand(void)
{
    _longjmp(run.runs->end, 1);
}

/* Runs the caller's function, to its return or to `end_strand`. */
__attribute__((noinline)) static void run_start(void)
{
    if (_setjmp(run.runs->end) == 0)
        run.runs->start(run.runs->argument);
}

/* A strand runs: then come the destructors of its key's values. */
static void run_strand(void)
{
    run_start();
    struct strand *me = run.runs;
    for (int round = 0; round < ROUNDS_AT_END && me->leaving != NULL; round++) {
        void *value = (void *)(uintptr_t)me->leaving;
        me->leaving = NULL;
        point();
        run.destructor(value);
    }
    stand_aside(HAS_ENDED);
    broken("a thread runs that has ended");
}

/* Who goes on there runs a strand in this stack. */
__attribute__((noinline)) static void prepare(ucontext_t *there, char *stack)
{
    getcontext(there);
    there->uc_stack.ss_sp = stack;
    there->uc_stack.ss_size = STACK;
    makecontext(there, run_strand, 0);
}

/* A strand more, or null where there is no room. */
static struct strand *add_strand(void *(*start)(void *), void *argument)
{
    if (run.count == MOST_STRANDS)
        return NULL;
    struct strand *strand = &run.strands[run.count++];
    char *stack = strand->stack != NULL ? strand->stack : malloc(STACK);
    if (stack == NULL)
        abort();
    memset(strand, 0, sizeof *strand);
    strand->stack = stack;
    strand->start = start;
    strand->argument = argument;
    strand->priority = (int)below(1000);
    prepare(&strand->beginning, stack);
    return strand;
}

/* The caller rests until all others sleep. Answers whether any of them is left. */
static bool rest_till_all_sleep(void)
{
    stand_aside(RESTS);
    for (int i = 0; i < run.count; i++)
        if (&run.strands[i] != run.runs && run.strands[i].state != HAS_ENDED)
            return true;
    return false;
}

static void run_all(void *(*first)(void *), uint64_t seed)
{
    run.count = run.jumps = run.changes = 0;
    run.points = 0;
    run.now = NANOSECONDS;
    run.seed = seed;
    run.habit = (enum habit)(seed % HABITS);
    begin_chance(run.state, seed);
    add_strand(first, NULL);
    run.runs = NULL;
    if (_setjmp(run.end) == 0)
        switch_to(next_strand());
    run.runs = NULL;
}

#endif
