/* ntwin.c under a scheduler and a clock of the test's own (schedules/strands.h): random programs, each with a random schedule. Words: how many of
 * them, 3,000 if that is not said, and the first one's seed, 1 if not; and a file for the trace of their steps (schedules/trace.h).
 *
 * What is kept under the lock holds whenever that is given back (ntwin/check.c); each wait answers the status with which the dispatcher ended
 * it, no sooner than its time; and whenever all threads sleep, each thread whose wait pends sleeps on its word, to its deadline at the
 * longest, and to the first timer with a routine of its own, where its wait is alertable; and if one of them waits for a timer, some thread
 * sleeps no longer than to the next moment. */
#include "schedules/system.h"

static uint32_t hear_wait(uint32_t who, uint32_t refused, const struct nt_reply *reply);
static uint32_t hear_exit(uint32_t who, uint32_t refused);
static uint32_t hear_told(uint32_t refused, const struct nt_told *told);
static uint32_t hear_timer(uint32_t who, uint32_t timer, bool has_routine, uint32_t refused);

#define nt_wait(nt, who, handles, count, all, ms, alertable, reply) \
    hear_wait(who, nt_wait(nt, who, handles, count, all, ms, alertable, reply), reply)
#define nt_wait_object(nt, who, handle, ms, alertable, reply) hear_wait(who, nt_wait_object(nt, who, handle, ms, alertable, reply), reply)
#define nt_sleep(nt, who, ms, alertable, reply) hear_wait(who, nt_sleep(nt, who, ms, alertable, reply), reply)
#define nt_swap(nt, who, signal, object, ms, alertable, reply) \
    hear_wait(who, nt_swap(nt, who, signal, object, ms, alertable, reply), reply)
#define nt_exit(nt, who, reply) hear_exit(who, nt_exit(nt, who, reply))
#define nt_told(nt, index, told) hear_told(nt_told(nt, index, told), told)
#define nt_set_timer(nt, who, timer, due, period, reply) hear_timer(who, timer, false, nt_set_timer(nt, who, timer, due, period, reply))
#define nt_set_timer_apc(nt, who, timer, due, period, routine, argument, reply) \
    hear_timer(who, timer, true, nt_set_timer_apc(nt, who, timer, due, period, routine, argument, reply))
#define nt_set_event(...) (point(), nt_set_event(__VA_ARGS__))
#define nt_release_semaphore(...) (point(), nt_release_semaphore(__VA_ARGS__))
#define nt_release_mutex(...) (point(), nt_release_mutex(__VA_ARGS__))
#define nt_tick(...) (point(), nt_tick(__VA_ARGS__))
#define nt_due(...) (point(), nt_due(__VA_ARGS__))

#include "../ntwin.c"

/* How often the programs did what. */
static struct {
    unsigned long long calls, waits, grants, calls_up, timeouts, apcs, threads, ends;
} sums;

/* ---- What each wait has to answer. A thread's wait may end for an APC that waits: so there is one for each depth. */

enum { MOST_DEPTH = 8, APC_DEPTH = 3 };
#define PENDS 0xFFFF0001u

static struct {
    uint32_t status[MOST_DEPTH];
    int depth;
    int apcs; /* that run, one within another */
} expected[NT_MAXIMUM_THREADS];

static uint32_t hear_wait(uint32_t who, uint32_t refused, const struct nt_reply *reply)
{
    if (!is_taken())
        broken("thread %u begins a wait without the lock", who);
    point();
    /* (Not where it only asks whether there is an APC.) */
    if (refused == 0 && reply == &waiting.seats[who].reply)
        expected[who].status[expected[who].depth++] = reply->kind == NT_PENDED ? PENDS : reply->number;
    return refused;
}

static uint32_t hear_told(uint32_t refused, const struct nt_told *told)
{
    if (!is_taken())
        broken("what is told is read without the lock");
    point();
    if (refused != 0)
        return refused;
    uint32_t *last = &expected[told->thread].status[expected[told->thread].depth - 1];
    if (expected[told->thread].depth == 0 || *last != PENDS)
        broken("thread %u is told 0x%x, and waits for nothing", told->thread, told->status);
    sums.calls_up += told->called;
    sums.grants += !told->called;
    if (!told->called)
        *last = told->status;
    return 0;
}

/* The caller's wait of this number of ms, which began then, has answered this. */
static void check_wait(DWORD status, DWORD ms, uint64_t began)
{
    if (status == WAIT_FAILED)
        return;
    sums.waits++;
    const uint32_t wanted = expected[own.seat->number].status[--expected[own.seat->number].depth];
    if (status != wanted)
        broken("a wait of thread %u answers 0x%x, and it was ended with 0x%x", own.seat->number, status, wanted);
    if (status != WAIT_TIMEOUT)
        return;
    sums.timeouts++;
    if (run.now / NANOSECONDS_PER_MOMENT < began / NANOSECONDS_PER_MOMENT + (uint64_t)ms * 10000)
        broken("a wait of %u ms times out too early", ms);
}

/* ---- What holds whenever all threads sleep. */

enum { MOST_ROUNDS = 3000 }; /* in which the first thread ends some waits */
enum { EVENTS = 4, SEMAPHORES = 2, MUTEXES = 2, TIMERS = 3, THREADS = 24, FOREIGN = 4, VALUES = 2, VALUE_BELOW = 3, VARIABLES = ADDRESSES - VALUES };

/* The objects of the program. */
static struct {
    HANDLE events[EVENTS], semaphores[SEMAPHORES], mutexes[MUTEXES], timers[TIMERS], threads[THREADS];
    uint32_t made; /* how many of the threads */
    uint32_t minders[TIMERS]; /* whose routine a timer has, the thread's number from 1 on; or 0 */
    uint32_t values[VALUES];  /* at which threads wait; and on these they sleep: */
    CONDITION_VARIABLE variables[VARIABLES];
    CRITICAL_SECTION section; /* of them */
} program;

/* ---- The place of each strand in a list of those that wait at an address. */

static struct parked places[MOST_STRANDS];

static struct parked *place_of_strand(const struct strand *strand)
{
    return &places[strand - run.strands];
}

static uint32_t strand_of_place(const volatile void *word)
{
    const uintptr_t at = (uintptr_t)word - (uintptr_t)&places[0].word;
    return at % sizeof places[0] == 0 && at < sizeof places ? (uint32_t)(at / sizeof places[0]) : NO_STRAND;
}

static uint32_t hear_timer(uint32_t who, uint32_t timer, bool has_routine, uint32_t refused)
{
    point();
    for (int i = 0; i < TIMERS && refused == 0; i++)
        if (timer == listed_number_of(program.timers[i]))
            program.minders[i] = has_routine ? who + 1 : 0;
    return refused;
}

static uint32_t hear_exit(uint32_t who, uint32_t refused)
{
    if (refused != 0)
        broken("thread %u can't end: %u", who, refused);
    sums.ends++;
    expected[who].depth = expected[who].apcs = 0;
    for (int i = 0; i < TIMERS; i++)
        program.minders[i] *= program.minders[i] != who + 1;
    return 0;
}

static const struct strand *sleeper_on(const void *word)
{
    for (int i = 0; i < run.count; i++)
        if (run.strands[i].state == SLEEPS && run.strands[i].word == word)
            return &run.strands[i];
    return NULL;
}

static uint64_t time_of(uint64_t moment)
{
    return (process.start + moment) * NANOSECONDS_PER_MOMENT;
}

/* Whether the thread may need another to keep the time. (The timers were made before any duplicate, so their numbers as objects are those of
 * their handles.) */
static bool is_watcher(uint32_t thread, const struct nt_pending_wait *wait)
{
    for (size_t i = 0; i < wait->count; i++) {
        uint32_t object;
        nt_waited_object(&waiting.dispatcher, thread, i, &object);
        for (int j = 0; j < TIMERS; j++)
            if (object == listed_number_of(program.timers[j]))
                return true;
    }
    return wait->alertable && waiting.seats[thread].has_more_routines;
}

/* When the first timer is due whose routine is this thread's. */
static uint64_t first_routine_of(uint32_t thread)
{
    uint64_t first = NEVER;
    for (int i = 0; i < TIMERS; i++) {
        struct nt_object timer;
        if (program.minders[i] == thread + 1 && nt_object(&waiting.dispatcher, listed_number_of(program.timers[i]), &timer) == 0 && timer.armed
            && timer.due < first)
            first = timer.due;
    }
    return first;
}

/* Answers whether this seat's thread may need another to keep the time. */
static bool look_at(const struct seat *seat)
{
    struct nt_pending_wait wait;
    const bool pends = nt_waits_for(&waiting.dispatcher, seat->number, &wait) == 0;
    const struct strand *sleeper = sleeper_on(&seat->word);
    if (pends != (sleeper != NULL))
        broken("the wait of thread %u %s, and it %s", seat->number, pends ? "pends" : "does not pend", sleeper ? "sleeps" : "does not sleep");
    if (!pends)
        return false;
    if (seat->word != IS_ASLEEP)
        broken("thread %u sleeps, and its word says %u", seat->number, (unsigned)seat->word);
    if (wait.timed && sleeper->until > time_of(wait.deadline))
        broken("thread %u sleeps past its deadline", seat->number);
    if (wait.alertable && !seat->has_more_routines && first_routine_of(seat->number) != NEVER
        && sleeper->until > time_of(first_routine_of(seat->number)))
        broken("thread %u sleeps past its own timer", seat->number);
    return is_watcher(seat->number, &wait);
}

static void look_at_all(void)
{
    bool any = false;
    uint64_t due;
    if (!waiting.dispatcher.live)
        return;
    for (int i = 0; i < run.count; i++)
        if (run.strands[i].is_refused_barrier) /* (It has the lock, and sleeps for a tenth of a second.) */
            return;
    if (is_taken())
        broken("all threads sleep, and the lock is not free: %u", (unsigned)waiting.lock);
    for (uint32_t i = 0; i < waiting.seated; i++)
        any |= look_at(&waiting.seats[i]);
    if (any && (nt_due)(&waiting.dispatcher, NT_GREATEST_MOMENT, &due) == 0 && next_end_of_sleep() > time_of(due))
        broken("nobody sleeps to the next moment, %llu ns", (unsigned long long)time_of(due));
}

#include "schedules/program.h"

/* Makes this memory zero. A run has written few of its pages: so whole pages are given back, and are zero from then on. */
static void clear(void *memory, size_t size)
{
    const size_t page = 4096, front = -(uintptr_t)memory % page, pages = (size - front) / page * page;
    char *at = memory;
    memset(at, 0, front);
    memset(at + front + pages, 0, size - front - pages);
    if (madvise(at + front, pages, MADV_DONTNEED) != 0)
        memset(at + front, 0, pages);
}

/* Nothing is left of the run before. */
static void begin_anew(void)
{
    nt_close(&waiting.dispatcher);
    free(waiting.dispatcher.room);
    clear(&waiting, sizeof waiting);
    memset(&own, 0, sizeof own);
    memset(expected, 0, sizeof expected);
    process.is_open = false;
    process.has_barriers = true;
    memset(&program, 0, sizeof program);
    memset(places, 0, sizeof places);
    memset(parkings, 0, sizeof parkings);
}

int main(int count, char **words)
{
    const uint64_t programs = count > 1 ? strtoull(words[1], NULL, 10) : 3000, first = count > 2 ? strtoull(words[2], NULL, 10) : 1;
    trace.file = count > 3 ? fopen(words[3], "w") : NULL;
    for (int i = 0; i < VALUES; i++)
        told_addresses[i] = &program.values[i];
    for (int i = 0; i < VARIABLES; i++)
        told_addresses[VALUES + i] = &program.variables[i];
    run.look = look_at_all;
    run.handle = act_in_handler;
    for (uint64_t seed = first; seed < first + programs; seed++) {
        begin_anew();
        run_all(drive, seed);
        write_trace();
        if (waiting.alive != 0)
            broken("%u threads have not left", waiting.alive);
    }
    printf("%llu calls, %llu waits, %llu of them ended later, %llu timeouts, %llu called to look at the time, ", sums.calls, sums.waits,
           sums.grants, sums.timeouts, sums.calls_up);
    printf("%llu APCs, %llu threads made, %llu ends\n", sums.apcs, sums.threads, sums.ends);
    tell_counts();
    printf("%llu passed, 0 failed\n", (unsigned long long)programs);
    return 0;
}
