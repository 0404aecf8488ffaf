/* The lock and the thread that it favours, under real threads: one of them takes the lock often, others do now and then, and which one that is
 * changes; threads end, and others begin in the seats that these have left, which the lock does not favour then. The first takes it by plain
 * stores, alone in the process, until it is favoured: who comes then revokes that. A counter that nothing but the lock protects tells where two
 * have it, and who is not done in time has slept with the lock free. A thread that reads what the favoured one stores makes these stores slow, so
 * that others may see them late. */
#define LEAST_PATIENCE 2
#define MOST_PATIENCE 16
#define TURNS_THAT_PAY 8
#define NTWIN_ONE_UNIT /* (as ntwin.c has it) */
#include "../ntwin/inside.h"

/* What the system refuses: threads, and memory. */
static bool refuses_threads, refuses_memory;
#define pthread_create(thread, attributes, start, argument) (refuses_threads ? EAGAIN : pthread_create(thread, attributes, start, argument))
#define calloc(count, size) (refuses_memory ? NULL : calloc(count, size))

/* The caller calls the system: where it is a thread that ends, it wakes others. */
static void note_call_of_system(void);
#define syscall(...) (note_call_of_system(), syscall(__VA_ARGS__))
#include "../ntwin.c"
#undef syscall
#undef calloc
#undef pthread_create

#define counted counted_checks /* (ntwin.c has another.) */
#include "check.h"

enum { THREADS = 4, LIVES = 40, ROUNDS = 500, MOST_IN_A_ROW = 80, LONG_HOLDS = 500, SHORT_HOLD = 20 };

static volatile uint64_t COUNT;       /* how often it was taken, under the lock */
static _Atomic uint64_t TAKES;        /* the same, of all threads that have ended */
static _Atomic uint64_t FAVOURS_LOST; /* how often a thread found that the lock favours it no longer */
static _Atomic uint64_t FAVOURED;     /* how often a thread took it as the favoured one */
static _Atomic uint64_t LATER;        /* how many threads got a seat that another had left */
static _Atomic bool HAD[THREADS + 1]; /* the seats that a thread has had */
static _Atomic bool DONE;

/* What a thread has seen. */
struct taker {
    uint64_t chance, takes, favoured, favours_lost;
    bool was_favoured;
};

static uint32_t below(struct taker *me, uint32_t limit)
{
    me->chance = me->chance * UINT64_C(6364136223846793005) + 1442695040888963407;
    return (uint32_t)(me->chance >> 33) % limit;
}

static void spend(uint32_t times)
{
    for (uint32_t i = 0; i < times; i++)
        rest();
}

/* The caller has the lock: for a while, and seldom so long that others fall asleep. */
static void count(struct taker *me)
{
    const struct timespec nap = { .tv_nsec = 50000 };
    const uint64_t seen = COUNT;
    if (below(me, LONG_HOLDS) == 0)
        nanosleep(&nap, NULL);
    else
        spend(below(me, SHORT_HOLD) / (SHORT_HOLD - 1));
    COUNT = seen + 1;
    me->takes++;
}

/* A call of this thread. */
static void call(struct taker *me, struct seat *seat)
{
    take_lock_for(seat);
    const bool is_favoured_now = inside_of(seat) != 0;
    me->favoured += is_favoured_now;
    me->favours_lost += me->was_favoured && !is_favoured_now;
    me->was_favoured = is_favoured_now;
    count(me);
    give_lock_for(seat);
    must(!takes_lock(seat) && inside_of(seat) == 0);
}

/* It takes the lock as who has no seat, or as who ends the process. */
static void take_otherwise(struct taker *me)
{
    if (below(me, 2) == 0)
        take_lock();
    else if (!try_lock())
        return;
    count(me);
    give_lock();
}

static void *live(void *seed)
{
    struct taker me = { .chance = (uintptr_t)seed };
    struct seat *seat = ntw_join();
    must(seat != NULL && seat->number <= THREADS && !lock_is(FAVOURS + seat->number) && inside_of(seat) == 0);
    LATER += atomic_exchange(&HAD[seat->number], true);
    for (int round = 0; round < ROUNDS; round++) {
        for (uint32_t left = below(&me, 3) == 0 ? below(&me, MOST_IN_A_ROW) : 1; left > 0; left--)
            call(&me, seat);
        if (below(&me, 20) == 0)
            take_otherwise(&me);
        if (below(&me, 40) == 0)
            sched_yield();
        spend(below(&me, 200));
    }
    TAKES += me.takes;
    FAVOURED += me.favoured;
    FAVOURS_LOST += me.favours_lost;
    return NULL;
}

/* So many threads, one after another. */
static void *live_often(void *seed)
{
    for (uintptr_t i = 0; i < LIVES; i++) {
        pthread_t thread;
        must(pthread_create(&thread, NULL, live, (void *)((uintptr_t)seed * LIVES + i)) == 0 && pthread_join(thread, NULL) == 0);
    }
    return NULL;
}

/* (A sanitizer, beside which the lock favours nobody, would tell of this.) */
static void *read_words(void *none)
{
    while (process.has_barriers && !DONE)
        for (uint32_t i = 0; i <= THREADS; i++)
            (void)atomic_load_explicit(&waiting.seats[i].inside, memory_order_relaxed);
    return none;
}

/* The process' only thread calls. Answers whether the lock favours it then. */
static bool is_favoured_alone(void)
{
    struct taker me = { .chance = 0 };
    struct seat *seat = ntw_join();
    must(seat != NULL);
#ifdef TELLS_WHETHER_ALONE
    must(is_alone());
#endif
    for (int i = 0; i < MOST_IN_A_ROW; i++)
        call(&me, seat);
    TAKES += me.takes;
    return lock_is(FAVOURS + seat->number) && me.favoured > 0;
}

static DWORD WINAPI end_at_once(LPVOID none)
{
    (void)none;
    return 0;
}

/* A creation that is refused takes the lock so often, and has given it back; no thread has a place of it. */
static void is_refused(uint32_t takes)
{
    const uint32_t turns = own.seat->turns;
    SetLastError(0);
    IS(CreateThread(NULL, 0, end_at_once, NULL, 0, NULL) == NULL, true);
    IS(GetLastError(), ERROR_NOT_ENOUGH_MEMORY);
    IS(own.seat->turns - turns, process.has_barriers ? takes : 0);
    IS(inside_of(own.seat) == 0 && !takes_lock(own.seat), true);
    IS(waiting.alive, 1);
}

/* A creation takes the lock once, and once more where the system has no thread. The caller is favoured, so its turns are counted. */
static void creations_are_refused(void)
{
    refuses_memory = true;
    is_refused(1);
    refuses_memory = false, refuses_threads = true;
    is_refused(2);
    refuses_threads = false;
}

/* A thread that ends wakes who waits for it once it has given the lock back. (Meanwhile nobody else takes it: the process has but these two threads,
 * and the first, which joins one of them.) */
static _Atomic uint32_t wakes_of_leavers, wakes_under_lock;
static HANDLE leaver;
static _Atomic(struct seat *) waiter_for_leaver;

static void note_call_of_system(void)
{
    wakes_of_leavers += own.has_left;
    wakes_under_lock += own.has_left && !lock_is(FREE);
}

static void *wait_for_leaver(void *none)
{
    waiter_for_leaver = ntw_join();
    must(WaitForSingleObject(leaver, INFINITE) == WAIT_OBJECT_0);
    return none;
}

static void *leave_once_waited_for(void *none)
{
    must(DuplicateHandle(CURRENT_PROCESS, CURRENT_THREAD, CURRENT_PROCESS, &leaver, 0, FALSE, DUPLICATE_SAME_ACCESS));
    pthread_t waiter;
    must(pthread_create(&waiter, NULL, wait_for_leaver, NULL) == 0);
    while (waiter_for_leaver == NULL || atomic_load(&waiter_for_leaver->word) != IS_ASLEEP)
        usleep(100);
    must(pthread_detach(waiter) == 0);
    return none;
}

static bool is_alone_in_dispatcher(void)
{
    take_lock();
    const bool is = waiting.alive == 1;
    give_lock();
    return is;
}

static void leavers_wake_without_lock(void)
{
    pthread_t thread;
    wakes_of_leavers = wakes_under_lock = 0;
    must(pthread_create(&thread, NULL, leave_once_waited_for, NULL) == 0 && pthread_join(thread, NULL) == 0);
    IS(wakes_of_leavers > 0, true);
    IS(wakes_under_lock, 0);
    IS(CloseHandle(leaver), TRUE);
    while (!is_alone_in_dispatcher())
        usleep(100);
}

static void has_ended(HANDLE thread)
{
    IS(WaitForSingleObject(thread, INFINITE), WAIT_OBJECT_0);
    IS(CloseHandle(thread), TRUE);
}

/* Once a thread is gone another is made without memory. */
static void creation_after_another(void)
{
    HANDLE next = NULL;
    has_ended(CreateThread(NULL, 0, end_at_once, NULL, 0, NULL));
    refuses_memory = true;
    for (int i = 0; i < 100000 && (next = CreateThread(NULL, 0, end_at_once, NULL, 0, NULL)) == NULL; i++)
        usleep(100);
    refuses_memory = false;
    has_ended(next);
}

int main(void)
{
    pthread_t threads[THREADS], reader;
    IS(is_favoured_alone(), process.has_barriers);
    creations_are_refused();
    must(pthread_create(&reader, NULL, read_words, NULL) == 0);
    for (uintptr_t i = 0; i < THREADS; i++)
        must(pthread_create(&threads[i], NULL, live_often, (void *)(i + 1)) == 0);
    for (int i = 0; i < THREADS; i++)
        must(pthread_join(threads[i], NULL) == 0);
    DONE = true;
    must(pthread_join(reader, NULL) == 0);
    IS(COUNT, TAKES);
    IS(FAVOURED > 0, process.has_barriers);
    IS(FAVOURS_LOST > 0, process.has_barriers);
    IS(LATER >= THREADS * (LIVES - 1), true);
    leavers_wake_without_lock();
    creation_after_another();
    IS(waiting.alive, 1); /* the first */
    return counted();
}
