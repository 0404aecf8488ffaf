/* The stepper: a call stops before each of its instructions in turn, while another call, of another thread, does all that could matter. So each window
 * of one instruction is tried for that pair. The trap flag of x86-64 makes the processor tell of each instruction, by SIGTRAP; those outside the
 * program (libc, the kernel) and in the dispatcher are passed over. No time is taken for enough: the other call has its turn until all
 * threads sleep, or have ended.
 *
 * A test includes this before ntwin.c. A sanitizer's own calls are passed over as the system's are; but the trap may come within them. So what is done
 * at each instruction is not looked at by one, nor calls what one has in the system's place. */
#ifndef STEP_H
#define STEP_H

#define _GNU_SOURCE /* (as ntwin.c has it) */
#include "../nt.h"
#include "asleep.h"

#include <dirent.h>
#include <dlfcn.h>
#include <limits.h>
#include <pthread.h>
#include <semaphore.h>
#include <signal.h>
#include <stdatomic.h>
#include <stdio.h>
#include <stdlib.h>
#include <string.h>
#include <time.h>
#include <ucontext.h>
#include <unistd.h>

enum { TRAP_FLAG = 0x100, US_FOR_THE_OTHER = 1000, MS_UNTIL_A_LOOK = 20, MOST_PLACES = 64, MOST_MISSED = 3, MOST_OUTSIDE = 64 };

/* What a run stops at: each instruction; or each of a share, as SHARE=K/N of the environment says: one of each N, from that of number K on. So
 * N runs, of K from 0 on, together stop at each instruction once. */
static struct { long first, of; } share = { 0, 1 };

static void take_share(void)
{
    const char *text = getenv("SHARE");
    if (text != NULL && (sscanf(text, "%ld/%ld", &share.first, &share.of) != 2 || share.first < 0 || share.first >= share.of))
        abort();
}

typedef void act(void);

static struct {
    act *before, *call, *other; /* what comes before the call is not stepped through */
    act *inner;                 /* null, or what the stopped thread calls itself, as a handler of signals that has interrupted its call */
    bool to_the_end;            /* the thread's end is a part of the call */
    long number;                           /* of the instruction before which the call stops */
    _Atomic long left;                     /* how many instructions more until then; below 0 once it has */
    _Atomic pid_t task;                    /* the system's number of the call's thread */
    _Atomic bool is_in_system, asks;       /* the call may sleep; or lets the other have its turn */
    _Atomic bool has_ended;                /* the call has */
    sem_t tells;                           /* one of these, or `left`, has changed */
    sem_t goes, goes_on;                   /* the other call may begin; and the stopped one may go on */
    _Atomic bool has_begun;                /* the other has begun */
    _Atomic int barriers;                  /* how many of the call's instructions so far are full barriers */
    _Atomic int dozing;                    /* how many threads doze, and will look again */
} stepped;
static _Thread_local volatile bool is_stepped;

/* The places where a call comes back from what is not stepped through, in turn, from 1 on; 0 is its beginning. How many instructions were counted
 * until then is so for the next run, too: that steps from the last place before its instruction on. */
static struct {
    long counts[MOST_PLACES];
    int known, first, next;
} places;

/* The program: what of a sanitizer clang links into it is not in this section. */
#if defined __clang__
#pragma clang section text = "stepped_text"
#define UNSANITIZED __attribute__((disable_sanitizer_instrumentation))
extern const char first_inside[] __asm__("__start_stepped_text"), end_inside[] __asm__("__stop_stepped_text");
#else
#define UNSANITIZED __attribute__((no_sanitize("address", "thread", "undefined")))
extern const char first_inside[] __asm__("__executable_start"), end_inside[] __asm__("etext");
#endif

/* The system's own, whatever a sanitizer has in their place. */
extern int __sigaction(int, const struct sigaction *, struct sigaction *);
static int (*post_by_system)(sem_t *);

static inline void set_trap_flag(void)
{
    __asm__ volatile("lea -128(%%rsp), %%rsp; pushfq; orq $0x100, (%%rsp); popfq; lea 128(%%rsp), %%rsp" ::: "memory", "cc");
}

static inline void clear_trap_flag(void)
{
    __asm__ volatile("lea -128(%%rsp), %%rsp; pushfq; andq $~0x100, (%%rsp); popfq; lea 128(%%rsp), %%rsp" ::: "memory", "cc");
}

/* The call has come to the next place. Answers whether it is stepped from here on. */
static bool come_to_place(void)
{
    const int place = places.next++;
    if (place < places.first || place >= MOST_PLACES)
        return place >= MOST_PLACES;
    if (place == places.first) {
        stepped.left = stepped.number - places.counts[place];
    } else {
        places.counts[place] = stepped.number - stepped.left;
        places.known = place;
    }
    return true;
}

/* Begins a run, whose last known place before its instruction is the first from which it is stepped. */
static void begin_places(void)
{
    places.next = 1;
    for (places.first = places.known; places.counts[places.first] > stepped.number; places.first--)
        continue;
}

static void step_on(void)
{
    if (is_stepped && come_to_place())
        set_trap_flag();
}

#define UNSTEPPED(call) \
    __extension__({ \
        clear_trap_flag(); \
        const __auto_type answer_of_call = (call); \
        step_on(); \
        answer_of_call; \
    })

/* How often the place of a thread that has left was looked for, which is a look at each place. */
static long places_sought;

/* The dispatcher's calls are not stepped through, which are some thousand instructions. */
#define nt_tick(...) UNSTEPPED(nt_tick(__VA_ARGS__))
#define nt_due(...) UNSTEPPED(nt_due(__VA_ARGS__))
#define nt_told(...) UNSTEPPED(nt_told(__VA_ARGS__))
#define nt_pend(...) UNSTEPPED(nt_pend(__VA_ARGS__))
#define nt_exit(...) UNSTEPPED(nt_exit(__VA_ARGS__))
#define nt_begin(...) (places_sought++, UNSTEPPED(nt_begin(__VA_ARGS__)))
#define nt_sleep(...) UNSTEPPED(nt_sleep(__VA_ARGS__))
#define nt_object(...) UNSTEPPED(nt_object(__VA_ARGS__))
#define nt_opened(...) UNSTEPPED(nt_opened(__VA_ARGS__))
#define nt_duplicate(...) UNSTEPPED(nt_duplicate(__VA_ARGS__))
#define nt_next_apc(...) UNSTEPPED(nt_next_apc(__VA_ARGS__))
#define nt_set_event(...) UNSTEPPED(nt_set_event(__VA_ARGS__))
#define nt_wait_object(...) UNSTEPPED(nt_wait_object(__VA_ARGS__))
#define nt_close_handle(...) UNSTEPPED(nt_close_handle(__VA_ARGS__))

/* Nor are the system's, in which the call may sleep. */
UNSANITIZED static void enter_system(void)
{
    if (!is_stepped)
        return;
    stepped.is_in_system = true;
    post_by_system(&stepped.tells);
}

static long leave_system(long answer)
{
    if (is_stepped)
        stepped.is_in_system = false;
    return answer;
}

#define syscall(...) UNSTEPPED((enter_system(), leave_system(syscall(__VA_ARGS__))))
#define clock_gettime(clock, at) UNSTEPPED(clock_gettime(clock, at))

/* Who dozes looks again soon at what it waits for. */
static inline void doze(void)
{
    const struct timespec time = { .tv_nsec = 20000 };
    stepped.dozing++;
    nanosleep(&time, NULL);
    stepped.dozing--;
}

static void wait_for(sem_t *semaphore)
{
    while (sem_wait(semaphore) != 0)
        continue;
}

/* Lets the other call run, and each thread that it calls, until all sleep, or have ended. */
static void let_the_other_run(void)
{
    stepped.asks = true;
    sem_post(&stepped.tells);
    wait_for(&stepped.goes_on);
}

/* Whether the call does not stop here: the test says so. */
static bool is_passed_over(void);

/* What the program calls outside, as libc or a sanitizer, is not stepped through: it returns to `come_back`, which has the thread stepped from where
 * it was called on. */
static const char *returns_to[MOST_OUTSIDE], **volatile innermost __attribute__((used)) = returns_to;
static const unsigned char *last_inside;
extern const char come_back[] __attribute__((visibility("hidden")));
__asm__(".pushsection .text\ncome_back:\n push %rax\n push %rax\n mov innermost(%rip), %rax\n sub $8, %rax\n mov %rax, innermost(%rip)\n"
        " mov (%rax), %rax\n mov %rax, 8(%rsp)\n pop %rax\n pushfq\n orq $0x100, (%rsp)\n popfq\n ret\n.popsection");

UNSANITIZED static bool is_inside(const char *at)
{
    return at >= first_inside && at < end_inside;
}

/* The stepped thread is outside, at this instruction. Answers whether it was called there just now, and returns to the program. */
UNSANITIZED static bool is_called_outside(const char **stack)
{
    const unsigned char *from = last_inside;
    last_inside = NULL;
    if (from == NULL || from[0] == 0xC3 || (from[0] == 0xF3 && from[1] == 0xC3) || !is_inside(*stack) || innermost == returns_to + MOST_OUTSIDE)
        return false;
    *innermost++ = *stack;
    *stack = come_back;
    return true;
}

/* Whether this instruction is a full barrier: it has the prefix that locks, exchanges with memory, or is mfence. (Prefixes of fs, of a size and of
 * registers come before.) */
UNSANITIZED static bool is_full_barrier(const unsigned char *at)
{
    while (at[0] == 0x64 || at[0] == 0x66 || (at[0] & 0xF0) == 0x40)
        at++;
    return at[0] == 0xF0 || ((at[0] == 0x86 || at[0] == 0x87) && at[1] < 0xC0) || (at[0] == 0x0F && at[1] == 0xAE && at[2] == 0xF0);
}

/* An instruction of the stepped thread is about to run. Answers whether it stops before that. */
UNSANITIZED static bool stops_before(const char *at)
{
    stepped.is_in_system = false;
    last_inside = (const unsigned char *)at;
    stepped.barriers += is_full_barrier(last_inside);
    return !is_passed_over() && stepped.left-- <= 0;
}

UNSANITIZED static void on_trap(int signal, siginfo_t *info, void *context)
{
    (void)signal, (void)info;
    greg_t *const registers = ((ucontext_t *)context)->uc_mcontext.gregs;
    const char *const at = (const char *)registers[REG_RIP];
    if (is_stepped && !is_inside(at)) {
        if (is_called_outside((const char **)registers[REG_RSP]))
            registers[REG_EFL] &= ~TRAP_FLAG;
        else if (at[0] == 0x0F && at[1] == 0x05)
            enter_system();
        return;
    }
    if (is_stepped && !stops_before(at))
        return;
    const bool stops = is_stepped;
    registers[REG_EFL] &= ~TRAP_FLAG;
    is_stepped = false;
    if (stops && stepped.inner != NULL)
        sem_post(&stepped.tells);
    if (stops)
        (stepped.inner != NULL ? stepped.inner : let_the_other_run)();
}

/* A thread that ends by itself is stepped until the library's destructors have run; later, the system blocks signals. (A ThreadSanitizer takes it for
 * ended in the last round of them.) */
static pthread_key_t stepping;
extern void __tsan_acquire(void *) __attribute__((weak));

static void end_stepping(void)
{
    is_stepped = false;
    stepped.has_ended = true;
    sem_post(&stepped.tells);
}

static void go_on_stepping(void *round)
{
    static const char rounds[PTHREAD_DESTRUCTOR_ITERATIONS];
    const char *next = round == &stepping ? rounds : (const char *)round + 1;
    if (next < rounds + PTHREAD_DESTRUCTOR_ITERATIONS - (__tsan_acquire != NULL ? 2 : 1))
        pthread_setspecific(stepping, next);
    else
        end_stepping();
}

static void begin_stepping(void)
{
    struct sigaction action = { .sa_sigaction = on_trap, .sa_flags = SA_SIGINFO };
    take_share();
    *(void **)&post_by_system = dlsym(dlopen("libc.so.6", RTLD_LAZY), "sem_post");
    if (post_by_system == NULL || __sigaction(SIGTRAP, &action, NULL) != 0 || pthread_key_create(&stepping, go_on_stepping) != 0)
        abort();
}

static void *run_stepped(void *none)
{
    if (stepped.before != NULL)
        stepped.before();
    stepped.task = gettid();
    if (stepped.to_the_end)
        pthread_setspecific(stepping, &stepping);
    is_stepped = true;
    if (places.first == 0)
        set_trap_flag();
    stepped.call();
    if (!stepped.to_the_end)
        end_stepping();
    return none;
}

static void *run_other(void *none)
{
    wait_for(&stepped.goes);
    stepped.has_begun = true;
    stepped.other();
    return none;
}

/* Whether all threads of the process sleep, but for the caller; of those that doze it is known that they do not. */
static bool are_others_asleep(void)
{
    DIR *tasks = opendir("/proc/self/task");
    bool are_asleep = tasks != NULL && stepped.dozing == 0;
    for (struct dirent *entry; are_asleep && (entry = readdir(tasks)) != NULL;) {
        const pid_t task = (pid_t)atoi(entry->d_name);
        are_asleep = task <= 0 || task == gettid() || is_asleep(task);
    }
    if (tasks != NULL)
        closedir(tasks);
    return are_asleep && stepped.dozing == 0;
}

/* The processors' time that the process has used, in microseconds. */
static uint64_t us_used(void)
{
    struct timespec used;
    (clock_gettime)(CLOCK_PROCESS_CPUTIME_ID, &used);
    return (uint64_t)used.tv_sec * 1000000 + (uint64_t)used.tv_nsec / 1000;
}

/* Waits until the other call has begun, and no thread does anything, or they only look again and again. */
static void give_the_other_its_turn(void)
{
    const struct timespec time = { .tv_nsec = 20000 };
    const uint64_t began = us_used();
    while (!stepped.has_begun || (us_used() - began < US_FOR_THE_OTHER && !are_others_asleep()))
        nanosleep(&time, NULL);
}

/* Waits until the call has stopped, has ended, or may sleep; and looks now and then by itself. Answers whether it sleeps. */
static bool wait_for_call(void)
{
    struct timespec until;
    (clock_gettime)(CLOCK_MONOTONIC, &until);
    until.tv_nsec += MS_UNTIL_A_LOOK * 1000000;
    if (until.tv_nsec >= 1000000000)
        until = (struct timespec){ until.tv_sec + 1, until.tv_nsec - 1000000000 };
    if (sem_clockwait(&stepped.tells, CLOCK_MONOTONIC, &until) != 0)
        return is_asleep(stepped.task);
    while (stepped.is_in_system && !stepped.asks && !stepped.has_ended) {
        if (is_asleep(stepped.task))
            return true;
        sched_yield();
    }
    return false;
}

/* Sees the call to its end. The other call begins once it has stopped, or sleeps, or has ended. */
static void run_call(void)
{
    bool goes = false;
    while (!stepped.has_ended) {
        const bool sleeps = wait_for_call();
        if (!goes && (sleeps || stepped.asks || stepped.left < 0)) {
            goes = true;
            sem_post(&stepped.goes);
        }
        if (stepped.asks) {
            give_the_other_its_turn();
            stepped.asks = false;
            sem_post(&stepped.goes_on);
        }
    }
    if (!goes)
        sem_post(&stepped.goes);
}

/* Makes the call, which stops before its instruction of this number, from 0 on, for the other call; or that is made where it comes to no such
 * instruction, since it sleeps. Answers whether it came so far. */
static bool step(act *call, act *other, long number)
{
    pthread_t threads[2];
    stepped.call = call, stepped.other = other, stepped.number = number, stepped.left = number;
    stepped.has_begun = stepped.has_ended = stepped.asks = stepped.is_in_system = false;
    stepped.task = 0;
    stepped.barriers = 0;
    begin_places();
    innermost = returns_to, last_inside = NULL;
    if (sem_init(&stepped.goes, 0, 0) != 0 || sem_init(&stepped.goes_on, 0, 0) != 0 || sem_init(&stepped.tells, 0, 0) != 0)
        abort();
    if (pthread_create(&threads[1], NULL, run_other, NULL) != 0 || pthread_create(&threads[0], NULL, run_stepped, NULL) != 0)
        abort();
    run_call();
    pthread_join(threads[0], NULL);
    pthread_join(threads[1], NULL);
    return stepped.left < 0;
}

/* Begins with the first instruction of the share, where the number is below 0, or goes on with its next, where the call came to the last. (Where it
 * did not it may have gone another, shorter way: that one is tried again, from the call's beginning on.) Answers whether there is one. */
static bool next_step(long *number, int *missed, bool came)
{
    const bool begins = *number < 0;
    *missed = came ? 0 : *missed + 1;
    *number = begins ? share.first : *number + (came ? share.of : 0);
    if (!came || begins)
        places.known = 0;
    return *missed < MOST_MISSED;
}

#endif
