/* Stops a thread that a program starts before one instruction between its last look for a grant and its sleep, until the first thread has made the
 * call that grants it. Preloaded by tests/woken, which tells by WOKEN="THREAD PAUSE LOOKS PLACE ANEW" which thread that is, counted from 1, at which
 * address after the program's entry it pauses after a look, how often it does, and where it stops: before the instruction of this number since then,
 * 0 being the last pause. To descriptor 9 goes where it stopped, or where it is about to sleep if that comes first: PAUSE, LOOKS and PLACE of that.
 * ANEW is 1 to plant a fault: a thread that stops where it is to sleep on a word then sleeps on what the word has become.
 *
 * The trap flag of x86-64 makes the processor tell of each instruction, by SIGTRAP. If the pause is known a breakpoint stands there, and the thread
 * is stepped from its last one on. No time is taken for enough: the first thread pauses until the other one has stopped, or is about to sleep; and
 * that goes on once the first thread sleeps in its turn. */
#define _GNU_SOURCE
#include "../c/tests/asleep.h"

#include <dlfcn.h>
#include <linux/futex.h>
#include <pthread.h>
#include <semaphore.h>
#include <signal.h>
#include <stdlib.h>
#include <sys/auxv.h>
#include <sys/syscall.h>
#include <time.h>
#include <ucontext.h>

enum { TRAP_FLAG = 0x100, TOLD = 9 };

typedef void *routine(void *);
typedef unsigned char byte;

static const byte breakpoint = 0xCC; /* before the second byte of `pause`, which by itself does nothing */

static struct {
    long pause;               /* where the thread pauses, or 0 */
    int thread, looks, place; /* which thread stops, and where */
    int anew;                 /* whether the fault is planted */
    int started;              /* how many threads the program has started */
    routine *runs;            /* what the thread runs */
    pid_t first;              /* the system's number of the first thread */
    sem_t goes;               /* the first thread may go on */
    volatile bool has_gone;   /* and has */
} it;

/* How often the thread has looked, and how many instructions it has made since. */
static struct {
    long pause;
    int looks, since;
} stepped;
static _Thread_local volatile bool is_stepped;

static void set_trap_flag(void)
{
    __asm__ volatile("lea -128(%%rsp), %%rsp; pushfq; orq $0x100, (%%rsp); popfq; lea 128(%%rsp), %%rsp" ::: "memory", "cc");
}

/* Writes where the thread is. */
static void tell(void)
{
    char text[60];
    const int length = snprintf(text, sizeof text, "%ld %d %d\n", stepped.pause, stepped.looks, stepped.since);
    if (write(TOLD, text, (size_t)length) != length)
        abort();
}

/* Lets the first thread make its call, and waits until that sleeps. */
static void let_the_first_call(void)
{
    const struct timespec time = { .tv_nsec = 20000 };
    sem_post(&it.goes);
    while (!it.has_gone || !is_asleep(it.first))
        nanosleep(&time, NULL);
}

/* Whether this instruction has the thread sleep on a word. */
static bool sleeps_by(const byte *at, const greg_t *registers)
{
    const greg_t command = registers[REG_RSI] & FUTEX_CMD_MASK;
    return at[0] == 0x0F && at[1] == 0x05 && registers[REG_RAX] == SYS_futex && (command == FUTEX_WAIT || command == FUTEX_WAIT_BITSET);
}

/* An instruction of the thread is about to run. */
static void count_instruction(const byte *at)
{
    stepped.since++;
    if ((at[0] == 0xF3 || at[0] == breakpoint) && at[1] == 0x90) {
        stepped.pause = (long)((unsigned long)at - getauxval(AT_ENTRY));
        stepped.looks++, stepped.since = 0;
    }
}

static void on_trap(int signal, siginfo_t *info, void *context)
{
    (void)signal;
    greg_t *const registers = ((ucontext_t *)context)->uc_mcontext.gregs;
    const byte *at = (const byte *)registers[REG_RIP] - (info->si_code == SI_KERNEL); /* (a breakpoint has run) */
    if (!is_stepped)
        return;
    count_instruction(at);
    const bool sleeps = stepped.looks > 0 && sleeps_by(at, registers);
    const bool stops = stepped.looks == it.looks && stepped.since == it.place;
    if (stepped.looks == it.looks)
        registers[REG_EFL] |= TRAP_FLAG;
    if (!sleeps && !stops)
        return;
    registers[REG_EFL] &= ~TRAP_FLAG;
    is_stepped = false;
    tell();
    if (stops)
        let_the_first_call();
    else
        sem_post(&it.goes);
    if (stops && sleeps && it.anew)
        registers[REG_RDX] = *(const volatile unsigned int *)registers[REG_RDI];
}

static void *run_stepped(void *given)
{
    sigset_t traps;
    sigemptyset(&traps);
    sigaddset(&traps, SIGTRAP);
    pthread_sigmask(SIG_UNBLOCK, &traps, NULL);
    is_stepped = true;
    if (it.pause == 0)
        set_trap_flag();
    return it.runs(given);
}

/* The library's own function of this name, which this one stands before. */
static void *own(const char *name)
{
    void *const found = dlsym(RTLD_NEXT, name);
    if (found == NULL)
        abort();
    return found;
}

/* Puts the breakpoint where the thread pauses, into memory that may not be written to but by this file. */
static void set_breakpoint(void)
{
    const int file = open("/proc/self/mem", O_RDWR | O_CLOEXEC);
    if (pwrite(file, &breakpoint, 1, (off_t)getauxval(AT_ENTRY) + it.pause) != 1)
        abort();
    close(file);
}

static void begin_stepping(routine *runs)
{
    struct sigaction action = { .sa_sigaction = on_trap, .sa_flags = SA_SIGINFO };
    it.runs = runs, it.first = gettid();
    if (sem_init(&it.goes, 0, 0) != 0 || sigaction(SIGTRAP, &action, NULL) != 0)
        abort();
    if (it.pause != 0)
        set_breakpoint();
}

int pthread_create(pthread_t *thread, const pthread_attr_t *attributes, routine *runs, void *given)
{
    int (*const create)(pthread_t *, const pthread_attr_t *, routine *, void *) = own("pthread_create");
    const char *words = getenv("WOKEN");
    if (it.started++ == 0 && (words == NULL || sscanf(words, "%d %ld %d %d %d", &it.thread, &it.pause, &it.looks, &it.place, &it.anew) != 5))
        abort();
    if (it.started != it.thread)
        return create(thread, attributes, runs, given);
    begin_stepping(runs);
    return create(thread, attributes, run_stepped, given);
}

/* The first thread pauses before its call. */
static bool waits_to_go(void)
{
    if (it.started != it.thread || it.has_gone || gettid() != it.first)
        return false;
    while (sem_wait(&it.goes) != 0)
        continue;
    it.has_gone = true;
    return true;
}

int nanosleep(const struct timespec *time, struct timespec *left)
{
    int (*const sleep)(const struct timespec *, struct timespec *) = own("nanosleep");
    return waits_to_go() ? 0 : sleep(time, left);
}

int clock_nanosleep(clockid_t clock, int flags, const struct timespec *time, struct timespec *left)
{
    int (*const sleep)(clockid_t, int, const struct timespec *, struct timespec *) = own("clock_nanosleep");
    return waits_to_go() ? 0 : sleep(clock, flags, time, left);
}
