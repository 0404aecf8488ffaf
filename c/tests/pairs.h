/* What the tests of pairs share: a pair of a call and a counter-call is tried in each window of one instruction (step.h). What the library or the
 * program has freed is not touched again; where it is, the memory's header counts that (shared_page.h, own_pages.h, which include this). */
#ifndef PAIRS_H
#define PAIRS_H

#define counted counted_checks /* (ntwin.c has another.) */
#include "check.h"

/* What runs under the dispatcher's lock is for c/tests/schedules to try, but where a pair is of the lock itself. */
static bool is_of_lock;

static bool is_passed_over(void)
{
    return !is_of_lock && (lock_is(TAKEN) || lock_is(WANTED) || (own.seat != NULL && inside_of(own.seat) != 0));
}

enum { PAGE = 4096, SECONDS_EACH_TIME = 120 };

static _Atomic long touches; /* after it was freed */
static const char *pair;
static long number;

/* Makes the memory ready for a try. */
static void renew_memory(void);

/* Whether the address is of the memory that may be touched after it was freed: then it can be touched from now on. */
static bool give_back_page(char *at);

static void on_touch(int signal, siginfo_t *info, void *context)
{
    (void)signal, (void)context;
    if (!give_back_page((char *)info->si_addr))
        _exit(3);
    touches++;
}

static void on_hang(int signal)
{
    char line[128];
    (void)signal;
    const int length = snprintf(line, sizeof line, "c/tests/%s: %s: it hangs at instruction %ld\n", TEST, pair, number);
    _exit(write(STDOUT_FILENO, line, (size_t)length) < 0 ? 6 : 5);
}

/* Tries the pair at each instruction of the share. At least this number are the call's own. */
static void try_pair(const char *name, act *prepare, act *call, act *other, act *finish, long least)
{
    bool came = true;
    int missed = 0;
    long touched = 0;
    pair = name;
    for (number = -1; next_step(&number, &missed, came);) {
        alarm(SECONDS_EACH_TIME);
        touches = 0;
        renew_memory();
        prepare();
        came = step(call, other, number);
        finish();
        if (touches > 0 && touched++ == 0)
            printf("c/tests/%s: %s: memory that was freed is touched after a stop at instruction %ld\n", TEST, name, number);
    }
    IS(touched, 0);
    IS(number >= least, true);
    alarm(0);
}

/* As the test begins: what it works on lies in these pages. */
static char *begin_pairs_in(size_t size, int access)
{
    struct sigaction touch = { .sa_sigaction = on_touch, .sa_flags = SA_SIGINFO }, hang = { .sa_handler = on_hang };
    must(sigaction(SIGSEGV, &touch, NULL) == 0 && sigaction(SIGALRM, &hang, NULL) == 0);
    char *at = mmap(NULL, size, access, MAP_PRIVATE | MAP_ANONYMOUS | MAP_NORESERVE, -1, 0);
    must(at != MAP_FAILED);
    setvbuf(stdout, NULL, _IOLBF, 0);
    begin_stepping();
    return at;
}

#endif
