/* A handler of signals makes a call, in each window of one instruction of a call of its own thread (step.h): either it does, or it is refused with
 * ERROR_POSSIBLE_DEADLOCK, since its thread has the lock or a latch, or takes it. It never waits for what its own thread has: so it is too where that
 * tells why threads wait, or ends the process; and where it ends itself, the call is refused from then on. */
#define LOOKS_AT_LOCK 1
#define LOOKS_AT_WORD 1
#define WAITS_PER_TRY 4096
#include "step.h"

/* (Why threads wait is not written here: that would be some ten thousand instructions. The text is empty.) */
struct report;
static void write_why(struct report *to, const char *none)
{
    (void)to, (void)none;
}
#define write_why(...) __attribute__((unused)) write_it_all(__VA_ARGS__)

#include "../ntwin.c"

#define counted counted_checks /* (ntwin.c has another.) */
#include "check.h"

enum { SECONDS_EACH_TIME = 120 };

static HANDLE mine, others, third;
static _Atomic LONG has_set;
static LONG sets, refusals;
static const char *pair;
static long number;

static bool (*passes_over)(void);

static bool is_passed_over(void)
{
    return passes_over != NULL && passes_over();
}

static void on_hang(int signal)
{
    char line[128];
    (void)signal;
    const int length = snprintf(line, sizeof line, "c/tests/interrupted.c: %s: it hangs at instruction %ld\n", pair, number);
    _exit(write(STDOUT_FILENO, line, (size_t)length) < 0 ? 6 : 5);
}

/* The handler's call has been made, or was refused. */
static void note_whether(BOOL is_done)
{
    has_set = is_done;
    must(has_set || GetLastError() == ERROR_POSSIBLE_DEADLOCK || (own.has_left && GetLastError() == NT_ERROR_THREAD_ENDED));
    sets += has_set;
    refusals += !has_set;
}

static void set_others(void)
{
    SetLastError(0);
    note_whether(SetEvent(others));
}

static void set_mine(void)
{
    must(SetEvent(mine));
}

static void set_third(void)
{
    must(SetEvent(third));
}

static void nothing(void)
{
}

static bool is_set(HANDLE event)
{
    return WaitForSingleObject(event, 0) == WAIT_OBJECT_0;
}

/* Tries the handler's call at each instruction of the share. Then what each answered is so. (A share may have none of either answer.) */
static void interrupt_by(act *inner, void then(void), const char *name, act *before, act *call, act *other)
{
    bool came = true;
    int missed = 0;
    pair = name;
    sets = refusals = 0;
    stepped.before = before;
    stepped.inner = inner;
    for (number = -1; next_step(&number, &missed, came);) {
        alarm(SECONDS_EACH_TIME);
        has_set = FALSE;
        came = step(call, other, number);
        then();
    }
    alarm(0);
    IS(sets + refusals, (number - share.first) / share.of);
    IS(sets > 0 || share.of > 1, true);
    IS(refusals > 0 || share.of > 1, true);
}

static void look_at_others(void)
{
    must(is_set(others) == has_set);
    is_set(mine), is_set(third);
}

static void interrupt(const char *name, act *before, act *call, act *other)
{
    interrupt_by(set_others, look_at_others, name, before, call, other);
}

static void call_once(void)
{
    must(ResetEvent(mine));
}

/* The lock favours the caller from now on. */
static void be_favoured(void)
{
    for (int i = 0; i < 1000000 && (i == 0 || !lock_is(FAVOURS + own.seat->number)); i++)
        call_once();
}

/* Another thread takes the lock while the caller has it as the favoured one; from then on the call stops. */
static bool revokes(void)
{
    if (!stepped.has_begun && own.seat != NULL && inside_of(own.seat) != 0)
        let_the_other_run();
    return !stepped.has_begun;
}

static void wait_for_mine(void)
{
    must(WaitForSingleObject(mine, INFINITE) == WAIT_OBJECT_0);
}

/* Why threads wait is found out under the lock; what comes after that is passed over. */
static bool has_locked;

static void tell_why(void)
{
    has_locked = false;
    free(text_of_why());
}

static bool has_told(void)
{
    has_locked = has_locked || !lock_is(FREE);
    return has_locked && lock_is(FREE);
}

static HANDLE made;

static DWORD WINAPI end_at_once(LPVOID none)
{
    (void)none;
    return 0;
}

static void create_thread(void)
{
    must((made = CreateThread(NULL, 0, end_at_once, NULL, 0, NULL)) != NULL);
}

static void look_at_made(void)
{
    must(WaitForSingleObject(made, INFINITE) == WAIT_OBJECT_0 && CloseHandle(made));
    look_at_others();
}

#include "interrupted_lives.h"

/* ---- A handler that posts a packet, submits work, or sets a timer. */

static HANDLE port;
static PTP_WORK work;
static PTP_TIMER timer, timer_of_handler;
static _Atomic LONG ran;

static BOOL post_packet(void)
{
    return PostQueuedCompletionStatus(port, 0, 0, NULL);
}

static void post(void)
{
    must(post_packet());
}

static void post_in_handler(void)
{
    SetLastError(0);
    note_whether(post_packet());
}

static void take_packets(void)
{
    OVERLAPPED_ENTRY entry;
    for (LONG left = 1 + has_set; left >= 0; left--) {
        ULONG count;
        must(GetQueuedCompletionStatusEx(port, &entry, 1, &count, 0, FALSE) == (left > 0));
    }
}

static void CALLBACK count_run(PTP_CALLBACK_INSTANCE instance, PVOID none, PTP_WORK its_work)
{
    (void)instance, (void)none, (void)its_work;
    ran++;
}

static void submit_work(void)
{
    SubmitThreadpoolWork(work);
}

static void submit_in_handler(void)
{
    SetLastError(0);
    submit_work();
    note_whether(GetLastError() == 0);
    /* (Its thread may have called one of the pool's, and has yet to wake that: so this call wakes another.) */
    for (int i = 0; has_set && ran == 0; i++) {
        must(i < 200000);
        doze();
    }
}

static void wait_for_callbacks(void)
{
    WaitForThreadpoolWorkCallbacks(work, FALSE);
    must(ran == 1 + has_set);
    ran = 0;
}

static void CALLBACK never(PTP_CALLBACK_INSTANCE instance, PVOID none, PTP_TIMER its_timer)
{
    (void)instance, (void)none, (void)its_timer;
    must(false);
}

static void set_to_an_hour(PTP_TIMER it)
{
    ULARGE_INTEGER due = { .QuadPart = (ULONGLONG)(-36000000000LL) };
    SetThreadpoolTimer(it, &(FILETIME){ due.LowPart, due.HighPart }, 0, 0);
}

static void set_first_timer(void)
{
    set_to_an_hour(timer);
}

static void set_in_handler(void)
{
    SetLastError(0);
    set_to_an_hour(timer_of_handler);
    note_whether(GetLastError() == 0);
}

static void stop_timers(void)
{
    must(IsThreadpoolTimerSet(timer));
    must(IsThreadpoolTimerSet(timer_of_handler) == has_set);
    SetThreadpoolTimer(timer, NULL, 0, 0);
    SetThreadpoolTimer(timer_of_handler, NULL, 0, 0);
}

static void interrupt_at_latches(void)
{
    TP_CALLBACK_ENVIRON environment;
    PTP_POOL pool = CreateThreadpool(NULL);
    /* (One for each call: the interrupted one may have yet to wake its own.) */
    must(pool != NULL && SetThreadpoolThreadMinimum(pool, 2));
    SetThreadpoolThreadMaximum(pool, 2);
    InitializeThreadpoolEnvironment(&environment);
    SetThreadpoolCallbackPool(&environment, pool);
    port = CreateIoCompletionPort(INVALID_HANDLE_VALUE, NULL, 0, 0);
    work = CreateThreadpoolWork(count_run, NULL, &environment);
    timer = CreateThreadpoolTimer(never, NULL, &environment);
    timer_of_handler = CreateThreadpoolTimer(never, NULL, &environment);
    must(port != NULL && work != NULL && timer != NULL && timer_of_handler != NULL);
    interrupt_by(post_in_handler, take_packets, "PostQueuedCompletionStatus", call_once, post, nothing);
    interrupt_by(submit_in_handler, wait_for_callbacks, "SubmitThreadpoolWork", call_once, submit_work, nothing);
    interrupt_by(set_in_handler, stop_timers, "SetThreadpoolTimer", call_once, set_first_timer, nothing);
}

/* ---- A signal wakes a thread that sleeps, and its handler sets what that waits for. */

/* (Where it has, a signal more does nothing: the next thread would find the event set, and be gone before its first signal.) */
static void on_signal(int signal)
{
    (void)signal;
    if (!has_set)
        set_others();
}

static void *wait_for_others(void *none)
{
    must(WaitForSingleObject(others, INFINITE) == WAIT_OBJECT_0);
    return none;
}

static void signal_sleepers(void)
{
    struct sigaction action = { .sa_handler = on_signal };
    must(sigaction(SIGUSR1, &action, NULL) == 0);
    pair = "a signal to a thread that waits";
    for (number = 0; number < 20; number++) {
        pthread_t thread;
        alarm(SECONDS_EACH_TIME);
        must(pthread_create(&thread, NULL, wait_for_others, NULL) == 0);
        usleep((useconds_t)(2000 + 100 * number));
        do {
            must(pthread_kill(thread, SIGUSR1) == 0);
            usleep(1000);
        } while (!has_set);
        must(pthread_join(thread, NULL) == 0);
        has_set = FALSE;
    }
    alarm(0);
}

int main(void)
{
    struct sigaction hang = { .sa_handler = on_hang };
    must(sigaction(SIGALRM, &hang, NULL) == 0);
    mine = CreateEvent(NULL, FALSE, FALSE, NULL);
    others = CreateEvent(NULL, FALSE, FALSE, NULL);
    third = CreateEvent(NULL, FALSE, FALSE, NULL);
    begin_stepping();
    interrupt("SetEvent", call_once, set_mine, nothing);
    interrupt("SetEvent, the first call of a thread", NULL, set_mine, nothing);
    interrupt("WaitForSingleObject", call_once, wait_for_mine, set_mine);
    interrupt_by(set_others, look_at_made, "CreateThread", call_once, create_thread, nothing);
    passes_over = has_told;
    interrupt("ntwin_why", call_once, tell_why, nothing);
    interrupt("ntwin_why, by a thread that has not called", NULL, tell_why, nothing);
    passes_over = NULL;
    interrupt("the end of the process", call_once, end_process, nothing);
    interrupt_begins();
    interrupt_ends();
    if (process.has_barriers) {
        interrupt("SetEvent, by the favoured thread", be_favoured, set_mine, nothing);
        passes_over = revokes;
        interrupt("SetEvent, by the favoured thread, whose favour is revoked", be_favoured, set_mine, set_third);
        passes_over = NULL;
    }
    interrupt_at_latches();
    signal_sleepers();
    return counted_checks();
}
