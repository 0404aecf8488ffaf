/* Reads a script on standard input (docs/SCRIPTS.md), has each call made by a thread of its own, one after another, by Win32's names, and
 * writes the transcript. A line that those names can't make ends it, with status 2; tests/transcripts leaves such scripts out, and says why.
 *
 * No name of Win32 tells whether another thread sleeps, nor in which order waits ended, nor lets time pass. So ntwin.c is a part of this
 * program (inside.h). What is written of a call is what Win32's names answer. */
#include "inside.h"
#include "script.h"

/* ---- Threads: each makes the calls of its own lines, when its turn comes. */

/* The thread 0 of the script has the seat after this program's first thread, and so on. */
enum { FIRST_SEAT = 1 };

/* What an answered call tells. */
struct answer {
    enum { OK, HANDLE_OF, PREVIOUS, STATUS, REFUSED, APC, APC_OF_TIMER, NO_APC } kind;
    int64_t number;
    const struct apc *apc;
};

/* An APC of the script. Those of a thread run in the wait that ends for them, and are answered one by one by the lines that take them. */
struct apc {
    uint64_t routine, arg;
};
enum { MOST_APCS = 64 };
static struct apc APCS[MOST_APCS];
static size_t GIVEN;

static pthread_mutex_t TURNS = PTHREAD_MUTEX_INITIALIZER;
static pthread_cond_t TURNED = PTHREAD_COND_INITIALIZER;
static bool EVERYBODY_ENDS; /* under TURNS */
enum state { RESTS, CALLS, SLEEPS, HAS_ENDED };
static struct player {
    enum state does;      /* under TURNS */
    struct answer answer; /* of its last call, once it rests */
    struct answer ran[MOST_APCS]; /* its APCs that have run, and how many of them the script was answered */
    size_t ran_count, taken;
} PLAYERS[NT_MAXIMUM_THREADS];

/* The threads whose waits the line ended, in order. Under ntwin.c's lock. */
static uint32_t GRANTED[NT_MAXIMUM_THREADS];
static uint32_t GRANTS;

static void turn_to(struct player *player, enum state does)
{
    pthread_mutex_lock(&TURNS);
    player->does = does;
    pthread_cond_broadcast(&TURNED);
    pthread_mutex_unlock(&TURNS);
}

static enum state does_now(struct player *player)
{
    pthread_mutex_lock(&TURNS);
    const enum state does = player->does;
    pthread_mutex_unlock(&TURNS);
    return does;
}

/* What the player does, once that is no longer this. */
static enum state does_after(struct player *player, enum state does)
{
    pthread_mutex_lock(&TURNS);
    while (player->does == does)
        pthread_cond_wait(&TURNED, &TURNS);
    does = player->does;
    pthread_mutex_unlock(&TURNS);
    return does;
}

static uint32_t hear_wait(uint32_t who, uint32_t refused, const struct nt_reply *reply)
{
    if (refused == 0 && reply->kind == NT_PENDED)
        turn_to(&PLAYERS[who - FIRST_SEAT], SLEEPS);
    return refused;
}

static uint32_t hear_exit(uint32_t who, uint32_t refused)
{
    if (who >= FIRST_SEAT)
        turn_to(&PLAYERS[who - FIRST_SEAT], HAS_ENDED);
    return refused;
}

static uint32_t hear_told(uint32_t refused, const struct nt_told *told)
{
    if (refused == 0 && !told->called)
        GRANTED[GRANTS++] = told->thread - FIRST_SEAT;
    return refused;
}

/* ---- Calls. A script numbers its handles as they are handed out, the threads' first. ntwin.c gives numbers again, so each is looked up here. */

static HANDLE HANDED_OUT[NT_MAXIMUM_HANDLES];
static uint32_t HANDLES;

static HANDLE named(uint32_t number)
{
    const HANDLE none = (HANDLE)(uintptr_t)0x3FFFC;
    return number < HANDLES ? HANDED_OUT[number] : none;
}

/* The script's number of a handle that was made just now. */
static uint32_t hand_out(HANDLE it)
{
    HANDED_OUT[HANDLES] = it;
    return HANDLES++;
}

static struct answer refused(void)
{
    return (struct answer){ REFUSED, GetLastError(), NULL };
}

static struct answer done(BOOL accepted)
{
    return accepted ? (struct answer){ OK, 0, NULL } : refused();
}

static struct answer ended(DWORD status)
{
    return status == WAIT_FAILED ? refused() : (struct answer){ STATUS, status, NULL };
}

static struct answer created(HANDLE it)
{
    if (it == NULL)
        return refused();
    const uint32_t number = hand_out(it);
    give_name(number);
    return (struct answer){ HANDLE_OF, number, NULL };
}

static struct answer duplicated(void)
{
    const HANDLE process = GetCurrentProcess();
    HANDLE duplicate = NULL;
    return DuplicateHandle(process, named(handle(3)), process, &duplicate, (DWORD)number(4), FALSE, 0) ? created(duplicate) : refused();
}

static struct answer released(void)
{
    LONG previous = 0;
    if (!ReleaseSemaphore(named(handle(2)), (LONG)signed_number(3), &previous))
        return refused();
    return (struct answer){ PREVIOUS, previous, NULL };
}

/* The APC that the line names by these two words. */
static struct apc *apc_at(int at)
{
    if (GIVEN == MOST_APCS)
        stop();
    APCS[GIVEN] = (struct apc){ number(at), number(at + 1) };
    return &APCS[GIVEN++];
}

/* The player whose thread this is. */
static struct player *myself(void)
{
    return &PLAYERS[GetCurrentThreadId() / 4 - 1 - FIRST_SEAT];
}

/* An APC runs. */
static void run(struct answer answer)
{
    struct player *player = myself();
    if (player->ran_count == MOST_APCS)
        stop();
    player->ran[player->ran_count++] = answer;
}

static void run_queued(ULONG_PTR apc)
{
    run((struct answer){ APC, 0, (const struct apc *)apc });
}

static void run_of_timer(LPVOID apc, DWORD low, DWORD high)
{
    const int64_t time = (int64_t)((uint64_t)high << 32 | low);
    run((struct answer){ APC_OF_TIMER, time - universal() + (int64_t)present(), apc });
}

static struct answer queued(void)
{
    return done(QueueUserAPC(run_queued, named(handle(2)), (ULONG_PTR)apc_at(3)) != 0);
}

/* The caller's oldest APC that has run and was not answered yet. */
static struct answer taken(void)
{
    struct player *player = myself();
    return player->taken < player->ran_count ? player->ran[player->taken++] : (struct answer){ NO_APC, 0, NULL };
}

/* A due time that is no moment from now on is one since the beginning, and so one in UTC. */
static struct answer armed(void)
{
    const int64_t due = signed_number(3);
    const LARGE_INTEGER at = { .QuadPart = due < 0 ? due : universal() - (int64_t)present() + due };
    return done(SetWaitableTimer(named(handle(2)), &at, (LONG)signed_number(4), COUNT > 5 ? run_of_timer : NULL,
                                 COUNT > 5 ? apc_at(5) : NULL, FALSE));
}

static struct answer waited(bool all)
{
    HANDLE objects[MOST_WORDS];
    DWORD count = 0;
    for (int at = 4; at < COUNT; at++)
        objects[count++] = named(handle(at));
    return ended(WaitForMultipleObjectsEx(count, objects, all, timeout(2), alertable(3)));
}

static bool is(const char *keyword)
{
    return strcmp(word(1), keyword) == 0;
}

/* The call of the line. */
static struct answer called(void)
{
    if (is(WORD_EVENT))
        return created(CreateEvent(NULL, has(WORD_MANUAL), has(WORD_SET), NULL));
    if (is(WORD_SEMAPHORE))
        return created(CreateSemaphore(NULL, (LONG)signed_number(3), (LONG)signed_number(4), NULL));
    if (is(WORD_MUTEX))
        return created(CreateMutex(NULL, has(WORD_OWNED), NULL));
    if (is(WORD_TIMER))
        return created(CreateWaitableTimer(NULL, has(WORD_MANUAL), NULL));
    if (is(WORD_DUP))
        return duplicated();
    if (is(WORD_SET))
        return done(SetEvent(named(handle(2))));
    if (is(WORD_RESET))
        return done(ResetEvent(named(handle(2))));
    if (is(WORD_PULSE))
        return done(PulseEvent(named(handle(2))));
    if (is(WORD_RELEASE))
        return released();
    if (is(WORD_UNLOCK))
        return done(ReleaseMutex(named(handle(2))));
    if (is(WORD_ARM))
        return armed();
    if (is(WORD_APC))
        return queued();
    if (is(WORD_NEXT))
        return taken();
    if (is(WORD_CANCEL))
        return done(CancelWaitableTimer(named(handle(2))));
    if (is(WORD_CLOSE))
        return done(CloseHandle(named(handle(2))));
    if (is(WORD_ANY) || is(WORD_ALL))
        return waited(is(WORD_ALL));
    if (is(WORD_SLEEP))
        return ended(SleepEx(timeout(2), alertable(3)));
    if (is(WORD_SWAP))
        return ended(SignalObjectAndWait(named(handle(2)), named(handle(3)), timeout(4), alertable(5)));
    if (is(WORD_EXIT))
        ExitThread(0);
    stop();
    return refused();
}

/* A thread of the script: makes its calls until it ends, or all do. */
static DWORD play(LPVOID at)
{
    struct player *player = at;
    while (does_after(player, RESTS) == CALLS && !EVERYBODY_ENDS) {
        player->answer = called();
        turn_to(player, RESTS);
    }
    return 0;
}

/* ---- The script. */

static void write_answer(const struct answer *answer)
{
    switch (answer->kind) {
    case OK:
        printf("%lu: ok\n", NUMBER);
        break;
    case HANDLE_OF:
        printf("%lu: handle %lld\n", NUMBER, (long long)answer->number);
        break;
    case PREVIOUS:
        printf("%lu: previous %lld\n", NUMBER, (long long)answer->number);
        break;
    case STATUS:
        printf("%lu: status 0x%08X\n", NUMBER, (unsigned)answer->number);
        break;
    case APC:
        printf("%lu: apc %llu %llu\n", NUMBER, (unsigned long long)answer->apc->routine, (unsigned long long)answer->apc->arg);
        break;
    case APC_OF_TIMER:
        printf("%lu: apc %llu %llu at %lld\n", NUMBER, (unsigned long long)answer->apc->routine,
               (unsigned long long)answer->apc->arg, (long long)answer->number);
        break;
    case NO_APC:
        printf("%lu: apc none\n", NUMBER);
        break;
    default:
        printf("%lu: error %lld\n", NUMBER, (long long)answer->number);
    }
}

/* Has the thread make the call of the line, and writes what it answered. */
static void make_call(struct player *player)
{
    turn_to(player, CALLS);
    const enum state does = does_after(player, CALLS);
    if (does == SLEEPS)
        printf("%lu: pending\n", NUMBER);
    else if (does == HAS_ENDED)
        printf("%lu: ok\n", NUMBER);
    else
        write_answer(&player->answer);
}

/* Writes which waits the line ended, once the threads have learned of it. */
static void write_grants(void)
{
    /* The call may still hold the lock, where its wait pends or its thread ends. */
    take_lock();
    const uint32_t grants = GRANTS;
    GRANTS = 0;
    give_lock();
    for (uint32_t i = 0; i < grants; i++) {
        struct player *granted = &PLAYERS[GRANTED[i]];
        does_after(granted, SLEEPS);
        printf("%lu: t%u status 0x%08X\n", NUMBER, GRANTED[i], (unsigned)granted->answer.number);
    }
}

static void write_end_line(void)
{
    bool any = false;
    printf("end: pending");
    for (uint32_t thread = 0; thread < THREADS; thread++)
        if (does_now(&PLAYERS[thread]) == SLEEPS) {
            printf(" t%u", thread);
            any = true;
        }
    printf(any ? "\n" : " none\n");
}

/* Lets the threads end that rest, and waits until they have. (Waits that their ends grant are none of the script's.) */
static void end_all(void)
{
    pthread_mutex_lock(&TURNS);
    EVERYBODY_ENDS = true;
    pthread_mutex_unlock(&TURNS);
    for (uint32_t thread = 0; thread < THREADS; thread++)
        if (does_now(&PLAYERS[thread]) == RESTS) {
            turn_to(&PLAYERS[thread], CALLS);
            does_after(&PLAYERS[thread], CALLS);
        }
}

static void carry_out(void)
{
    const unsigned long thread = strtoul(word(0) + 1, NULL, 10);
    if (strcmp(word(0), WORD_TICK) == 0) {
        if (number(1) < MOMENT)
            stop();
        tick(number(1));
        printf("%lu: ok\n", NUMBER);
    } else if (thread < THREADS && does_now(&PLAYERS[thread]) == RESTS) {
        make_call(&PLAYERS[thread]);
    } else {
        stop();
    }
    write_grants();
}

int main(void)
{
    if (!read_line() || strcmp(word(0), WORD_THREADS) != 0 || number(1) >= NT_MAXIMUM_THREADS)
        stop();
    THREADS = (uint32_t)number(1);
    for (uint32_t thread = 0; thread < THREADS; thread++) {
        HANDLE made = CreateThread(NULL, 0, play, &PLAYERS[thread], 0, NULL);
        if (made == NULL || hand_out(made) != thread)
            abort();
    }
    while (read_line())
        carry_out();
    write_end_line();
    end_all();
    return 0;
}
