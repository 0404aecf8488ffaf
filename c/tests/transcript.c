/* Reads a script on standard input (docs/SCRIPTS.md), has each call made by a thread of its own, one after another, through nt.h, and
 * writes the transcript. A line that can't be read ends it, with status 2: which fault that is, ntrun alone tells.
 *
 * With the word --lasting the dispatcher gives numbers again. It has lines more: `begin`, `aside N` of the thread N, `copy`, after which a copy goes
 * on, and `names N`, which object the handle N names. After what each line says comes how many waits pend, and the present moment (tests/compare). */
#include "script.h"

#include <pthread.h>

static struct nt NT;

static uint32_t create(uint32_t who, struct nt_reply *reply)
{
    const char *kind = word(1);
    uint32_t refused;
    if (strcmp(kind, WORD_EVENT) == 0)
        refused = nt_create_event(&NT, who, (has(WORD_MANUAL) ? NT_EVENT_MANUAL_RESET : 0) | (has(WORD_SET) ? NT_EVENT_INITIAL_SET : 0), reply);
    else if (strcmp(kind, WORD_SEMAPHORE) == 0)
        refused = nt_create_semaphore(&NT, who, (int32_t)signed_number(3), (int32_t)signed_number(4), reply);
    else if (strcmp(kind, WORD_DUP) == 0)
        refused = nt_duplicate(&NT, who, handle(3), (uint32_t)number(4), reply);
    else if (strcmp(kind, WORD_MUTEX) == 0)
        refused = nt_create_mutex(&NT, who, has(WORD_OWNED) ? NT_MUTEX_INITIAL_OWNER : 0, reply);
    else
        refused = nt_create_timer(&NT, who, has(WORD_MANUAL) ? NT_TIMER_MANUAL_RESET : 0, reply);
    if (refused == 0)
        give_name(reply->number);
    return refused;
}

static uint32_t arm(uint32_t who, struct nt_reply *reply)
{
    const uint32_t timer = handle(2);
    const int64_t due = signed_number(3);
    const int32_t period = (int32_t)signed_number(4);
    if (COUNT == 5)
        return nt_set_timer(&NT, who, timer, due, period, reply);
    return nt_set_timer_apc(&NT, who, timer, due, period, number(5), number(6), reply);
}

static uint32_t wait_for(uint32_t who, bool all, struct nt_reply *reply)
{
    uint32_t handles[MOST_WORDS];
    size_t count = 0;
    for (int at = 4; at < COUNT; at++)
        handles[count++] = handle(at);
    return nt_wait(&NT, who, handles, count, all, timeout(2), alertable(3), reply);
}

/* The call of the line. */
static uint32_t call(uint32_t who, struct nt_reply *reply)
{
    const char *keyword = word(1);
    if (strcmp(keyword, WORD_SET) == 0)
        return nt_set_event(&NT, who, handle(2), reply);
    if (strcmp(keyword, WORD_RESET) == 0)
        return nt_reset_event(&NT, who, handle(2), reply);
    if (strcmp(keyword, WORD_PULSE) == 0)
        return nt_pulse_event(&NT, who, handle(2), reply);
    if (strcmp(keyword, WORD_RELEASE) == 0)
        return nt_release_semaphore(&NT, who, handle(2), (int32_t)signed_number(3), reply);
    if (strcmp(keyword, WORD_UNLOCK) == 0)
        return nt_release_mutex(&NT, who, handle(2), reply);
    if (strcmp(keyword, WORD_ARM) == 0)
        return arm(who, reply);
    if (strcmp(keyword, WORD_CANCEL) == 0)
        return nt_cancel_timer(&NT, who, handle(2), reply);
    if (strcmp(keyword, WORD_APC) == 0)
        return nt_queue_apc(&NT, who, handle(2), number(3), number(4), reply);
    if (strcmp(keyword, WORD_CLOSE) == 0)
        return nt_close_handle(&NT, who, handle(2), reply);
    if (strcmp(keyword, WORD_ANY) == 0 || strcmp(keyword, WORD_ALL) == 0)
        return wait_for(who, strcmp(keyword, WORD_ALL) == 0, reply);
    if (strcmp(keyword, WORD_SLEEP) == 0)
        return nt_sleep(&NT, who, timeout(2), alertable(3), reply);
    if (strcmp(keyword, WORD_SWAP) == 0)
        return nt_swap(&NT, who, handle(2), handle(3), timeout(4), alertable(5), reply);
    if (strcmp(keyword, WORD_NEXT) == 0)
        return nt_next_apc(&NT, who, reply);
    if (strcmp(keyword, WORD_EXIT) == 0)
        return nt_exit(&NT, who, reply);
    return create(who, reply);
}

static void write_reply(const struct nt_reply *reply)
{
    switch (reply->kind) {
    case NT_DONE:
        printf("%lu: ok\n", NUMBER);
        break;
    case NT_HANDLE:
        printf("%lu: handle %u\n", NUMBER, reply->number);
        break;
    case NT_PREVIOUS:
        printf("%lu: previous %d\n", NUMBER, reply->previous);
        break;
    case NT_STATUS:
        printf("%lu: status 0x%08X\n", NUMBER, reply->number);
        break;
    case NT_PENDED:
        printf("%lu: pending\n", NUMBER);
        break;
    case NT_APC:
        printf("%lu: apc %llu %llu", NUMBER, (unsigned long long)reply->routine, (unsigned long long)reply->arg);
        if (reply->timed)
            printf(" at %llu", (unsigned long long)reply->at);
        printf("\n");
        break;
    default:
        printf("%lu: apc none\n", NUMBER);
    }
}

/* Writes what the line answered: its reply or refusal, and then the waits that it ended. */
static void write_answer(uint32_t refused, const struct nt_reply *reply)
{
    struct nt_grant grant;
    if (refused != 0)
        printf("%lu: error %u\n", NUMBER, refused);
    else
        write_reply(reply);
    for (size_t index = 0; nt_grant(&NT, index, &grant) == 0; index++)
        printf("%lu: t%u status 0x%08X\n", NUMBER, grant.thread, grant.status);
}

static void write_end(void)
{
    bool waits, any = false;
    printf("end: pending");
    for (uint32_t thread = 0; thread < THREADS; thread++)
        if (nt_is_waiting(&NT, thread, &waits) == 0 && waits) {
            printf(" t%u", thread);
            any = true;
        }
    printf(any ? "\n" : " none\n");
}

/* ---- Threads: each makes the calls of its own lines, when its turn comes. */

static const uint32_t NOBODY = 0xFFFFFFFF, EVERYBODY_ENDS = 0xFFFFFFFE;
static pthread_mutex_t LOCK = PTHREAD_MUTEX_INITIALIZER;
static pthread_cond_t TURNS = PTHREAD_COND_INITIALIZER;
static uint32_t TURN = 0xFFFFFFFF;

static void *make_calls(void *at)
{
    const uint32_t who = (uint32_t)(uintptr_t)at;
    pthread_mutex_lock(&LOCK);
    while (TURN != EVERYBODY_ENDS) {
        if (TURN == who) {
            struct nt_reply reply;
            const uint32_t refused = call(who, &reply);
            write_answer(refused, &reply);
            TURN = NOBODY;
            pthread_cond_broadcast(&TURNS);
        }
        pthread_cond_wait(&TURNS, &LOCK);
    }
    pthread_mutex_unlock(&LOCK);
    return NULL;
}

/* Gives the turn to this thread, and waits until it has made its call. */
static void give_turn(uint32_t who)
{
    pthread_mutex_lock(&LOCK);
    TURN = who;
    pthread_cond_broadcast(&TURNS);
    while (TURN == who && who != EVERYBODY_ENDS)
        pthread_cond_wait(&TURNS, &LOCK);
    pthread_mutex_unlock(&LOCK);
}

/* ---- A dispatcher that gives numbers again. */

static bool LASTING;

static void say(uint32_t refused)
{
    if (refused != 0)
        printf("%lu: error %u\n", NUMBER, refused);
    else
        printf("%lu: ok\n", NUMBER);
}

static void begin(void)
{
    struct nt_begun begun;
    const uint32_t refused = nt_begin(&NT, &begun);
    if (refused != 0)
        say(refused);
    else
        printf("%lu: thread %u handle %u\n", NUMBER, begun.thread, begun.handle);
}

/* The copy goes on, and what it was made of is closed. */
static void go_on_in_a_copy(void)
{
    struct nt copy = { aligned_alloc(16, (nt_room() + 15) / 16 * 16), false };
    if (copy.room == NULL || nt_copy(&NT, &copy) != 0)
        stop();
    nt_close(&NT);
    free(NT.room);
    NT = copy;
    say(0);
}

static void tell_name(void)
{
    struct nt_opened opened;
    const uint32_t refused = nt_opened(&NT, handle(1), &opened);
    if (refused != 0)
        say(refused);
    else
        printf("%lu: object %u access %u\n", NUMBER, opened.object, opened.access);
}

/* Whether this is a line that only a dispatcher has which gives numbers again; then it is carried out. */
static bool is_of_a_life(void)
{
    if (!LASTING)
        return false;
    if (strcmp(word(0), "begin") == 0)
        begin();
    else if (strcmp(word(0), "aside") == 0)
        say(nt_set_aside(&NT, (uint32_t)number(1)));
    else if (strcmp(word(0), "copy") == 0)
        go_on_in_a_copy();
    else if (strcmp(word(0), "names") == 0)
        tell_name();
    else
        return false;
    return true;
}

static void tell_waits(void)
{
    size_t waits = 0;
    uint64_t moment = 0;
    if (nt_pending(&NT, &waits) != 0 || nt_now(&NT, &moment) != 0)
        stop();
    printf("%lu: waits %zu at %llu\n", NUMBER, waits, (unsigned long long)moment);
    fflush(stdout);
}

static void carry_out(void)
{
    const struct nt_reply done = { .kind = NT_DONE };
    if (is_of_a_life())
        return;
    if (strcmp(word(0), WORD_TICK) == 0)
        write_answer(nt_tick(&NT, number(1)), &done);
    else if (word(0)[0] == 't' && strtoul(word(0) + 1, NULL, 10) < THREADS)
        give_turn((uint32_t)strtoul(word(0) + 1, NULL, 10));
    else if (word(0)[0] == 't') { /* no thread has this number, so the first one asks for it */
        struct nt_reply reply;
        const uint32_t refused = call((uint32_t)strtoul(word(0) + 1, NULL, 10), &reply);
        write_answer(refused, &reply);
    } else
        stop();
}

int main(int count, char **words)
{
    pthread_t threads[NT_MAXIMUM_THREADS];
    LASTING = count == 2 && strcmp(words[1], "--lasting") == 0;
    NT.room = aligned_alloc(16, (nt_room() + 15) / 16 * 16);
    if (!read_line() || strcmp(word(0), WORD_THREADS) != 0 || NT.room == NULL)
        stop();
    if ((LASTING ? nt_open_lasting : nt_open)(&NT, (uint32_t)number(1)) != 0)
        stop();
    THREADS = (uint32_t)number(1);
    for (uint32_t thread = 0; thread < THREADS; thread++)
        if (pthread_create(&threads[thread], NULL, make_calls, (void *)(uintptr_t)thread) != 0)
            abort();
    while (read_line()) {
        carry_out();
        if (LASTING)
            tell_waits();
    }
    write_end();
    give_turn(EVERYBODY_ENDS);
    for (uint32_t thread = 0; thread < THREADS; thread++)
        pthread_join(threads[thread], NULL);
    nt_close(&NT);
    free(NT.room);
    return 0;
}
