/* A call is a full barrier, as one of Windows is: a thread that writes a word, calls, and then reads another's word, and one that writes
 * that, passes a barrier and reads the first word, do not both read what was before. The caller is the thread that the lock favours, since no other calls. What each
 * call does with the lock is tried by itself, too: the fewer steps a call has, the more would be seen. (To see it takes two processors, and chance:
 * lock_steps.c looks for the barrier itself.) */
#include "../ntwin.c"

#define counted counted_checks /* (ntwin.c has another.) */
#include "check.h"

/* A run counts where the other thread ran beside the caller, which a busy machine does not always let it. */
enum { ROUNDS = 100000, ROUNDS_BESIDE = ROUNDS / 10, RUNS = 8, MOST_RUNS = 60, MOST_MS = 1000 };

/* In round i a thread writes i into its word. Each word has a cache line of its own. */
static struct word {
    LONG volatile it;
    char rest[60];
} OF_CALLER, OF_OTHER, OF_BARRIER, IS_OTHER_THERE, IS_CALLER_DONE;
static LONG SEEN_BY_CALLER[ROUNDS], SEEN_BY_OTHER[ROUNDS];

static void *write_and_pass(void *rounds)
{
    LONG i = 1;
    WriteRelease(&IS_OTHER_THERE.it, TRUE);
    for (; i < ROUNDS && !ReadNoFence(&IS_CALLER_DONE.it); i++) {
        WriteNoFence(&OF_OTHER.it, i);
        InterlockedExchange(&OF_BARRIER.it, i); /* (gcc's ThreadSanitizer knows no MemoryBarrier.) */
        SEEN_BY_OTHER[i] = ReadNoFence(&OF_CALLER.it);
    }
    *(LONG *)rounds = i;
    return NULL;
}

/* A run of calls of one kind: in how many rounds both read what was before. (The rounds of the two threads are not the same: where the caller has seen
 * that the other's round j was not there yet, that has to see in it that the caller's round was.) */
static LONG early_in_run(BOOL WINAPI call(HANDLE), HANDLE event, bool *counts)
{
    pthread_t other;
    LONG rounds = 0, early = 0;
    OF_CALLER.it = OF_OTHER.it = IS_OTHER_THERE.it = IS_CALLER_DONE.it = 0;
    must(pthread_create(&other, NULL, write_and_pass, &rounds) == 0);
    while (!ReadAcquire(&IS_OTHER_THERE.it))
        sched_yield();
    for (LONG i = 1; i < ROUNDS; i++) {
        WriteNoFence(&OF_CALLER.it, i);
        call(event);
        SEEN_BY_CALLER[i] = ReadNoFence(&OF_OTHER.it);
    }
    WriteRelease(&IS_CALLER_DONE.it, TRUE);
    must(pthread_join(other, NULL) == 0);
    *counts = rounds >= ROUNDS_BESIDE;
    for (LONG i = 1; i < ROUNDS; i++) {
        const LONG next = SEEN_BY_CALLER[i] + 1;
        early += next < rounds && SEEN_BY_OTHER[next] < i;
    }
    return early;
}

static LONG both_too_early(BOOL WINAPI call(HANDLE))
{
    LONG early = 0;
    HANDLE event = CreateEvent(NULL, TRUE, FALSE, NULL);
    const ULONGLONG began = GetTickCount64();
    must(event != NULL);
    for (int run = 0, counted_runs = 0; run < MOST_RUNS && counted_runs < RUNS && GetTickCount64() - began < MOST_MS; run++) {
        bool counts;
        early += early_in_run(call, event, &counts);
        counted_runs += counts;
    }
    must(CloseHandle(event));
    return early;
}

static BOOL WINAPI take_and_give_lock(HANDLE none)
{
    (void)none;
    must(take_lock_for(own.seat));
    give_lock_for(own.seat);
    return TRUE;
}

int main(void)
{
    IS(both_too_early(take_and_give_lock), 0);
    IS(both_too_early(SetEvent), 0);
    IS(both_too_early(ResetEvent), 0);
    IS(both_too_early(PulseEvent), 0);
    return counted();
}
