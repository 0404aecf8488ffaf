/* The trace of a run: which steps of the protocols its strands make, in the order in which they make them. A step on a word has its place in the
 * trace as it is made, and gets its name after; steps without a name are left out. */
#ifndef TRACE_H
#define TRACE_H

#include "strands.h"

enum {
    SEATS_TOLD = 64,
    LEAVERS_TOLD = 32, /* from here on these are no seats, but strands that end, as the words' protocol has it */
    THREADS_TOLD = SEATS_TOLD + MOST_STRANDS
};

static const int threads_told[PROTOCOLS] = { [lock_protocol] = THREADS_TOLD, [word_protocol] = SEATS_TOLD, [park_protocol] = MOST_STRANDS };
static const char *const protocol_names[PROTOCOLS] = { [lock_protocol] = "lock", [word_protocol] = "word", [park_protocol] = "park" };

/* Each step of each protocol, as the trace names it. */
#define LOCK_STEP_TEXT(name) [name] = "lock " #name,
#define WORD_STEP_TEXT(name) [name] = "word " #name,
#define PARK_STEP_TEXT(name) [name] = "park " #name,
static const char *const step_names[PROTOCOLS][STEPS] = {
    [lock_protocol] = { LOCK_STEPS(LOCK_STEP_TEXT) LOCK_STEPS_OF_HANDLERS(LOCK_STEP_TEXT) LOCK_STEPS_ON_OTHERS(LOCK_STEP_TEXT)
                        LOCK_STEPS_ON_FAVOURED(LOCK_STEP_TEXT) },
    [word_protocol] = { WORD_STEPS(WORD_STEP_TEXT) WORD_STEPS_ON_OTHERS(WORD_STEP_TEXT) },
    [park_protocol] = { PARK_STEPS(PARK_STEP_TEXT) PARK_STEPS_ON_OTHERS(PARK_STEP_TEXT) },
};

/* The trace, if one is asked for. */
static struct {
    FILE *file;
    struct told_step {
        enum protocol protocol;
        enum step step;
        uint32_t thread, other, address;
    } *steps;
    size_t count, room;
    unsigned long long counts[PROTOCOLS][STEPS];
} trace;

/* A step more, in its place. */
static size_t put_step(enum protocol protocol, enum step step, uint32_t thread, uint32_t other)
{
    if (trace.count == trace.room) {
        trace.room = trace.room * 2 + 1024;
        trace.steps = realloc(trace.steps, trace.room * sizeof *trace.steps);
        if (trace.steps == NULL)
            abort();
    }
    trace.steps[trace.count] = (struct told_step){ .protocol = protocol, .step = step, .thread = thread, .other = other };
    return trace.count++;
}

/* The addresses at which strands wait, as the program has them. */
static const volatile void *told_addresses[ADDRESSES];

/* Which of them this is; ADDRESSES where it is none. */
static uint32_t number_of_address(const volatile void *address)
{
    uint32_t number = 0;
    while (number < ADDRESSES && told_addresses[number] != address)
        number++;
    return number;
}

/* The strand that runs waits at this address, or wakes those that do. */
static void name_address(const volatile void *address)
{
    run.runs->tells.address = number_of_address(address);
    if (run.runs->tells.address == ADDRESSES)
        broken("a thread waits at an address that is not told");
}

/* Which thread of the protocol a strand is. */
static uint32_t thread_told(const struct strand *strand, enum protocol protocol)
{
    return protocol == park_protocol ? (uint32_t)(strand - run.strands) : strand->tells.is_thread[protocol];
}

/* A step of this strand, as the protocol has it. */
static struct told_step step_of(const struct strand *strand, enum protocol protocol, enum step step, uint32_t other)
{
    return (struct told_step){ protocol, step, thread_told(strand, protocol), other, strand->tells.address };
}

/* One more, in its place. */
static void put_step_of(const struct strand *strand, enum protocol protocol, enum step step, uint32_t other)
{
    const size_t place = put_step(protocol, step, 0, 0);
    trace.steps[place] = step_of(strand, protocol, step, other);
}

/* A step that has no name yet, which it may get. */
static size_t put_nameless(void)
{
    return put_step(lock_protocol, NO_STEP, 0, 0);
}

/* The strand that runs makes a step on this word. */
static void note_step(const volatile void *word)
{
    struct strand *me = run.runs;
    if (trace.file == NULL || me == NULL)
        return;
    me->tells.made[me->tells.steps_made++ % STEPS_KNOWN] = (struct made_step){ word, put_nameless() };
}

/* The place of the last step of the strand that runs on this word. */
static size_t last_step_on(const volatile void *word)
{
    struct strand *me = run.runs;
    for (uint32_t i = 1; i <= STEPS_KNOWN && i <= me->tells.steps_made; i++) {
        struct made_step *made = &me->tells.made[(me->tells.steps_made - i) % STEPS_KNOWN];
        if (made->word == word) {
            made->word = NULL;
            return made->place;
        }
    }
    broken("a step has a name, and was not made");
}

/* Which thread of the words' protocol the strand is that ends: its seat may be another's before it has woken all. */
static uint32_t number_of_leaver(void)
{
    const uint32_t strand = (uint32_t)(run.runs - run.strands);
    if (strand >= SEATS_TOLD - LEAVERS_TOLD || waiting.seated > LEAVERS_TOLD)
        broken("too many threads for the trace");
    return LEAVERS_TOLD + strand;
}

static uint32_t other_of(enum step step, uint32_t other)
{
    return step > LAST_ON_OTHERS ? other - FAVOURS : other;
}

/* Whose step it is: that of a seat, or of a strand which has none, or takes the lock to have one or to give it back. */
static void choose_lock_thread(enum step step)
{
    struct strand *me = run.runs;
    const uint32_t alone = SEATS_TOLD + (uint32_t)(me - run.strands);
    if (step == Asks)
        me->tells.is_thread[lock_protocol] = me->tells.next_lock_thread != 0 ? me->tells.next_lock_thread - 1 : alone;
    if (step == TriesFree || step == TriesFavoured)
        me->tells.is_thread[lock_protocol] = alone;
    if (step == Asks)
        me->tells.next_lock_thread = 0;
}

/* Which step it is: the same step of the code may be one of two. */
static enum step choose_step(enum protocol protocol, enum step step)
{
    struct strand *me = run.runs;
    if (protocol == park_protocol)
        return step;
    if (protocol == lock_protocol) {
        choose_lock_thread(step);
        if (step == StepsOut && me->tells.has_missed)
            step = StepsBack;
        me->tells.has_missed = step == MissesFavour;
        return step;
    }
    if (me->is_in_call && (step == Enters || step == Returns)) /* (A handler's call is a part of the one that it has interrupted.) */
        return NO_STEP;
    if (step == Returns && me->tells.returns_as != 0) {
        step = (enum step)me->tells.returns_as;
        me->tells.returns_as = 0;
    }
    if (step == Enters || step == LooksAtTime)
        me->tells.stands = IN_CALL;
    if (step == Returns || step == TurnsToSleep)
        me->tells.stands = step == Returns ? OUT_OF_CALL : IN_WAIT;
    return step;
}

/* ---- Handlers of signals. */

enum { ONE_HANDLER_IN = 24 };

/* A handler of signals may interrupt the strand that runs, where it may call: its thread of the lock's protocol is that of its seat, and at a place
 * of which these steps tell. (It has no wait, and no handler interrupts it.) */
static void be_interrupted(enum step begins, enum step ends)
{
    struct strand *me = run.runs;
    const struct seat *seat = own.seat;
    if (me->is_in_handler || seat == NULL || me->tells.is_thread[lock_protocol] != seat->number || me->tells.stands == IN_WAIT
        || me->late_word == (const void *)&seat->inside || *(const volatile uint32_t *)&seat->inside != 0
        || *(const volatile bool *)&seat->takes || !one_in(ONE_HANDLER_IN))
        return;
    const struct telling kept = me->tells;
    me->is_in_handler = true;
    me->is_in_call = kept.stands == IN_CALL;
    if (trace.file != NULL)
        put_step(lock_protocol, begins, seat->number, 0);
    run.handle();
    if (trace.file != NULL)
        put_step(lock_protocol, ends, seat->number, 0);
    me->is_in_handler = me->is_in_call = false;
    me->tells = kept;
}

/* The same after this step of the lock. */
static void be_interrupted_after(enum step step)
{
    if (step == SeesFavour)
        be_interrupted(InterruptsAtStore, ResumesAtStore);
    else if (step == StepsOut || step == StepsBack)
        be_interrupted(InterruptsAtReload, ResumesAtReload);
    else if (step == FindsRevoked)
        be_interrupted(InterruptsAtWakeRevoker, ResumesAtWakeRevoker);
}

static void name_step(enum protocol protocol, const volatile void *word, const uint32_t *names)
{
    struct strand *me = run.runs;
    if (me == NULL)
        return;
    const enum step step = choose_step(protocol, (enum step)names[0]);
    if (protocol == word_protocol && (step == Grants || step == Calls))
        me->owes |= (uint64_t)names[2] << names[1];
    if (trace.file != NULL && step != NO_STEP) {
        const size_t place = word == NULL ? put_nameless() : last_step_on(word);
        trace.steps[place] = step_of(me, protocol, step, other_of(step, names[1]));
    }
    if (protocol == lock_protocol)
        be_interrupted_after(step);
    if (step == TakesToLook) /* (It looks at the value next, and that is a step that is not made here.) */
        point();
}

/* A plain store of this strand arrives: it has entered or left, unparked another, or changed a value. */
static void note_arrival(struct strand *strand, const volatile void *word, uint32_t value)
{
    const uintptr_t at = (uintptr_t)word - (uintptr_t)&waiting.seats[0].inside;
    if (trace.file == NULL)
        return;
    const uint32_t whose = strand_of_place(word), me = (uint32_t)(strand - run.strands);
    if (at % sizeof waiting.seats[0] == 0 && at / sizeof waiting.seats[0] < SEATS_TOLD)
        put_step(lock_protocol, value != 0 ? SetArrives : ClearArrives, (uint32_t)(at / sizeof waiting.seats[0]), 0);
    else if (whose != NO_STRAND && whose != me)
        put_step_of(strand, park_protocol, Unparks, whose);
    else if (whose == NO_STRAND && number_of_address(word) != ADDRESSES)
        put_step_of(strand, park_protocol, Changes, value);
}

/* Another thread has passed a barrier: at its place, or now where none was needed or the system refused it. */
static void name_barrier(const uint32_t *names)
{
    struct strand *me = run.runs;
    if (me->is_refused_barrier) /* (A tenth of a second has passed.) */
        end_all_stores();
    me->is_refused_barrier = false;
    const uint32_t thread = me->tells.is_thread[lock_protocol];
    if (trace.file == NULL || thread == names[1])
        return;
    const size_t place = me->tells.has_barred ? last_step_on(&process.has_barriers) : put_nameless();
    me->tells.has_barred = false;
    trace.steps[place] = step_of(me, lock_protocol, (enum step)names[0], names[1]);
}

/* ---- What becomes of a sleep, and of a wake-up. */

static void name_sleep(enum protocol protocol, const volatile void *word, const uint32_t *names)
{
    run.runs->tells.to_sleep.protocol = protocol;
    run.runs->tells.to_sleep.word = word;
    memcpy(run.runs->tells.to_sleep.names, names, sizeof run.runs->tells.to_sleep.names);
}

enum sleep_outcome { SLEPT, DID_NOT_SLEEP, WOKE_BY_ITSELF, SLEEPS_AGAIN };

static void tell_sleep(const volatile void *word, enum sleep_outcome outcome)
{
    struct strand *me = run.runs;
    if (trace.file == NULL || me->tells.to_sleep.word != word)
        return;
    const enum protocol protocol = me->tells.to_sleep.protocol;
    put_step_of(me, protocol, (enum step)me->tells.to_sleep.names[outcome], me->tells.to_sleep.names[4]);
    me->is_told_asleep = outcome == SLEPT;
    if (outcome == DID_NOT_SLEEP || outcome == WOKE_BY_ITSELF)
        me->tells.to_sleep.word = NULL;
}

/* The sleep of the strand that runs has ended: who woke it has said so, or nobody has. */
static void tell_end_of_sleep(const volatile void *word)
{
    if (run.runs->is_told_asleep)
        tell_sleep(word, WOKE_BY_ITSELF);
    run.runs->tells.to_sleep.word = NULL;
}

/* The strand is to wake, or to sleep, and may be interrupted before. */
static void be_interrupted_before_wake(const volatile void *word)
{
    struct strand *me = run.runs;
    if (me == NULL || word == NULL || me->tells.to_wake.word != word || me->tells.to_wake.protocol != lock_protocol)
        return;
    if (me->tells.to_wake.names[0] == PaysOne)
        be_interrupted(InterruptsAtPay, ResumesAtPay);
    else if (me->tells.to_wake.names[0] == WakesOne)
        be_interrupted(InterruptsAtWake, ResumesAtWake);
}

static bool is_to_sleep_on_lock(void)
{
    return run.runs != NULL && run.runs->tells.to_sleep.word == &waiting.lock && run.runs->tells.to_sleep.protocol == lock_protocol;
}

static void name_wake(enum protocol protocol, const volatile void *word, const uint32_t *names)
{
    struct strand *me = run.runs;
    me->tells.to_wake.protocol = protocol;
    me->tells.to_wake.word = word;
    memcpy(me->tells.to_wake.names, names, sizeof me->tells.to_wake.names);
    if (word == NULL && trace.file != NULL)
        put_step_of(me, protocol, (enum step)names[1], 0);
}

/* A wake-up of this thread, which slept or not. A handler of signals may have granted or called it too, and woken it. Then the call that the handler
 * had interrupted owes it nothing any longer, and a sleep that it ends has ended for no reason. */
static void tell_wake_of(uint32_t thread, bool slept)
{
    struct strand *me = run.runs;
    const uint64_t owed = me->owes & UINT64_C(1) << thread;
    me->owes &= ~owed;
    if (owed != 0)
        put_step(word_protocol, Wakes, me->tells.is_thread[word_protocol], thread);
    else if (slept)
        put_step(word_protocol, Stirs, thread, 0);
}

/* The strand that runs wakes this one, which it has unparked. (It may have answered that, and sleep at another address: there it wakes for no reason.) */
static void tell_wake_at_address(uint32_t unparked, bool slept)
{
    const struct strand *me = run.runs, *other = &run.strands[unparked];
    put_step_of(me, park_protocol, Wakes, unparked);
    if (slept && other->tells.address != me->tells.address)
        put_step_of(other, park_protocol, Stirs, 0);
}

/* A wake-up on this word has woken that strand, or none. (Who pays and is not of its seat here wakes somebody who seems to wake by itself.) */
static void tell_wake(const volatile void *word, struct strand *woken)
{
    struct strand *me = run.runs;
    if (trace.file == NULL || me->tells.to_wake.word != word)
        return;
    me->tells.to_wake.word = NULL;
    const enum protocol protocol = me->tells.to_wake.protocol;
    const uint32_t thread = me->tells.is_thread[protocol];
    const bool tells = woken != NULL && woken->is_told_asleep && (me->tells.to_wake.names[0] != PaysOne || thread < SEATS_TOLD);
    if (protocol == word_protocol)
        tell_wake_of(me->tells.to_wake.names[2], tells);
    else if (protocol == park_protocol)
        tell_wake_at_address(me->tells.to_wake.names[2], tells);
    else
        put_step(protocol, (enum step)me->tells.to_wake.names[tells ? 0 : 1], thread, tells ? woken->tells.is_thread[protocol] : 0);
    if (tells)
        woken->is_told_asleep = false;
}

#endif
