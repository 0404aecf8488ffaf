/* The names of the protocols' steps, as ntwin.c gives them where it is compiled to tell them (trace.h). */
#ifndef STEP_NAMES_H
#define STEP_NAMES_H

#define LOCK_STEPS(X) \
    X(SeesFavour) X(StoresInside) X(Enters) X(MissesFavour) X(StepsBack) X(StepsOut) X(KeepsFavour) X(FindsRevoked) X(WakesNoRevoker) X(Asks) \
    X(TakesFree) X(TriesFree) X(StopsLooking) X(MarksFree) X(MarksHeld) X(PaysNobody) X(FallsAsleep) X(FindsUnwanted) X(Stirs) X(Restarts) \
    X(StoresFirst) X(GainsFavour) X(MissesTaken) X(UnstoresInside) X(GivesBack) X(WakesNobody) X(SetArrives) X(ClearArrives)
/* These name another thread, too: by its number, or by the lock that favours it. */
#define LOCK_STEPS_ON_OTHERS(X) \
    X(WakesRevoker) X(PaysOne) X(WakesOne) X(FindsInside) X(Declines) X(FallsAsleepOn) X(FindsLeft) X(StirsOn) X(RestartsOn) X(PutsBack) \
    X(PassesBarrier) X(PassesBarrierOnce) X(FindsOutside) X(FindsOutsideOnce)
#define LOCK_STEPS_ON_FAVOURED(X) X(Revokes) X(TriesFavoured) X(MarksFavoured)
/* A handler of signals begins, and ends: each for where its thread was. */
#define LOCK_STEPS_OF_HANDLERS(X) \
    X(InterruptsAtStore) X(InterruptsAtReload) X(InterruptsAtWakeRevoker) X(InterruptsAtMark) X(InterruptsAtPay) X(InterruptsAtSleep) \
    X(InterruptsAtWake) X(ResumesAtStore) X(ResumesAtReload) X(ResumesAtWakeRevoker) X(ResumesAtMark) X(ResumesAtPay) X(ResumesAtSleep) \
    X(ResumesAtWake)

/* Those of the word on which a thread sleeps until its wait is granted. Some have names that steps of the lock have, too. */
#define WORD_STEPS(X) WORD_STEPS_OF_ITS_OWN(X) X(Enters) X(FallsAsleep) X(Stirs) X(Restarts)
#define WORD_STEPS_OF_ITS_OWN(X) \
    X(Returns) X(Begins) X(TurnsToSleep) X(Marks) X(FindsItLate) X(Reads) X(LooksAtTime) X(Rearms)
#define WORD_STEPS_ON_OTHERS(X) X(Grants) X(Calls) X(Wakes)

/* Those of threads that wait at an address. Some have names that others' steps have, too. */
#define PARK_STEPS(X) PARK_STEPS_OF_ITS_OWN(X) X(FallsAsleep) X(Stirs) X(Restarts) X(Reads) X(Returns)
#define PARK_STEPS_OF_ITS_OWN(X) \
    X(TakesToLook) X(TakesToLeave) X(TakesToUnpark) X(TakesToUnparkAll) X(GivesToGo) X(GivesToSleep) X(GivesToWake) X(LooksSame) X(LooksOther) \
    X(Parks) X(TimesOut) X(Leaves) X(SeesNobody) X(SeesNobodyAll) X(SeesSome) X(SeesSomeAll) X(Finishes) X(FinishesAll)
/* These name another thread, too, or a value. */
#define PARK_STEPS_ON_OTHERS(X) PARK_STEPS_ON_OTHERS_OF_ITS_OWN(X) X(Calls) X(Wakes)
#define PARK_STEPS_ON_OTHERS_OF_ITS_OWN(X) X(Counts) X(Changes) X(TakesOff) X(TakesOffAll) X(Unparks)
/* Two of its steps, which the code makes in one: it sees without a sleep that it was unparked; and it gives the latch back, with nobody left. */
#define PARK_STEPS_IN_ONE(X) X(SeesUnparked) X(FinishesAndGives) X(FinishesAllAndGives)

#define STEP_NAME(name) name,
enum step {
    NO_STEP,
    LOCK_STEPS(STEP_NAME)
    LOCK_STEPS_OF_HANDLERS(STEP_NAME)
    WORD_STEPS_OF_ITS_OWN(STEP_NAME)
    PARK_STEPS_OF_ITS_OWN(STEP_NAME)
    PARK_STEPS_IN_ONE(STEP_NAME)
    LAST_ALONE,
    WORD_STEPS_ON_OTHERS(STEP_NAME)
    PARK_STEPS_ON_OTHERS_OF_ITS_OWN(STEP_NAME)
    LOCK_STEPS_ON_OTHERS(STEP_NAME)
    LAST_ON_OTHERS,
    LOCK_STEPS_ON_FAVOURED(STEP_NAME)
    STEPS
};

/* The protocols. Of each a strand is a thread. There is a run of the last one for each of these addresses. */
enum { ADDRESSES = 4 };
enum protocol { lock_protocol, word_protocol, park_protocol, PROTOCOLS };

#define STEP(protocol, word, ...) name_step(protocol##_protocol, (word), (uint32_t[]){ __VA_ARGS__, 0 })
#define STEP_OF(seat, protocol, word, ...) (run.runs->tells.is_thread[protocol##_protocol] = (seat)->number, STEP(protocol, word, __VA_ARGS__))
#define STEP_OF_LEAVER(protocol, word, ...) (run.runs->tells.is_thread[protocol##_protocol] = number_of_leaver(), STEP(protocol, word, __VA_ARGS__))
#define STEP_ON(address, protocol, word, ...) (name_address(address), STEP(protocol, word, __VA_ARGS__))
#define STEP_NEXT(seat) (run.runs->tells.next_lock_thread = (seat)->number + 1)
#define STEP_AS(protocol, name, other) (run.runs->tells.returns_as = (other))
#define STEP_BEYOND(protocol, ...) name_barrier((uint32_t[]){ __VA_ARGS__ })
#define TO_SLEEP(protocol, word, ...) name_sleep(protocol##_protocol, (word), (uint32_t[]){ __VA_ARGS__ })
#define TO_WAKE(protocol, word, ...) name_wake(protocol##_protocol, (word), (uint32_t[]){ __VA_ARGS__, 0 })

#endif
