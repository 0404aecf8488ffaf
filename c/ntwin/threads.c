/* SPDX-License-Identifier: MIT OR Apache-2.0 */
/* ---- Threads come and go. */
#include "by_pointer.h"
#include "../win32/internal.h"
#include "../schedule/internal.h"

/* The number names this thread. */
NTW_INTERNAL void name_thread(uint32_t number, const struct seat *seat)
{
    waiting.kinds[number] = KIND_THREAD;
    waiting.threads[number] = (uint16_t)seat->number;
}

/* The seat is free, under the lock, and its thread's place in the dispatcher that of one that runs. */
static void add_spare(struct seat *seat, uint32_t handle)
{
    free(seat->life.description);
    renew_ending(seat);
    *seat = (struct seat){ .number = seat->number, .handle = handle, .looks = process.looks ? LOOKS_AT_WORD : 0, .next = waiting.spare };
    name_thread(handle, seat);
    waiting.spare = seat;
}

/* A thread begins, under the lock, in the first place of one that has left and that nothing names any longer. What the last call reported was noted.
 * Answers whether one has begun: if not, each place was looked at, but where none has ended. */
static bool renew_first_seat(void)
{
    struct nt_begun begun;
    if (waiting.ended == 0 || nt_begin(&waiting.dispatcher, &begun) != 0)
        return false;
    waiting.ended--;
    add_spare(&waiting.seats[begun.thread], begun.handle);
    return true;
}

/* The same in each such place. */
static void renew_seats(void)
{
    while (renew_first_seat())
        continue;
}

/* Whether nothing names this thread any longer, which has left, under the lock: no handle, and no wait that pends. */
static bool is_unnamed(const struct seat *seat)
{
    struct nt_object object;
    return nt_object(&waiting.dispatcher, seat->number, &object) == 0 && object.kind == NT_GONE;
}

/* A name of this thread, which has left, is gone, under the lock: if it was the last, threads begin in the places up to its own. (So none is looked
 * for in vain. One whose last name was a wait is found with one behind it, or once each place is taken.) */
NTW_INTERNAL void renew_seats_to(const struct seat *seat)
{
    while (is_unnamed(seat) && renew_first_seat())
        continue;
}

/* Whether the program has an open handle with this number, under the lock. (A thread's own handle was given to nobody.) */
static bool is_open(uint32_t number)
{
    return waiting.given[number] != 0 && (waiting.given[number] & IS_CLOSED) == 0;
}

/* The thread that has left this seat is set aside, under the lock, and what is known of it goes to the handles that name it: so its place can be
 * another's. False if that can't be, since a wait that pends names the thread. */
static bool set_aside(struct seat *seat, struct past *past)
{
    if (nt_set_aside(&waiting.dispatcher, seat->number) != 0)
        return false;
    past->seat = *seat;
    seat->life.description = NULL;
    for (uint32_t number = 0; number < NT_MAXIMUM_HANDLES; number++)
        if (waiting.threads[number] == seat->number && waiting.kinds[number] == KIND_THREAD && waiting.pasts[number] == NULL && is_open(number)) {
            __atomic_store_n(&waiting.pasts[number], past, __ATOMIC_RELEASE);
            past->handles++;
        }
    return true;
}

/* Some handle is closed then, under the lock, so that the next thread that begins can have its number: a thread that runs makes an event and closes
 * it. (Each thread that waits is refused.) */
static void leave_closed_handle(void)
{
    struct nt_reply reply;
    const uint32_t first = own.seat != NULL ? own.seat->number : 0;
    for (uint32_t i = 0; i < waiting.seated; i++) {
        const uint32_t who = (first + i) % waiting.seated;
        if (nt_create_event(&waiting.dispatcher, who, 0, &reply) == 0) {
            nt_close_handle(&waiting.dispatcher, who, reply.number, &reply);
            return;
        }
    }
}

/* Each place is taken, under the lock: that of a thread which has left is made free, though handles name the thread. */
static void make_place(void)
{
    if (waiting.ended > 0) {
        give_numbers_again("each thread's number was used once");
        if (!waiting.gives_once)
            leave_closed_handle();
    }
    renew_seats();
    struct past *past = waiting.spare == NULL ? calloc(1, sizeof *past) : NULL;
    if (past == NULL)
        return;
    for (uint32_t i = 0; i < waiting.places; i++) {
        waiting.tried = (waiting.tried + 1) % waiting.places;
        struct seat *seat = &waiting.seats[waiting.tried];
        if (seat->has_left && set_aside(seat, past)) {
            renew_seats_to(seat);
            return;
        }
    }
    free(past);
}

/* Takes a seat, under the lock; null where none is left. */
NTW_INTERNAL struct seat *take_seat(void)
{
    if (waiting.spare == NULL && waiting.seated == waiting.places)
        make_place();
    struct seat *seat = waiting.spare;
    if (seat != NULL) {
        waiting.spare = seat->next;
    } else {
        if (waiting.seated == waiting.places)
            return NULL;
        seat = &waiting.seats[waiting.seated];
        seat->number = seat->handle = waiting.seated++;
        seat->looks = process.looks ? LOOKS_AT_WORD : 0;
        name_thread(seat->handle, seat);
    }
    waiting.alive++;
    return seat;
}

/* Gives a seat back whose thread never ran, under the lock. No handle of the program names it any longer. */
NTW_INTERNAL void give_seat(struct seat *seat)
{
    check_unnamed(seat);
    waiting.alive--;
    add_spare(seat, seat->handle);
}

/* The caller has left, for the dispatcher, under the lock. From now on it has no seat, though destructors that run later may still call. (That it has
 * left is known first: a handler of signals that finds it without a seat would take one, and wait for the lock.) */
static void end_seat(struct seat *seat)
{
    end_life(seat);
    waiting.alive--;
    waiting.ended++;
    if (seat->runner != NULL) {
        seat->runner->next = waiting.left;
        waiting.left = seat->runner;
        seat->runner = NULL;
    }
    own.has_left = true;
    atomic_signal_fence(memory_order_seq_cst);
    own.seat = NULL;
}

/* The thread ends, for the dispatcher: its mutexes are abandoned, and who waits for it is granted. One that was canceled in the middle of a wait can't
 * end, and a watcher may have to look at the time in its place. */
NTW_INTERNAL void leave(struct seat *seat)
{
    may_switch_before_call();
    set_takes_lock(seat, true);
    take_lock();
    STEP_OF_LEAVER(word, NULL, Enters);
    see_to_the_overdue(seat);
    if (nt_close_handle(&waiting.dispatcher, seat->number, seat->handle, &seat->reply) == 0)
        ntw_note(seat);
    if (nt_exit(&waiting.dispatcher, seat->number, &seat->reply) == 0) {
        tell_ending(seat);
        ntw_note(seat);
        look_for_timers();
        end_seat(seat);
        unlock_and_leave(seat);
        return;
    }
    if (nt_woke(&waiting.dispatcher, seat->number) == 0) {
        stop_watching(seat);
        seat->is_gone = true;
        seat->moment = NEVER;
        ntw_note(seat);
    }
    unlock_and_wake(seat);
}

NTW_INTERNAL char rounds[LEAVING_ROUNDS];

/* A canceled thread's frames are gone, and what AddressSanitizer noted of them is not: it would find fault with the frames that come in
 * their place. This takes the notes away. */
#ifdef __has_feature
#define HAS_ADDRESS_SANITIZER __has_feature(address_sanitizer)
#elif defined __SANITIZE_ADDRESS__
#define HAS_ADDRESS_SANITIZER 1
#else
#define HAS_ADDRESS_SANITIZER 0
#endif
#if HAS_ADDRESS_SANITIZER
void __asan_handle_no_return(void);
#define FORGET_FRAMES() __asan_handle_no_return()
#else
#define FORGET_FRAMES() ((void)0)
#endif

static void leave_last(void *round)
{
    char *next = (char *)round + 1;
    FORGET_FRAMES();
    own.end = NULL;
    if (own.seat != NULL && (next == rounds + LEAVING_ROUNDS || pthread_setspecific(process.leaving, next) != 0))
        leave(own.seat);
}

/* The caller, which keeps its seat in a child, is known by the system's number there: what it asks for its own thread is none of its parent's. */
static void begin_life_in_child(void)
{
    if (own.seat == NULL)
        return;
    own.seat->life.task = gettid();
}

/* A child is forked, and this is its only thread: the one that forked, with its id, and with each critical section that it owns. If others had seats or
 * were in a call, none of them is here to end what it began: the child then no longer has a seat, and gets none. */
static void note_fork(void)
{
    const bool is_opening = pthread_mutex_trylock(&process.opening) != 0;
    stop_looking();
    leave_schedule();
    forget_other_threads(own.id);
    process.kept = own.id;
    process.lost = waiting.left;
    waiting.left = NULL;
    if (!is_opening)
        pthread_mutex_unlock(&process.opening);
    if (is_free_in_child() && !is_opening && waiting.alive == (own.seat != NULL)) {
        begin_life_in_child();
        return;
    }
    process.is_forked = true;
    own.seat = NULL;
    own.port = NULL;
    own.rests = false;
}

/* Where the library is part of a plugin, that stays in memory when it is closed: threads that called have yet to leave. (As it is loaded, since who
 * loads it has the loader's lock then. Later another thread may have that, and wait for the one that calls here.) */
static void stay_in_memory(void)
{
    static const char here;
    Dl_info info;
    void *map = NULL;
    if (dladdr1(&here, &info, &map, RTLD_DL_LINKMAP) == 0 || map == NULL)
        return;
    const char *name = ((const struct link_map *)map)->l_name;
    if (name[0] != 0)
        dlopen(name, RTLD_LAZY | RTLD_NOLOAD | RTLD_NODELETE);
}

/* (Before the program's own constructors, which may fork, and before the thread is there that takes SIGQUIT.) */
__attribute__((constructor(101))) static void begin_process(void)
{
    stay_in_memory();
    process.looks = sysconf(_SC_NPROCESSORS_ONLN) > 1;
    ask_for_barriers();
    pthread_atfork(rest_from_telling, go_on_telling, note_fork);
}

/* Opens the dispatcher for as many threads as there may be, under the lock, since a thread that tells why others wait may be there. A journal is
 * a run of the machine, in which no number is given again. */
static uint32_t open_for_all(void)
{
    take_lock();
    waiting.patience = waiting.turns_left = LEAST_PATIENCE;
    waiting.gives_once = journal.text != NULL;
    waiting.places = waiting.gives_once || is_scheduled ? NT_MAXIMUM_THREADS : NT_MANY_THREADS; /* (A scheduled run is to begin soon.) */
    const uint32_t refused = (waiting.gives_once ? nt_open : nt_open_lasting)(&waiting.dispatcher, waiting.places);
    give_lock();
    return refused;
}

/* Opens the dispatcher, where it is not open. Answers 0, or why not; a later call tries again. */
static uint32_t open_dispatcher(void)
{
    uint32_t refused = 0;
    if (process.is_forked)
        return ERROR_NOT_SUPPORTED;
    pthread_mutex_lock(&process.opening);
    if (!process.is_open) {
        process.id = getpid();
        process.start = monotonic();
        waiting.timers_due = waiting.kept_to = NEVER;
        waiting.process_handle = NO_HANDLE;
        waiting.given[0] = IS_CLOSED;
        if (waiting.dispatcher.room == NULL)
            waiting.dispatcher.room = aligned_alloc(16, (nt_room() + 15) / 16 * 16);
        if (!process.has_key)
            process.has_key = pthread_key_create(&process.leaving, leave_last) == 0;
        refused = NT_ERROR_NOT_ENOUGH_MEMORY;
        if (waiting.dispatcher.room != NULL && process.has_key)
            refused = open_for_all();
        process.is_open = refused == 0;
    }
    pthread_mutex_unlock(&process.opening);
    return refused;
}

/* The caller's seat, which it takes now. Null, with the last error set, where it can't have one. */
__attribute__((noinline, cold)) static struct seat *join_first(void)
{
    if (own.joins) { /* (This is a handler of signals, which has interrupted that.) */
        ntw_fail(ERROR_POSSIBLE_DEADLOCK);
        return NULL;
    }
    own.joins = true;
    may_come_in();
    uint32_t refused = own.has_left ? NT_ERROR_THREAD_ENDED : open_dispatcher();
    if (refused == 0 && pthread_setspecific(process.leaving, rounds) != 0)
        refused = NT_ERROR_NOT_ENOUGH_MEMORY;
    if (refused != 0) {
        own.joins = false;
        ntw_fail(refused);
        return NULL;
    }
    take_lock();
    struct seat *seat = take_seat();
    if (seat != NULL)
        begin_life(seat, GetCurrentThreadId());
    give_lock();
    own.seat = seat;
    own.joins = false;
    if (seat == NULL) {
        pthread_setspecific(process.leaving, NULL);
        ntw_fail(ERROR_NO_SYSTEM_RESOURCES);
    }
    return own.seat;
}

/* The caller's seat, which it takes at its first call. Null, with the last error set, where it can't have one. */
NTW_INLINE struct seat *ntw_join(void)
{
    struct seat *seat = own.seat;
    return seat != NULL ? seat : join_first();
}

/* Joins the threads of CreateThread that are gone, under the lock. It waits for none: who has left may still run destructors. Answers what the last one
 * of them was known by, which is the caller's then; null where none is gone. */
NTW_INTERNAL struct runner *join_those_who_are_gone(void)
{
    struct runner *gone = NULL;
    for (struct runner **at = &waiting.left, *runner; (runner = *at) != NULL;)
        if (pthread_tryjoin_np(runner->thread, NULL) != EBUSY) {
            *at = runner->next;
            free(gone);
            gone = runner;
        } else {
            at = &runner->next;
        }
    return gone;
}

/* Joins a thread that is gone by this moment of the monotonic clock. Answers whether it is. (pthread_timedjoin_np goes by a clock that may be set, and
 * no sanitizer knows pthread_clockjoin_np.) */
static bool join_until(pthread_t thread, uint64_t moment)
{
    const struct timespec pause = { .tv_nsec = 1000000 };
    while (pthread_tryjoin_np(thread, NULL) == EBUSY) {
        if (monotonic() >= moment)
            return false;
        nanosleep(&pause, NULL);
    }
    return true;
}

/* At the end of the process, though not in a child that was forked: gives those who have left, and have nothing to do but to be gone, two
 * seconds at the most for it. It takes the lock where it can: who ends the process may have been interrupted while it had it. Threads that
 * still run may still call. */
__attribute__((destructor)) static void end_process(void)
{
    leave_turns();
    const uint64_t until = monotonic() + 2 * (uint64_t)MOMENTS_PER_SECOND;
    if (process.id != getpid() || (is_scheduled && !has_sanitizer()))
        return;
    for (bool refused; take_lock_at_last(&refused);) {
        struct runner *runner = waiting.left;
        if (runner != NULL)
            waiting.left = runner->next;
        give_lock_beside_calls(refused);
        const bool is_joined = runner != NULL && join_until(runner->thread, until);
        free(runner);
        if (!is_joined)
            return;
    }
}
