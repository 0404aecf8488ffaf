/* SPDX-License-Identifier: MIT OR Apache-2.0 */
/* ---- APCs. */
#include "by_pointer.h"

DWORD QueueUserAPC(PAPCFUNC routine, HANDLE thread, ULONG_PTR argument)
{
    if (routine == NULL)
        return (DWORD)ntw_fail(ERROR_INVALID_PARAMETER);
    struct seat *seat = ntw_begin();
    return seat != NULL
        && ntw_finish(seat, nt_queue_apc(&waiting.dispatcher, seat->number, number_of(seat, thread), (uint64_t)(uintptr_t)routine, argument,
                                         &seat->reply));
}

/* Runs an APC. A timer's routine gets the moment at which the timer was due, in UTC. */
static void run_apc(const struct nt_reply *apc)
{
    if (!apc->timed) {
        ((PAPCFUNC)(uintptr_t)apc->routine)((ULONG_PTR)apc->arg);
        return;
    }
    const uint64_t time = (uint64_t)(universal() - (int64_t)present() + (int64_t)apc->at);
    ((PTIMERAPCROUTINE)(uintptr_t)apc->routine)((LPVOID)(uintptr_t)apc->arg, (DWORD)time, (DWORD)(time >> 32));
}

/* Takes the caller's oldest APC. An alertable sleep of no time tells whether there is one, and lets the caller take it, also where an
 * APC before it has waited. */
static bool take_apc(struct seat *seat, struct nt_reply *apc)
{
    const uint32_t caller = seat->number;
    lock(seat);
    const bool is_queued = nt_sleep(&waiting.dispatcher, caller, 0, true, apc) == 0 && apc->number == WAIT_IO_COMPLETION;
    const bool is_taken = is_queued && nt_next_apc(&waiting.dispatcher, caller, apc) == 0 && apc->kind == NT_APC;
    unlock_and_wake(seat);
    return is_taken;
}

/* Runs the caller's APCs, those too that are queued meanwhile. */
NTW_INTERNAL void run_apcs(struct seat *seat)
{
    struct nt_reply apc;
    while (take_apc(seat, &apc))
        run_apc(&apc);
}

/* ---- Waits. */

/* The handle of an event that is never set, under the lock: it stands for the process, which has not ended. NO_HANDLE where memory is
 * refused for it. */
__attribute__((noinline, cold)) static uint32_t number_of_process(struct seat *seat)
{
    struct nt_reply made, reply;
    if (waiting.process_handle != NO_HANDLE)
        return waiting.process_handle;
    if (nt_create_event(&waiting.dispatcher, seat->number, 0, &made) != 0)
        return NO_HANDLE;
    const uint32_t refused = nt_duplicate(&waiting.dispatcher, seat->number, made.number, SYNCHRONIZE, &reply);
    close_number(seat, made.number);
    if (refused != 0)
        return NO_HANDLE;
    note_made(reply.number, NULL);
    waiting.kinds[reply.number] = KIND_PROCESS;
    waiting.process_handle = reply.number;
    return reply.number;
}

/* As `number_of`, under the lock, for a call that may name the process. */
NTW_INLINE uint32_t waited_number_of(struct seat *seat, HANDLE handle)
{
    const uint32_t number = number_of(seat, handle);
    return number == NO_HANDLE && handle == CURRENT_PROCESS ? number_of_process(seat) : number;
}

/* Lets time pass, under the lock, where the call counts a time from now; and what no watcher has come to yet, where it only looks. */
static inline void begin_timed(struct seat *seat, DWORD ms)
{
    if (ms == INFINITE)
        return;
    if (ms != 0)
        pass_time(seat);
    else if (waiting.timers_due != NEVER)
        catch_up(seat);
}

/* A wait, as it was asked for: what it waits for, and whether APCs may end it. */
struct wait {
    const uint32_t *numbers;
    DWORD count;
    BOOL alertable;
};

/* What timers have to do with the caller's wait, under the lock. (One that it names may be set again while it sleeps, so it watches then.) */
static struct dues dues_of(struct seat *seat, struct wait wait)
{
    struct dues dues = { wait.alertable && seat->has_more_routines, wait.alertable && seat->minded > 0, NEVER };
    struct nt_opened opened;
    if (dues.minds)
        dues.first = first_minded(seat);
    for (DWORD i = 0; i < wait.count; i++)
        if (kind_of(wait.numbers[i]) == KIND_TIMER && nt_opened(&waiting.dispatcher, wait.numbers[i], &opened) == 0) {
            const uint64_t due = ntw_due_of(opened.object);
            dues.watches = true;
            dues.first = due < dues.first ? due : dues.first;
        }
    return dues;
}

/* What a wait answers that was refused. */
__attribute__((noinline, cold)) static DWORD fail_wait(struct seat *seat, uint32_t refused)
{
    unlock_and_wake(seat);
    ntw_fail(refused);
    return WAIT_FAILED;
}

/* What a wait answers that pends: its status, once it is granted. */
static inline DWORD finish_before_apcs(struct seat *seat, struct wait wait)
{
    ntw_note(seat);
    const struct dues dues = dues_of(seat, wait);
    note_registers(seat);
    const DWORD status = sleep_until_granted(seat, dues);
    atomic_signal_fence(memory_order_seq_cst); /* (So this frame is there meanwhile, and that is no jump.) */
    return status;
}

/* The same. The caller's APCs run before. */
static inline DWORD finish_pending(struct seat *seat, struct wait wait)
{
    const DWORD status = finish_before_apcs(seat, wait);
    if (status == WAIT_IO_COMPLETION)
        run_apcs(seat);
    return status;
}

/* The same for one object. */
__attribute__((noinline)) static DWORD finish_pending_for_one(struct seat *seat, uint32_t number, BOOL alertable)
{
    return finish_pending(seat, (struct wait){ &number, 1, alertable });
}

/* What a wait answers that ended at once, where it was noted whom the call has to wake. */
static inline DWORD finish_noted(struct seat *seat, BOOL alertable)
{
    const DWORD status = seat->reply.number;
    unlock_and_wake(seat);
    if (alertable && status == WAIT_IO_COMPLETION)
        run_apcs(seat);
    return status;
}

/* The same where there is nobody to wake: a wait that ends at once takes objects, and ends no other. */
static inline DWORD finish_ended(struct seat *seat, BOOL alertable)
{
    check_told_nobody();
    return finish_noted(seat, alertable);
}

/* What a wait answers: at once, or once it is granted. (In line in the call that the program makes, as all that waits is, so that it knows where that
 * is.) */
__attribute__((always_inline)) static inline DWORD finish_wait(struct seat *seat, uint32_t refused, struct wait wait)
{
    if (refused != 0)
        return fail_wait(seat, refused);
    if (seat->reply.kind != NT_PENDED)
        return finish_ended(seat, wait.alertable);
    seat->waits_at = __builtin_return_address(0);
    return finish_pending(seat, wait);
}

/* Reads the first and the last of these handles, and so from each page that they stand in, of which there are two at the most: a list that can't be
 * read does no harm while the lock is free. */
static inline void read_ends(const HANDLE *objects, DWORD count)
{
    (void)*(const HANDLE volatile *)objects;
    (void)*(const HANDLE volatile *)&objects[count - 1];
}

/* The numbers of these handles, under the lock. (Pseudo handles stand in no list.) */
__attribute__((noinline)) static void read_numbers(uint32_t *numbers, const HANDLE *objects, DWORD count)
{
    for (DWORD i = 0; i < count; i++)
        numbers[i] = listed_number_of(objects[i]);
}

__attribute__((always_inline)) static inline DWORD wait_for_objects(DWORD count, const HANDLE *objects, BOOL all, DWORD ms, BOOL alertable)
{
    uint32_t numbers[MAXIMUM_WAIT_OBJECTS];
    if (objects == NULL || count > MAXIMUM_WAIT_OBJECTS) {
        ntw_fail(ERROR_INVALID_PARAMETER);
        return WAIT_FAILED;
    }
    if (count > 0)
        read_ends(objects, count);
    struct seat *seat = ntw_begin();
    if (seat == NULL)
        return WAIT_FAILED;
    note_call(seat);
    read_numbers(numbers, objects, count);
    begin_timed(seat, ms);
    return finish_wait(seat, nt_wait(&waiting.dispatcher, seat->number, numbers, count, all != FALSE, ms, alertable != FALSE, &seat->reply),
                       (struct wait){ numbers, count, alertable });
}

DWORD WaitForMultipleObjectsEx(DWORD count, const HANDLE *objects, BOOL all, DWORD ms, BOOL alertable)
{
    return wait_for_objects(count, objects, all, ms, alertable);
}

DWORD WaitForMultipleObjects(DWORD count, const HANDLE *objects, BOOL all, DWORD ms)
{
    return wait_for_objects(count, objects, all, ms, FALSE);
}

/* A wait for one object. (In line, so that what is for APCs goes where none is asked for.) */
__attribute__((always_inline)) static inline DWORD wait_for_object(HANDLE object, DWORD ms, BOOL alertable)
{
    struct seat *seat = ntw_begin();
    if (seat == NULL)
        return WAIT_FAILED;
    note_call(seat);
    const uint32_t number = waited_number_of(seat, object);
    begin_timed(seat, ms);
    const uint32_t refused = nt_wait_object(&waiting.dispatcher, seat->number, number, ms, alertable != FALSE, &seat->reply);
    if (refused != 0)
        return fail_wait(seat, refused);
    if (seat->reply.kind != NT_PENDED)
        return finish_ended(seat, alertable);
    seat->waits_at = __builtin_return_address(0);
    return finish_pending_for_one(seat, number, alertable);
}

DWORD WaitForSingleObjectEx(HANDLE object, DWORD ms, BOOL alertable)
{
    return wait_for_object(object, ms, alertable);
}

DWORD WaitForSingleObject(HANDLE object, DWORD ms)
{
    return wait_for_object(object, ms, FALSE);
}

/* The same, but APCs that end the wait have yet to run: by `run_apcs`. */
NTW_INTERNAL DWORD wait_before_apcs(HANDLE object, DWORD ms, BOOL alertable)
{
    struct seat *seat = ntw_begin();
    if (seat == NULL)
        return WAIT_FAILED;
    note_call(seat);
    const uint32_t number = waited_number_of(seat, object);
    begin_timed(seat, ms);
    const uint32_t refused = nt_wait_object(&waiting.dispatcher, seat->number, number, ms, alertable != FALSE, &seat->reply);
    if (refused != 0)
        return fail_wait(seat, refused);
    if (seat->reply.kind != NT_PENDED)
        return finish_ended(seat, FALSE);
    seat->waits_at = __builtin_return_address(0);
    return finish_before_apcs(seat, (struct wait){ &number, 1, alertable });
}

DWORD SignalObjectAndWait(HANDLE signal, HANDLE object, DWORD ms, BOOL alertable)
{
    struct seat *seat = ntw_begin();
    if (seat == NULL)
        return WAIT_FAILED;
    note_call(seat);
    const uint32_t number = waited_number_of(seat, object);
    begin_timed(seat, ms);
    const uint32_t refused = nt_swap(&waiting.dispatcher, seat->number, number_of(seat, signal), number, ms, alertable != FALSE, &seat->reply);
    if (refused == 0 && seat->reply.kind != NT_PENDED) {
        ntw_note(seat);
        return finish_noted(seat, alertable);
    }
    return finish_wait(seat, refused, (struct wait){ &number, 1, alertable });
}

__attribute__((always_inline)) static inline DWORD sleep_for_ms(DWORD ms, BOOL alertable)
{
    struct seat *seat = ntw_begin();
    if (seat == NULL)
        return WAIT_FAILED;
    begin_timed(seat, ms);
    const DWORD status = finish_wait(seat, nt_sleep(&waiting.dispatcher, seat->number, ms, alertable != FALSE, &seat->reply),
                                     (struct wait){ NULL, 0, alertable });
    if (ms == 0)
        yield_to_others();
    return status;
}

DWORD SleepEx(DWORD ms, BOOL alertable)
{
    return sleep_for_ms(ms, alertable);
}

/* A sleep can't fail: a thread that has no seat, or no memory for its wait, sleeps by itself. */
void Sleep(DWORD ms)
{
    const DWORD error = own.last_error;
    if (sleep_for_ms(ms, FALSE) != WAIT_FAILED)
        return;
    own.last_error = error;
    struct timespec left = { .tv_sec = ms / 1000, .tv_nsec = (long)(ms % 1000) * 1000000 };
    while (ms == INFINITE)
        pause();
    while (clock_nanosleep(CLOCK_MONOTONIC, 0, &left, &left) == EINTR)
        continue;
}
