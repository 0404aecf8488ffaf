/* SPDX-License-Identifier: MIT OR Apache-2.0 */
/* ---- Handles. The two lowest bits are the program's own. Above them stand the number of the dispatcher's handle, in 16 bits, and how often it was
 * given to the program, in 14. So a handle that was closed is refused, though its number was given again, until it was given 16,382 times more.
 * Threads' own handles are given to nobody. */
#include "by_pointer.h"
#include "../win32/internal.h"

enum { COUNT_AT = 18, MOST_COUNT = 0x3FFE }; /* (No pseudo handle has such a count, nor has NULL one from 1 on.) */

/* Gives the handle with this number to the program, under the lock. */
NTW_INTERNAL HANDLE give_handle(uint32_t number)
{
    const uint32_t count = waiting.given[number] >> COUNT_AT, value = (count < MOST_COUNT ? count + 1 : 1) << COUNT_AT | number << 2;
    __atomic_store_n(&waiting.given[number], value, __ATOMIC_RELAXED);
    return (HANDLE)(uintptr_t)value;
}

/* The number of a handle that is no pseudo handle, under the lock; NO_HANDLE if the program has no such handle. (It is compared where it lies, which
 * spares a wait for 64 objects as many loads.) */
NTW_INLINE uint32_t listed_number_of(HANDLE handle)
{
    const uint32_t value = (uint32_t)(uintptr_t)handle, number = value >> 2 & (NT_MAXIMUM_HANDLES - 1);
    return waiting.given[number] == (value & ~3u) ? number : NO_HANDLE;
}

/* The same without the lock, where the program has that handle for as long as its call lasts. */
NTW_INLINE uint32_t unlocked_number_of(HANDLE handle)
{
    const uint32_t value = (uint32_t)(uintptr_t)handle, number = value >> 2 & (NT_MAXIMUM_HANDLES - 1);
    return __atomic_load_n(&waiting.given[number], __ATOMIC_RELAXED) == (value & ~3u) ? number : NO_HANDLE;
}

/* The number of a handle, under the lock, which may be the caller's pseudo handle of itself. */
NTW_INLINE uint32_t number_of(const struct seat *caller, HANDLE handle)
{
    const uint32_t number = listed_number_of(handle);
    return number == NO_HANDLE && handle == CURRENT_THREAD ? caller->handle : number;
}

/* The number of the thread that this number names, where it names one. */
NTW_INTERNAL uint16_t thread_of(uint32_t number)
{
    return number < NT_MAXIMUM_HANDLES ? waiting.threads[number] : 0;
}

/* The seat of that thread, or what it was. */
NTW_INTERNAL struct seat *seat_of(uint32_t number)
{
    struct past *past = number < NT_MAXIMUM_HANDLES ? waiting.pasts[number] : NULL;
    return past != NULL ? &past->seat : &waiting.seats[thread_of(number)];
}

/* From now on, under the lock, the one number names the thread that the other names. */
NTW_INTERNAL void name_same_thread(uint32_t number, uint32_t other)
{
    waiting.threads[number] = thread_of(other);
    waiting.pasts[number] = other < NT_MAXIMUM_HANDLES ? waiting.pasts[other] : NULL;
    if (waiting.pasts[number] != NULL)
        waiting.pasts[number]->handles++;
}

/* The number names no thread any longer whose place is another's. */
static void forget_past(uint32_t number)
{
    struct past *past = waiting.pasts[number];
    __atomic_store_n(&waiting.pasts[number], NULL, __ATOMIC_RELAXED);
    if (--past->handles > 0)
        return;
    free(past->seat.life.description);
    free(past);
}

NTW_INTERNAL enum kind kind_of(uint32_t number)
{
    return number < NT_MAXIMUM_HANDLES ? (enum kind)waiting.kinds[number] : KIND_THREAD;
}

/* From now on, under the lock, the handle with this number names nothing. It is refused only where it named nothing before. */
NTW_INTERNAL uint32_t close_number(struct seat *caller, uint32_t number)
{
    const uint32_t refused = nt_close_handle(&waiting.dispatcher, caller->number, number, &caller->reply);
    look_for_timers();
    if (refused != 0)
        return refused;
    __atomic_store_n(&waiting.given[number], waiting.given[number] | IS_CLOSED, __ATOMIC_RELAXED);
    if (waiting.named[number] != NULL)
        forget_named(caller, number);
    if (waiting.pasts[number] != NULL) {
        forget_past(number);
    } else if (kind_of(number) == KIND_THREAD && waiting.seats[thread_of(number)].has_left) {
        ntw_note(caller);
        renew_seats_to(&waiting.seats[thread_of(number)]);
    }
    return 0;
}

/* As `close_number`, for a call of the program. The port that goes with the last handle is in `port`, to be closed without the lock; else null. */
NTW_INTERNAL uint32_t close_programs_number(struct seat *caller, uint32_t number, struct port **port)
{
    const uint32_t refused = close_number(caller, number);
    *port = refused == 0 ? forget_port(number) : NULL;
    return refused;
}

/* ---- Rights. Those that the dispatcher does not know are ignored. */

/* All rights of a kind, and those for which its mapping of generic rights has GENERIC_WRITE. GENERIC_EXECUTE stands for SYNCHRONIZE, and
 * GENERIC_READ for nothing that is known here. */
static const struct {
    DWORD all, write;
} rights_of_kinds[] = {
    [KIND_THREAD] = { SYNCHRONIZE | THREAD_SET_CONTEXT, THREAD_SET_CONTEXT },
    [KIND_EVENT] = { SYNCHRONIZE | EVENT_MODIFY_STATE, EVENT_MODIFY_STATE },
    [KIND_SEMAPHORE] = { SYNCHRONIZE | SEMAPHORE_MODIFY_STATE, SEMAPHORE_MODIFY_STATE },
    [KIND_MUTEX] = { SYNCHRONIZE, 0 },
    [KIND_TIMER] = { SYNCHRONIZE | TIMER_MODIFY_STATE, TIMER_MODIFY_STATE },
    [KIND_PROCESS] = { SYNCHRONIZE, 0 },
    [KIND_PORT] = { SYNCHRONIZE, 0 },
};

/* The rights for which this access stands, to an object of this kind. */
NTW_INTERNAL DWORD rights_of(enum kind kind, DWORD access)
{
    DWORD rights = access & (SYNCHRONIZE | NT_MODIFY_STATE | THREAD_SET_CONTEXT);
    if ((access & GENERIC_ALL) != 0)
        rights |= rights_of_kinds[kind].all;
    if ((access & GENERIC_WRITE) != 0)
        rights |= rights_of_kinds[kind].write;
    if ((access & GENERIC_EXECUTE) != 0)
        rights |= SYNCHRONIZE;
    return rights;
}

/* ---- A call: the caller joins and takes the lock, makes the call, and gives the lock back. */

/* The caller's seat, with the lock taken; null, with the last error set, where it has none, or can't take the lock. */
NTW_ALWAYS_INLINE struct seat *ntw_begin(void)
{
    struct seat *seat = ntw_join();
    return seat != NULL && __builtin_expect(lock(seat), true) ? seat : NULL;
}

/* What a call answers that was refused. */
__attribute__((noinline, cold)) static BOOL fail_call(struct seat *seat, uint32_t refused)
{
    unlock_and_wake(seat);
    return ntw_fail(refused);
}

/* Gives the lock back, wakes whom the call granted, and answers whether it was accepted. */
NTW_INLINE BOOL ntw_finish(struct seat *seat, uint32_t refused)
{
    if (refused != 0)
        return fail_call(seat, refused);
    note_and_unlock(seat);
    return TRUE;
}

/* The same where the dispatcher was asked nothing, or has refused: what its last call has ended was reported already. */
NTW_INLINE BOOL end_look(struct seat *seat, uint32_t refused)
{
    unlock_and_wake(seat);
    return refused == 0 || ntw_fail(refused);
}

/* The rights that a creation or an opening of this kind asks for. */
NTW_INTERNAL DWORD rights_asked(enum kind kind, DWORD access)
{
    const DWORD full = rights_of_kinds[kind].all;
    return (access & MAXIMUM_ALLOWED) != 0 ? full : rights_of(kind, access) & full;
}

/* The object that this handle names was created, under the lock, and has no name that the program calls it by. */
NTW_INTERNAL void note_made(uint32_t number, const void *place)
{
    struct nt_opened opened;
    if (nt_opened(&waiting.dispatcher, number, &opened) != 0)
        return;
    waiting.made_at[opened.object] = place;
    waiting.minders[opened.object] = 0;
    free(waiting.called[opened.object]);
    waiting.called[opened.object] = NULL;
}

/* Makes the object, under the lock, with a handle that has all rights. */
static uint32_t make_object(const struct seat *seat, const struct wanted *wanted, struct nt_reply *reply)
{
    uint32_t refused;
    if (wanted->make != NULL)
        refused = wanted->make(&waiting.dispatcher, seat->number, wanted->flags, reply);
    else
        refused = nt_create_semaphore(&waiting.dispatcher, seat->number, wanted->initial, wanted->maximum, reply);
    if (refused == 0)
        note_made(reply->number, wanted->place);
    return refused;
}

/* Makes an object with this name, under the lock, with a handle for the program. It is `fresh`, and in the list from now on. */
static uint32_t make_with_name(struct seat *seat, const struct wanted *wanted, struct named *fresh, struct nt_reply *reply)
{
    uint32_t refused = make_object(seat, wanted, reply);
    if (refused != 0)
        return refused;
    fresh->kind = wanted->kind;
    fresh->number = reply->number;
    waiting.kinds[fresh->number] = (uint8_t)wanted->kind;
    refused = open_named(seat, fresh, rights_asked(wanted->kind, wanted->access), reply);
    if (refused != 0) {
        close_number(seat, fresh->number);
        return refused;
    }
    struct named **list = list_of_name(fresh->name);
    fresh->next = *list;
    *list = fresh;
    return 0;
}

/* Makes an object without a name, under the lock, with a handle that has the rights that are asked for. */
static uint32_t make_without_name(struct seat *seat, const struct wanted *wanted, struct nt_reply *reply)
{
    const DWORD rights = rights_asked(wanted->kind, wanted->access);
    uint32_t refused = make_object(seat, wanted, reply);
    if (refused == 0 && rights != rights_of_kinds[wanted->kind].all) {
        const uint32_t first = reply->number;
        refused = nt_duplicate(&waiting.dispatcher, seat->number, first, rights, reply);
        close_number(seat, first);
    }
    if (refused == 0)
        waiting.kinds[reply->number] = (uint8_t)wanted->kind;
    return refused;
}

/* What a creation answers: its handle, with this last error. */
NTW_INTERNAL HANDLE finish_creation(struct seat *seat, uint32_t refused, const struct nt_reply *reply, DWORD error)
{
    HANDLE made = refused == 0 ? give_handle(reply->number) : NULL;
    if (ntw_finish(seat, refused))
        own.last_error = error;
    return made;
}

/* Makes an object with this name, or opens the one that has it. */
static HANDLE create_named(const struct wanted *wanted, struct given_name given)
{
    struct name name;
    struct nt_reply reply;
    uint32_t refused = read_name(given, &name);
    struct named *fresh = refused == 0 ? make_named(&name) : NULL;
    if (fresh == NULL) {
        ntw_fail(refused != 0 ? refused : ERROR_NOT_ENOUGH_MEMORY);
        return NULL;
    }
    struct seat *seat = ntw_begin();
    struct named *named = seat != NULL ? find_named(name.text) : NULL;
    if (named != NULL)
        refused = named->kind != wanted->kind ? ERROR_INVALID_HANDLE
                                              : open_named(seat, named, rights_asked(wanted->kind, wanted->access), &reply);
    else if (seat != NULL)
        refused = make_with_name(seat, wanted, fresh, &reply);
    HANDLE made = seat != NULL ? finish_creation(seat, refused, &reply, named != NULL ? ERROR_ALREADY_EXISTS : ERROR_SUCCESS) : NULL;
    if (made == NULL || named != NULL)
        free(fresh);
    return made;
}

/* An empty name is no name. */
NTW_INTERNAL HANDLE ntw_create(const struct wanted *wanted, struct given_name given)
{
    struct nt_reply reply;
    const bool is_semaphore = wanted->kind == KIND_SEMAPHORE;
    if ((wanted->flags & ~wanted->known_flags) != 0
        || (is_semaphore && (wanted->initial < 0 || wanted->maximum <= 0 || wanted->initial > wanted->maximum))) {
        ntw_fail(ERROR_INVALID_PARAMETER);
        return NULL;
    }
    if (is_named(given))
        return create_named(wanted, given);
    struct seat *seat = ntw_begin();
    if (seat == NULL)
        return NULL;
    return finish_creation(seat, make_without_name(seat, wanted, &reply), &reply, ERROR_SUCCESS);
}
