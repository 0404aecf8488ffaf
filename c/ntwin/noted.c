/* SPDX-License-Identifier: MIT OR Apache-2.0 */
/* ---- What was done last to each object, where NTWIN_WHY asks for that: who set, reset or pulsed an event, released a semaphore, took a mutex. It is
 * noted under the lock, as the calls are looked at (looked.c), and read by a report (why.c). */
#include "internal.h"

/* For what a thread's wait that pends waits, by the objects' own numbers. */
struct awaited {
    bool all;
    uint8_t count;
    uint16_t objects[NT_MAXIMUM_WAIT_OBJECTS];
};

NTW_INTERNAL struct noted *noted;     /* of each object, by its own number; null where nothing is noted. Written before main, */
static struct awaited *awaited; /* as this is: of each thread */

/* Before main. Where memory is refused nothing is noted. */
NTW_INTERNAL void begin_noting(void)
{
    awaited = calloc(NT_MANY_THREADS, sizeof *awaited);
    noted = awaited != NULL ? calloc(NT_MAXIMUM_HANDLES, sizeof *noted) : NULL;
}

/* Notes where the program calls, for a call that may do anything to an object. (In line in that call, so that it knows where that is. It costs one
 * branch where nothing is noted.) */
NTW_ALWAYS_INLINE void note_call(struct seat *caller)
{
    if (__builtin_expect(noted != NULL, false))
        caller->calls_at = __builtin_return_address(0);
}

/* Notes the caller's registers, as its wait begins to pend. (In line in what sleeps: so that frame is there while the wait pends.) */
NTW_ALWAYS_INLINE void note_registers(struct seat *caller)
{
#if defined __x86_64__
    if (noted != NULL)
        __asm__ volatile("movq %%rbx, 16(%0)\n\tmovq %%rbp, 24(%0)\n\tmovq %%r12, 32(%0)\n\tmovq %%r13, 40(%0)\n\tmovq %%r14, 48(%0)\n\t"
                         "movq %%r15, 56(%0)\n\tmovq %%rsp, 8(%0)\n\tleaq 0(%%rip), %%rax\n\tmovq %%rax, 0(%0)"
                         : : "c"(&caller->registers) : "rax", "memory");
#else
    (void)caller;
#endif
}

/* Where the call under way was made, which is asked for once. */
static const void *place_of_call(struct seat *caller)
{
    const void *place = caller->calls_at;
    caller->calls_at = NULL;
    return place;
}

/* What this handle names; null where it names nothing. */
static struct noted *noted_of(uint32_t handle)
{
    struct nt_opened opened;
    return nt_opened(&waiting.dispatcher, handle, &opened) == 0 ? &noted[opened.object] : NULL;
}

/* How many waits the last call ended. */
static uint32_t count_ended(void)
{
    struct nt_told told;
    uint32_t count = 0;
    for (size_t i = 0; waiting.pending != 0 && nt_told(&waiting.dispatcher, i, &told) == 0; i++)
        count += !told.called;
    return count;
}

/* The caller has done this to what the handle names, where it was not refused. (A handler of signals may have done it by another's number.) */
NTW_INTERNAL void note_deed(uint32_t refused, uint32_t handle, enum deed deed, int32_t count)
{
    struct seat *caller = own.seat;
    if (noted == NULL || caller == NULL)
        return;
    const void *place = place_of_call(caller);
    struct noted *it = refused == 0 ? noted_of(handle) : NULL;
    if (it != NULL)
        *it = (struct noted){ .place = place, .when = coarsely(), .began = caller->life.began, .thread = (uint16_t)caller->number, .deed = deed,
                              .was_awaited = it->waiters > 0, .ended = count_ended(), .count = count, .waiters = it->waiters };
}

/* The same for what SignalObjectAndWait signals, by the kind of that. (Of a mutex it is noted who takes it.) */
NTW_INTERNAL void note_signal(uint32_t refused, uint32_t handle)
{
    struct nt_opened opened;
    struct nt_object object;
    if (noted == NULL || refused != 0 || nt_opened(&waiting.dispatcher, handle, &opened) != 0
        || nt_object(&waiting.dispatcher, opened.object, &object) != 0 || own.seat == NULL)
        return;
    const void *place = own.seat->calls_at;
    if (object.kind == NT_EVENT)
        note_deed(0, handle, WAS_SET, 0);
    else if (object.kind == NT_SEMAPHORE)
        note_deed(0, handle, WAS_RELEASED, 1);
    own.seat->calls_at = place;
}

/* An object was created: nothing was done to it yet. */
NTW_INTERNAL void note_creation(uint32_t handle)
{
    struct noted *it = noted != NULL ? noted_of(handle) : NULL;
    if (it != NULL)
        *it = (struct noted){ 0 };
}

/* The thread's wait, which was called here, may have taken this object: it has, if that is a mutex which it did not own before. */
static void note_taking(uint32_t thread, uint32_t number, const void *place)
{
    struct nt_object object;
    if (nt_object(&waiting.dispatcher, number, &object) != 0 || object.kind != NT_MUTEX || !object.owned || object.owner != thread
        || object.depth != 1)
        return;
    struct noted *it = &noted[number];
    *it = (struct noted){ .place = place, .when = coarsely(), .began = waiting.seats[thread].life.began, .thread = (uint16_t)thread, .deed = WAS_TAKEN,
                          .waiters = it->waiters };
}

/* Which objects a wait for these ended with, by its status: from the first on to before the last. */
static struct range {
    uint32_t first, last;
} taken_by(uint32_t status, bool all, uint32_t count)
{
    const uint32_t index = status - (status < NT_WAIT_ABANDONED_0 ? NT_WAIT_OBJECT_0 : NT_WAIT_ABANDONED_0);
    if (index >= count)
        return (struct range){ 0, 0 };
    return all ? (struct range){ 0, count } : (struct range){ index, index + 1 };
}

/* The caller's wait pends. */
static void note_pending(uint32_t thread)
{
    struct nt_pending_wait wait;
    struct awaited *it = &awaited[thread];
    uint32_t number;
    it->count = 0;
    if (nt_waits_for(&waiting.dispatcher, thread, &wait) != 0)
        return;
    it->all = wait.all;
    for (size_t i = 0; i < wait.count && nt_waited_object(&waiting.dispatcher, thread, i, &number) == 0; i++) {
        it->objects[it->count++] = (uint16_t)number;
        noted[number].waiters++;
    }
}

/* The caller's wait for what these handles name was refused, or answered so. */
NTW_INTERNAL void note_answer(uint32_t refused, uint32_t thread, const uint32_t *handles, size_t count, bool all, const struct nt_reply *reply)
{
    struct nt_opened opened;
    if (noted == NULL)
        return;
    const void *place = place_of_call(&waiting.seats[thread]);
    if (refused != 0)
        return;
    if (reply->kind == NT_PENDED) {
        note_pending(thread);
        return;
    }
    const struct range taken = taken_by(reply->number, all, (uint32_t)count);
    for (uint32_t i = taken.first; i < taken.last; i++)
        if (waiting.kinds[handles[i]] == KIND_MUTEX && nt_opened(&waiting.dispatcher, handles[i], &opened) == 0)
            note_taking(thread, opened.object, place);
}

/* This thread's wait, which pended, has ended with this status. */
static void note_end(uint32_t thread, uint32_t status)
{
    struct awaited *it = &awaited[thread];
    const struct range taken = taken_by(status, it->all, it->count);
    for (uint32_t i = 0; i < it->count; i++)
        noted[it->objects[i]].waiters--;
    for (uint32_t i = taken.first; i < taken.last; i++)
        note_taking(thread, it->objects[i], waiting.seats[thread].waits_at);
    it->count = 0;
}

/* The last call, or tick, may have ended waits. */
NTW_INTERNAL void note_ends(void)
{
    struct nt_told told;
    for (size_t i = 0; noted != NULL && waiting.pending != 0 && nt_told(&waiting.dispatcher, i, &told) == 0; i++)
        if (!told.called)
            note_end(told.thread, told.status);
}
