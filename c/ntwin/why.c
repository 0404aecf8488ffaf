/* SPDX-License-Identifier: MIT OR Apache-2.0 */
/* ---- Why threads wait, as a text. It is made under the lock. */
#include "../win32/internal.h"

/* What is known of all threads, under the lock. */
static struct {
    bool waits[NT_MANY_THREADS];        /* its wait pends, or it sleeps beside the dispatcher */
    bool over[NT_MANY_THREADS];
    bool knot[NT_MANY_THREADS];         /* threads that hold each other */
    uint32_t waiting, running, held;       /* how many there are */
    struct nt_why why;
    struct stack *stacks;                  /* of those that wait, where that is noted; or null */
    size_t stacks_count, stacks_room;
    uint32_t handles[NT_MAXIMUM_HANDLES];  /* of an object, by its number: a handle that names it, or NO_HANDLE */
} known;

/* ---- Objects. */

static void find_handles(void)
{
    struct nt_opened opened;
    for (uint32_t object = 0; object < NT_MAXIMUM_HANDLES; object++)
        known.handles[object] = NO_HANDLE;
    for (uint32_t number = 0; number < NT_MAXIMUM_HANDLES; number++)
        if (nt_opened(&waiting.dispatcher, number, &opened) == 0
            && (known.handles[opened.object] == NO_HANDLE || waiting.named[number] != NULL))
            known.handles[opened.object] = number;
}

static void write_object(struct report *to, uint32_t number, const struct nt_object *object)
{
    static const char *const kinds[] = { "object ", "event ", "semaphore ", "mutex ", "timer ", "thread " };
    const uint32_t handle = known.handles[number];
    const struct named *named = handle != NO_HANDLE ? waiting.named[handle] : NULL;
    if (object->kind == NT_THREAD && number >= waiting.places) {
        add_text(to, "a thread that has ended");
        return;
    }
    if (object->kind == NT_THREAD) {
        add_text(to, "thread ");
        write_thread(to, number);
        return;
    }
    if (handle != NO_HANDLE && kind_of(handle) == KIND_PROCESS) {
        add_text(to, "the process");
        return;
    }
    add_text(to, handle != NO_HANDLE && kind_of(handle) == KIND_PORT ? "completion port " : kinds[object->kind]);
    if (waiting.called[number] != NULL)
        write_name_of(to, waiting.called[number]);
    else if (named != NULL)
        write_wide_name(to, named->name);
    else if (handle != NO_HANDLE)
        ntw_add(to, "h%u", handle);
    else
        add_text(to, "without a name");
}

/* How long it is to this moment. */
static void write_time_to(struct report *to, uint64_t moment)
{
    const uint64_t now = present(), grain = MOMENTS_PER_SECOND / 1000;
    ntw_add(to, "%llu ms", moment > now ? (unsigned long long)((moment - now + grain - 1) / grain) : 0);
}

static void write_state(struct report *to, const struct nt_object *object)
{
    switch (object->kind) {
    case NT_MUTEX:
        if (!object->owned) {
            add_text(to, object->abandoned ? "free, and abandoned" : "free");
            break;
        }
        add_text(to, "owned by ");
        write_thread(to, object->owner);
        ntw_add(to, ", who owes %u release%s and %s", object->depth, object->depth == 1 ? "" : "s",
                waiting.seats[object->owner].is_gone ? "was canceled" : known.waits[object->owner] ? "waits" : "runs");
        break;
    case NT_SEMAPHORE:
        ntw_add(to, "its count is %d of %d", object->count, object->maximum);
        break;
    case NT_TIMER:
        add_text(to, object->set ? "set" : "not set");
        if (object->armed) {
            add_text(to, ", due in ");
            write_time_to(to, object->due);
        } else {
            add_text(to, ", not armed");
        }
        break;
    default:
        add_text(to, object->set ? "set" : "not set");
    }
}

/* Whether the object is what it is called: the process and a completion port are events, for the dispatcher. */
static bool is_as_called(uint32_t number)
{
    const uint32_t handle = known.handles[number];
    return handle == NO_HANDLE || (kind_of(handle) != KIND_PROCESS && kind_of(handle) != KIND_PORT);
}

/* A line for an object that a wait names. A thread has none. */
static void write_object_line(struct report *to, uint32_t number)
{
    struct nt_object object;
    if (nt_object(&waiting.dispatcher, number, &object) != 0 || object.kind == NT_THREAD || !is_as_called(number))
        return;
    add_text(to, "      ");
    write_object(to, number, &object);
    write_place(to, ", created in ", waiting.made_at[number]);
    add_text(to, ": ");
    write_state(to, &object);
    write_deed(to, number, &object);
    if (object.kind != NT_MUTEX && known.handles[number] == NO_HANDLE)
        add_text(to, ", and no handle names it any more");
    add_letter(to, '\n');
}

/* ---- Threads. */

static void write_names(struct report *to, uint32_t thread, const struct nt_pending_wait *wait)
{
    uint32_t number;
    struct nt_object object;
    add_text(to, wait->count == 0 ? " sleeps" : wait->count == 1 ? " waits for " : wait->all ? " waits for all of " : " waits for any of ");
    for (size_t i = 0; i < wait->count; i++) {
        if (nt_waited_object(&waiting.dispatcher, thread, i, &number) != 0 || nt_object(&waiting.dispatcher, number, &object) != 0)
            return;
        add_text(to, i > 0 ? ", " : "");
        write_object(to, number, &object);
    }
}

/* Makes room for the stacks of those that wait. */
static void make_stacks(struct report *to)
{
    known.stacks_count = 0;
    known.stacks_room = known.waiting < STACKS_AT_MOST ? known.waiting : STACKS_AT_MOST;
    known.stacks = noted != NULL && known.stacks_room > 0 ? malloc(known.stacks_room * sizeof *known.stacks) : NULL;
    if (known.stacks != NULL)
        write_mark(to, MARK_OF_STACKS, (uintptr_t)known.stacks);
}

/* Copies the stack of a thread whose wait pends, for who called there. */
static void write_stack(struct report *to, uint32_t thread)
{
    if (known.stacks == NULL || known.stacks_count == known.stacks_room)
        return;
    take_stack(&waiting.seats[thread], &known.stacks[known.stacks_count]);
    write_mark(to, MARK_OF_STACK, known.stacks_count++);
}

/* A line for a thread whose wait pends, and one for each object of that. */
static void write_pending(struct report *to, uint32_t thread)
{
    struct nt_pending_wait wait;
    uint32_t number;
    if (waiting.seats[thread].is_gone || nt_waits_for(&waiting.dispatcher, thread, &wait) != 0)
        return;
    add_text(to, "  ");
    write_thread(to, thread);
    write_names(to, thread, &wait);
    if (wait.timed) {
        add_text(to, ", for ");
        write_time_to(to, wait.deadline);
        add_text(to, " more at the longest");
    }
    add_text(to, wait.alertable ? ", alertable" : "");
    write_place(to, ", in ", waiting.seats[thread].waits_at);
    write_stack(to, thread);
    add_letter(to, '\n');
    for (size_t i = 0; i < wait.count && nt_waited_object(&waiting.dispatcher, thread, i, &number) == 0; i++)
        write_object_line(to, number);
}

/* Looks at all threads, once it was looked at those that sleep beside the dispatcher. */
static void look_at_threads(void)
{
    known.waiting = known.running = known.held = 0;
    memset(known.waits, 0, sizeof known.waits);
    mark_those_over(known.over);
    if (nt_why(&waiting.dispatcher, known.over, waiting.places, NT_GREATEST_MOMENT, &known.why, known.knot, waiting.places) != 0) {
        known.why = (struct nt_why){ false, false, 0 };
        memset(known.knot, 0, sizeof known.knot);
    }
    for (uint32_t i = 0; i < told_all.count; i++) {
        const struct seat *seat = seat_of_id(told_all.of[i].id);
        if (seat != NULL)
            known.waits[seat->number] = true;
        else
            known.waiting++;
    }
    for (uint32_t i = 0; i < waiting.seated; i++) {
        bool pends = false;
        known.waits[i] |= nt_is_waiting(&waiting.dispatcher, i, &pends) == 0 && pends;
        known.knot[i] &= !known.over[i];
        if (known.over[i])
            continue;
        known.held += known.knot[i];
        known.waiting += known.waits[i];
        known.running += !known.waits[i] && !waiting.seats[i].has_left;
    }
}

/* ---- The verdict. */

static bool has_section_knot(void)
{
    for (uint32_t i = 0; i < told_all.count; i++)
        if (told_all.of[i].owner != 0 && begins_knot(told_all.of[i].id))
            return true;
    return false;
}

static void write_section_knot(struct report *to, DWORD first)
{
    add_text(to, "  KNOT by critical sections: ");
    write_thread_of_id(to, first);
    for (DWORD at = held_by(first); at != first; at = held_by(at)) {
        add_letter(to, ' ');
        write_thread_of_id(to, at);
    }
    add_text(to, ": none of them ever goes on, whatever the others do\n");
}

static void write_knots(struct report *to)
{
    for (uint32_t i = 0; i < told_all.count; i++)
        if (told_all.of[i].owner != 0 && begins_knot(told_all.of[i].id))
            write_section_knot(to, told_all.of[i].id);
    if (known.held > 0) {
        add_text(to, "  KNOT:");
        for (uint32_t i = 0; i < waiting.seated; i++)
            if (known.knot[i]) {
                add_letter(to, ' ');
                write_thread(to, i);
            }
        add_text(to, known.held > 1 ? ": none of them ever goes on, whatever the others do\n" : ": it never goes on, whatever the others do\n");
    }
}

static void write_verdict(struct report *to)
{
    const bool is_tied = known.held > 0 || has_section_knot();
    if (known.waiting == 0) {
        add_text(to, "  nobody waits\n");
    } else if (known.why.stuck) {
        if (known.held < known.waiting)
            add_text(to, "  STUCK: of the threads that have called, none goes on by itself\n");
    } else if (known.why.due && !is_tied) {
        add_text(to, "  NEXT: a timer or a deadline, in ");
        write_time_to(to, known.why.next);
        add_letter(to, '\n');
    } else if (!is_tied) {
        add_text(to, known.running > 0 ? "  NEXT: a call of a thread that runs\n" : "  NEXT: what wakes those that wait beside the dispatcher\n");
    }
    write_knots(to);
}

/* A line for each place beside the dispatcher at which this thread sleeps; null: for each that has no seat. */
static void write_sleeping(struct report *to, const struct seat *seat)
{
    for (uint32_t i = 0; i < told_all.count; i++)
        if (seat_of_id(told_all.of[i].id) == seat) {
            add_text(to, "  ");
            write_told(to, &told_all.of[i], write_thread_of_id);
        }
}

NTW_INTERNAL void write_all(struct report *to)
{
    look_at_threads();
    find_handles();
    make_stacks(to);
    ntw_add(to, "ntwin: %u thread%s wait%s, %u run%s", known.waiting, known.waiting == 1 ? "" : "s", known.waiting == 1 ? "s" : "", known.running,
            known.running == 1 ? "s" : "");
    if (known.held > 1)
        ntw_add(to, ", %u hold each other", known.held);
    add_letter(to, '\n');
    for (uint32_t i = 0; i < waiting.seated; i++) {
        write_pending(to, i);
        write_sleeping(to, &waiting.seats[i]);
    }
    write_sleeping(to, NULL);
    if (!told_all.is_whole)
        add_text(to, "  not all threads could be looked at\n");
    write_verdict(to);
    if (to->failed)
        free(known.stacks);
}
