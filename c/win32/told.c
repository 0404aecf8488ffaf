/* SPDX-License-Identifier: MIT OR Apache-2.0 */
/* ---- Why threads wait that sleep beside the dispatcher: for a lock, on a condition variable or an address, at a barrier, for an initialization or for
 * callbacks. A thread that still looks before it sleeps is not named. */
#include "internal.h"

NTW_INTERNAL struct told_all told_all;
NTW_INTERNAL pthread_mutex_t telling = PTHREAD_MUTEX_INITIALIZER;

static struct told *one_more_told(DWORD id)
{
    if (told_all.count == TOLD_AT_MOST) {
        told_all.is_whole = false;
        return NULL;
    }
    struct told *it = &told_all.of[told_all.count++];
    *it = (struct told){ .id = id };
    return it;
}

/* Takes the latch, where it is free within a tenth of a second. */
static bool take_latch_at_last(_Atomic uint32_t *latch)
{
    const struct timespec pause = { .tv_nsec = 1000000 };
    for (int i = 0; i < 100; i++) {
        if (try_latch(latch)) {
            comes_after(latch);
            return true;
        }
        nanosleep(&pause, NULL);
    }
    told_all.is_whole = false;
    return false;
}

static void look_at_sleeper(const struct sleeper *sleeper, struct told *it)
{
    if (sleeper->section != NULL) {
        it->depth = __atomic_load_n(&sleeper->section->RecursionCount, __ATOMIC_RELAXED);
        it->owner = (DWORD)(uintptr_t)__atomic_load_n(&sleeper->section->OwningThread, __ATOMIC_RELAXED);
        snprintf(it->what, sizeof it->what, "waits for the critical section %p", (void *)sleeper->section);
        return;
    }
    const uint32_t state = state_of(ntw_srw_of(sleeper->lock));
    const int length = snprintf(it->what, sizeof it->what, "waits for the SRW lock %p, %s", (void *)sleeper->lock,
                                sleeper->shares ? "to share it" : "to have it alone");
    if ((state & SHARERS) == ALONE)
        snprintf(it->what + length, sizeof it->what - (size_t)length, ": a thread has it alone");
    else if ((state & SHARERS) != 0)
        snprintf(it->what + length, sizeof it->what - (size_t)length, ": %u share it", state & SHARERS);
}

static void look_at_parked(const struct parked *who, struct told *it)
{
    static const char *const words[] = {
        [ON_ADDRESS] = "waits on the address %p",       [ON_VARIABLE] = "sleeps on the condition variable %p",
        [AT_BARRIER] = "waits at the barrier %p",       [FOR_ONCE] = "waits for the one-time initialization %p to be done",
        [FOR_CALLBACKS] = "waits for callbacks to end",
    };
    const char *at = (const char *)(uintptr_t)who->address;
    if (who->why == AT_BARRIER)
        at -= offsetof(struct barrier, rounds);
    snprintf(it->what, sizeof it->what, words[who->why], (const void *)at);
}

/* Looks at all that sleep; each latch is held for that alone. */
NTW_INTERNAL void look_at_sleepers(void)
{
    told_all.count = 0;
    told_all.is_whole = true;
    if (take_latch_at_last(&sleepers.latch)) {
        for (const struct sleeper *at = sleepers.first; at != NULL; at = at->later) {
            struct told *it = one_more_told(at->id);
            if (it != NULL)
                look_at_sleeper(at, it);
        }
        give_latch(&sleepers.latch);
    }
    for (struct parking *parking = parkings; parking != parkings + PARKING_LISTS; parking++) {
        if (atomic_load_explicit(&parking->count, memory_order_relaxed) == 0 || !take_latch_at_last(&parking->latch))
            continue;
        for (const struct parked *at = parking->first; at != NULL; at = at->later) {
            struct told *it = at->why != OF_LIBRARY ? one_more_told(at->id) : NULL;
            if (it != NULL)
                look_at_parked(at, it);
        }
        give_latch(&parking->latch);
    }
}

/* Who owns the critical section that this thread waits for; 0 where it waits for none. */
NTW_INTERNAL DWORD held_by(DWORD id)
{
    for (uint32_t i = 0; i < told_all.count; i++)
        if (told_all.of[i].id == id && told_all.of[i].owner != 0)
            return told_all.of[i].owner;
    return 0;
}

/* Whether each of some threads, this one the lowest of them by its id, waits for a section that the next owns, round to the first. */
NTW_INTERNAL bool begins_knot(DWORD first)
{
    DWORD at = held_by(first);
    for (uint32_t i = 0; i < told_all.count && at != 0 && at != first; i++) {
        if (at < first)
            return false;
        at = held_by(at);
    }
    return at == first;
}

NTW_INTERNAL void write_id(struct report *to, DWORD id)
{
    ntw_add(to, "thread %u", id);
}

NTW_INTERNAL void write_told(struct report *to, const struct told *it, thread_writer *write_thread)
{
    write_thread(to, it->id);
    ntw_add(to, " %s", it->what);
    if (it->owner != 0) {
        add_text(to, ", which ");
        write_thread(to, it->owner);
        ntw_add(to, " owns, %d deep", it->depth);
    }
    add_letter(to, '\n');
}

static void write_knot_of_ids(struct report *to, DWORD first)
{
    ntw_add(to, "by critical sections, none of which is ever left, hold each other: thread %u", first);
    for (DWORD at = held_by(first); at != first; at = held_by(at))
        ntw_add(to, ", %u", at);
    add_letter(to, '\n');
}

/* Writes a line for each thread that sleeps, and for each knot of critical sections. */
NTW_INTERNAL void write_waits(struct report *to, const char *none)
{
    (void)none;
    pthread_mutex_lock(&telling);
    look_at_sleepers();
    for (uint32_t i = 0; i < told_all.count; i++)
        write_told(to, &told_all.of[i], write_id);
    for (uint32_t i = 0; i < told_all.count; i++)
        if (told_all.of[i].owner != 0 && begins_knot(told_all.of[i].id))
            write_knot_of_ids(to, told_all.of[i].id);
    if (!told_all.is_whole)
        add_text(to, "not all threads could be looked at\n");
    pthread_mutex_unlock(&telling);
}
