/* SPDX-License-Identifier: MIT OR Apache-2.0 */
/* ---- Who waits in calls of POSIX, and who holds whom. */
#include "posix.h"

/* The thread that the system has by this number; null where the scheduler knows none. */
static const struct scheduled *thread_of_system(int id)
{
    for (uint32_t i = 0; id != 0 && i < schedule.threads_count; i++)
        if (schedule.threads[i]->id == id)
            return schedule.threads[i];
    return NULL;
}

static bool waits_in(const struct scheduled *it, const char *call)
{
    return it != NULL && it->state == IS_SLEEPING && it->blocked != NULL && strcmp(it->blocked->call, call) == 0;
}

/* Whose end, or lock, it waits for; null where that is nobody's. */
static const struct scheduled *holder_of(const struct scheduled *it)
{
    if (waits_in(it, "pthread_mutex_lock"))
        return thread_of_system(((const pthread_mutex_t *)it->blocked->object)->__data.__owner);
    if (waits_in(it, "pthread_rwlock_rdlock") || waits_in(it, "pthread_rwlock_wrlock"))
        return thread_of_system(((const pthread_rwlock_t *)it->blocked->object)->__data.__cur_writer);
    return waits_in(it, "pthread_join") ? it->blocked->object : NULL;
}

NTW_INTERNAL void write_place_in(struct report *to, const void *place)
{
    struct module module = { .place = (uintptr_t)place - 1 };
    if (place != NULL && dl_iterate_phdr(find_module, &module) != 0)
        ntw_add(to, ", in %s+0x%zx", module.name, (size_t)module.offset);
}

static void write_blocked(struct report *to, const struct scheduled *it)
{
    const struct scheduled *holder = holder_of(it);
    ntw_add(to, "  t%u waits in %s", it->number, it->blocked->call);
    if (waits_in(it, "pthread_join"))
        ntw_add(to, " for t%u", holder->number);
    else if (it->blocked->object != NULL && it->blocked->has_come != has_input)
        ntw_add(to, " for %p", it->blocked->object);
    else if (it->blocked->has_come == has_input)
        add_text(to, " for input");
    if (holder != NULL && !waits_in(it, "pthread_join"))
        ntw_add(to, ", which t%u has", holder->number);
    write_place_in(to, it->blocked->place);
    add_letter(to, '\n');
}

/* Threads that hold each other: who comes back to itself by holders, the least of them by number first. */
static void write_posix_knots(struct report *to)
{
    for (uint32_t i = 0; i < schedule.threads_count; i++) {
        const struct scheduled *first = schedule.threads[i], *it = holder_of(first);
        bool is_least = true;
        uint32_t length = 1;
        for (; it != NULL && it != first && length <= schedule.threads_count; it = holder_of(it), length++)
            is_least &= it->number > first->number;
        if (it != first || !is_least)
            continue;
        ntw_add(to, "  KNOT: t%u", first->number);
        for (it = holder_of(first); it != first; it = holder_of(it))
            ntw_add(to, " t%u", it->number);
        add_text(to, ": none of them ever goes on, whatever the others do\n");
    }
}

static void write_blocked_threads(struct report *to, const char *none)
{
    uint32_t count = 0;
    (void)none;
    for (uint32_t i = 0; i < schedule.threads_count; i++)
        count += schedule.threads[i]->state == IS_SLEEPING && schedule.threads[i]->blocked != NULL;
    if (count == 0)
        return;
    ntw_add(to, "ntwin: %u thread%s in calls of POSIX\n", count, count == 1 ? " waits" : "s wait");
    for (uint32_t i = 0; i < schedule.threads_count; i++)
        if (schedule.threads[i]->state == IS_SLEEPING && schedule.threads[i]->blocked != NULL)
            write_blocked(to, schedule.threads[i]);
    write_posix_knots(to);
}

/* Who waits for what, in calls of both kinds. */
NTW_INTERNAL char *text_of_waits(void)
{
    char *posix = text_written_by(write_blocked_threads, NULL), *why = process.is_open ? text_of_why() : NULL;
    char *both = NULL;
    if (asprintf(&both, "%s%s", posix != NULL ? posix : "", why != NULL ? why : "") < 0)
        both = NULL;
    return both;
}
