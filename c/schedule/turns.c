/* SPDX-License-Identifier: MIT OR Apache-2.0 */
/* ---- Threads of a run, who of them can go on, and the time. */
#include "internal.h"

NTW_INTERNAL void wait_for_baton(struct scheduled *it)
{
    while (atomic_load_explicit(&it->baton, memory_order_acquire) == 0)
        (void)AS_OWN(syscall(SYS_futex, &it->baton, FUTEX_WAIT_PRIVATE, 0, NULL, NULL, 0));
    atomic_store_explicit(&it->baton, 0, memory_order_relaxed);
}

NTW_INTERNAL void hand_baton(struct scheduled *it)
{
    atomic_store_explicit(&it->baton, 1, memory_order_release);
    (void)AS_OWN(syscall(SYS_futex, &it->baton, FUTEX_WAKE_PRIVATE, 1, NULL, NULL, 0));
}

/* ---- Threads come. */

NTW_INTERNAL void number_thread(struct scheduled *it)
{
    it->number = schedule.threads_count;
    it->priority = (int64_t)(any_number() >> 2);
    it->since = ++schedule.turns;
    touch(&schedule.threads_count, true);
    schedule.threads[schedule.threads_count++] = it;
    schedule.shared->threads = schedule.threads_count;
    schedule.alive++;
    tell_turns("comes\n");
}

NTW_INTERNAL void end_thread(struct scheduled *it)
{
    it->state = IS_OVER;
    schedule.alive--;
    tell_turns("ends t%u\n", it->number);
}

NTW_INTERNAL struct scheduled *make_thread(void)
{
    const uint32_t number = atomic_fetch_add(&schedule.made_count, 1);
    if (number >= MOST_SCHEDULED)
        end_run_saying(NEVER_ENDS, "more than %d threads were made\n", MOST_SCHEDULED);
    struct scheduled *it = &schedule.made[number];
    it->seat = NO_ONE;
    return it;
}

NTW_INTERNAL struct arrivals arrivals = { .turn = PTHREAD_MUTEX_INITIALIZER, .last = &arrivals.first };

NTW_INTERNAL void admit_arrivals(void)
{
    pthread_mutex_lock(&arrivals.turn);
    for (struct scheduled *it = arrivals.first; it != NULL; it = it->next)
        number_thread(it);
    arrivals.first = NULL;
    arrivals.last = &arrivals.first;
    arrivals.count = 0;
    pthread_mutex_unlock(&arrivals.turn);
}

/* Nobody can go on. Waits for a thread whose beginning was not seen, where the process has more threads than are known. (Of those the caller, which
 * has ended, is one.) */
NTW_INTERNAL bool awaits_arrival(bool caller_has_ended)
{
    const struct timespec pause = { .tv_nsec = 1000000 };
    struct stat tasks;
    for (int i = 0; i < 100; i++) {
        if (arrivals.count > 0)
            return true;
        if (stat("/proc/self/task", &tasks) != 0 || tasks.st_nlink - 2 <= schedule.alive + caller_has_ended)
            return false;
        nanosleep(&pause, NULL);
    }
    return false;
}

/* Where the caller ends, of the rounds of its destructors the last. */
NTW_INTERNAL char ending_rounds[PTHREAD_DESTRUCTOR_ITERATIONS];

/* From now on the caller is this thread, once it has its turn. */
NTW_INTERNAL void take_part(struct scheduled *it)
{
    me = it;
    it->thread = pthread_self();
    it->id = gettid();
    pthread_setspecific(schedule.ending, ending_rounds);
    wait_for_baton(it);
}

/* The caller, whose beginning was not seen, comes as soon as others let it. */
NTW_INTERNAL void come_by_itself(void)
{
    struct scheduled *it = make_thread();
    pthread_mutex_lock(&arrivals.turn);
    *arrivals.last = it;
    arrivals.last = &it->next;
    arrivals.count++;
    pthread_mutex_unlock(&arrivals.turn);
    take_part(it);
}

/* ---- Who can go on. */

NTW_INTERNAL bool can_go_on(uint32_t number)
{
    return number < schedule.threads_count && schedule.threads[number]->state == CAN_GO_ON;
}

/* It can go on from now on. */
NTW_INTERNAL void let_go_on(struct scheduled *it)
{
    it->state = CAN_GO_ON;
    it->since = ++schedule.turns;
}

/* Those for whom has come what they wait for can go on. */
static void look_outside(void)
{
    for (uint32_t i = 0; i < schedule.threads_count; i++) {
        struct scheduled *it = schedule.threads[i];
        if (it->state != IS_SLEEPING || it->until <= schedule.now || !has_come_for(it))
            continue;
        let_go_on(it);
        tell_of_woken(NULL, it, false);
    }
}

/* So can those whose deadline has come. */
NTW_INTERNAL struct stand look_round(void)
{
    struct stand stand = { 0, NEVER };
    look_outside();
    for (uint32_t i = 0; i < schedule.threads_count; i++) {
        struct scheduled *it = schedule.threads[i];
        if (it->state == IS_SLEEPING && it->until <= schedule.now)
            let_go_on(it);
        if (it->state == IS_SLEEPING && it->until < stand.deadline)
            stand.deadline = it->until;
        stand.ready += it->state == CAN_GO_ON;
    }
    return stand;
}

/* Of those that can go on who has waited the longest for that; where no other can, the caller if it can; NO_ONE where there is none. (So no
 * thread waits for good while others come and go.) */
NTW_INTERNAL uint32_t next_in_turn(void)
{
    const struct scheduled *next = NULL;
    for (uint32_t i = 0; i < schedule.threads_count; i++)
        if (i != me->number && can_go_on(i) && (next == NULL || schedule.threads[i]->since < next->since))
            next = schedule.threads[i];
    if (next != NULL)
        return next->number;
    return can_go_on(me->number) ? me->number : NO_ONE;
}

/* Who goes on where nothing is decided: the caller; where it can't, or yields, the next in turn; else the clock. */
NTW_INTERNAL uint32_t usual_choice(enum point point, const struct stand *stand)
{
    if (point == AT_CALL)
        return me->number;
    const uint32_t next = next_in_turn();
    if (next != NO_ONE)
        return next;
    return stand->deadline != NEVER ? THE_CLOCK : NO_ONE;
}
