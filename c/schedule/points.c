/* SPDX-License-Identifier: MIT OR Apache-2.0 */
/* ---- What the library asks of the scheduler (hooks.h). */
#include "internal.h"
#include <execinfo.h>

/* ---- Steps, written where that was asked for: the number of the step, the time, the thread, which of its points that is, why it came there, and who
 * goes on; then where in the program it was called, and with `@` in which library, the innermost first. */

NTW_INTERNAL int find_module(struct dl_phdr_info *info, size_t size, void *at)
{
    struct module *module = at;
    (void)size;
    if (!ntw_is_in(info, module->place))
        return 0;
    module->offset = module->place - info->dlpi_addr;
    module->name = info->dlpi_name[0] != 0 ? info->dlpi_name : program_invocation_name;
    return 1;
}

static int put_frame(char *to, size_t room, const void *frame)
{
    struct module module = { .place = (uintptr_t)frame - 1 };
    if (dl_iterate_phdr(find_module, &module) == 0)
        return 0;
    if (strstr(module.name, ".so") == NULL)
        return snprintf(to, room, " %zx", (size_t)module.offset);
    return snprintf(to, room, " @%s+%zx", module.name, (size_t)module.offset);
}

__attribute__((noinline)) static void write_step(enum point point, uint32_t chosen)
{
    static const char why[] = { [AT_CALL] = 'c', [AT_YIELD] = 'y', [AT_SLEEP] = 's', [AT_END] = 'e' };
    enum { FRAMES = 20, LONGEST_FRAME = 300 };
    void *frames[FRAMES];
    char line[128 + FRAMES * LONGEST_FRAME];
    const int count = backtrace(frames, FRAMES);
    int length = snprintf(line, sizeof line, "%llu %llu t%u %u %c ", (unsigned long long)schedule.shared->steps, (unsigned long long)schedule.now,
                          me->number, me->ordinal, why[point]);
    length += snprintf(line + length, sizeof line - (size_t)length, chosen == THE_CLOCK ? "clock" : chosen == NO_ONE ? "nobody" : "t%u", chosen);
    for (int i = 0; i < count; i++) {
        const int more = put_frame(line + length, LONGEST_FRAME, frames[i]);
        length += more < LONGEST_FRAME ? more : 0;
    }
    line[length++] = '\n';
    write_to(&schedule.trace, line, (size_t)length);
}

/* ---- The baton goes on. */

/* The next deadline comes: the time is no less than that. */
static void jump(uint64_t deadline)
{
    if (deadline > schedule.now)
        schedule.now = deadline;
    me->ordinal++;
    stop_resting();
}

/* The run ends here, and who waits for what is written. */
__attribute__((noreturn)) static void end_waiting(enum verdict verdict)
{
    if (verdict == HANGS)
        tell_turns("hangs\n");
    look_whether_all_fitted();
    end_run(verdict, text_of_waits());
}

/* The caller is at a point. Answers who goes on; null where it was the last thread, and has ended. */
static struct scheduled *choose(enum point point)
{
    end_step(point);
    me->ordinal++;
    schedule.points++;
    me->seat = own.seat != NULL ? own.seat->number : me->seat;
    for (;;) {
        if (arrivals.count > 0)
            admit_arrivals();
        const struct stand stand = look_round();
        const uint32_t usual = usual_choice(point, &stand);
        const bool is_last = point == AT_END && schedule.alive == 0;
        if (usual == NO_ONE && !is_last && (awaits_arrival(point == AT_END) || awaits_outside()))
            continue;
        const uint32_t chosen = ntw_decide(point, usual, &stand);
        if (schedule.trace.number >= 0 && schedule.shared->steps >= schedule.trace_from)
            write_step(point, chosen);
        if (chosen == THE_CLOCK)
            jump(stand.deadline);
        tell_of_turn(point, chosen, chosen != usual);
        if (chosen == NO_ONE && !is_last)
            end_waiting(HANGS);
        if (schedule.shared->made_count == MOST_DECISIONS)
            end_waiting(NEVER_ENDS);
        if (chosen != THE_CLOCK)
            return chosen != NO_ONE ? schedule.threads[chosen] : NULL;
    }
}

NTW_INTERNAL void hand_on(enum point point)
{
    struct scheduled *mine = me;
    mine->is_choosing = true;
    struct scheduled *next = choose(point);
    if (next != mine) {
        mine->since = ++schedule.turns;
        hand_baton(next);
        wait_for_baton(mine);
    }
    mine->is_choosing = false;
}

/* ---- Calls. */

/* Whether what the caller does is none of the scheduler's: it has ended, or is a handler of signals that has interrupted a point of its thread. */
NTW_INTERNAL bool is_apart(void)
{
    return is_beyond || (me != NULL && me->is_choosing);
}

__attribute__((noinline, cold)) NTW_INTERNAL void come_in(void)
{
    const int error = errno;
    if (!is_apart() && me == NULL)
        come_by_itself();
    touch_numbers();
    errno = error;
}

/* Time passes with a step: the more, the longer the caller does nothing but yield, or look at the time. */
static void pass_step(enum point point)
{
    enum { MOST_DOUBLINGS = 20 };
    me->idles = point == AT_YIELD ? me->idles + 1 : 0;
    if (schedule.is_still && me->idles == 0)
        return;
    const uint64_t units = (uint64_t)STEP_TAKES << (me->idles < MOST_DOUBLINGS ? me->idles : MOST_DOUBLINGS);
    schedule.now += units;
    tell_turns("passes %llu\n", (unsigned long long)units);
}

/* The caller comes to a point for this object, or null, and may touch anything from there on or not. False where that is no point of the run. */
static bool come_for(enum point point, const volatile void *object, bool touches_all)
{
    const int error = errno;
    if (is_apart())
        return false;
    if (me == NULL)
        come_by_itself();
    if (me->skips > 0) {
        me->skips--;
        return false;
    }
    me->object = object;
    me->touches_all = touches_all;
    pass_step(point);
    if (++schedule.shared->steps > schedule.most_steps)
        end_waiting(NEVER_ENDS);
    hand_on(point);
    touch_own();
    errno = error;
    return true;
}

__attribute__((noinline, cold)) NTW_INTERNAL void come_to(enum point point)
{
    come_for(point, NULL, point == AT_CALL);
}

__attribute__((noinline, cold)) NTW_INTERNAL void come_to_object(const volatile void *object)
{
    come_for(AT_CALL, object, false);
}

__attribute__((noinline, cold)) NTW_INTERNAL void come_to_seen(const volatile void *object)
{
    touch(object, true);
    come_for(AT_CALL, object, false);
}

__attribute__((noinline, cold)) NTW_INTERNAL void come_to_dispatcher(void)
{
    if (come_for(AT_CALL, NULL, false))
        schedule.is_unsaid = true;
}

__attribute__((noinline, cold)) NTW_INTERNAL void come_to_clock(void)
{
    const uint32_t idles = me != NULL ? me->idles : 0;
    come_to(AT_CALL);
    if (is_apart())
        return;
    me->idles = idles;
    pass_step(AT_YIELD);
}

/* The system's clock, in units of 100 ns. */
NTW_INTERNAL uint64_t real_moment(void)
{
    struct timespec now;
    clock_gettime(CLOCK_MONOTONIC, &now);
    return in_moments(&now);
}

__attribute__((noinline, cold)) NTW_INTERNAL uint64_t scheduled_time(void)
{
    return schedule.ended == 0 ? schedule.now : schedule.now + (real_moment() - schedule.ended);
}

/* The process ends: the caller takes no turns any longer, and the time goes on by the system's clock. */
NTW_INTERNAL void leave_turns(void)
{
    if (!is_scheduled || schedule.makes)
        return;
    is_beyond = true;
    schedule.ended = real_moment();
}

/* ---- Sleeps. */

__attribute__((noinline, cold)) NTW_INTERNAL void sleep_scheduled(const _Atomic uint32_t *word, uint32_t seen, const struct timespec *until, uint32_t bits)
{
    const int error = errno;
    if (is_apart()) {
        sched_yield();
        return;
    }
    if (me == NULL)
        come_by_itself();
    touch(word, true);
    if (atomic_load_explicit(word, memory_order_acquire) == seen) {
        me->state = IS_SLEEPING;
        me->word = word;
        me->bits = bits;
        me->until = until != NULL ? in_moments(until) : NEVER;
        me->slept = ++schedule.sleeps;
        tell_of_sleep(me);
        hand_on(AT_SLEEP);
        me->word = NULL;
        touch(word, true);
        touch_own();
    }
    errno = error;
}

/* Wakes those that fell asleep first. Answers how many. (A futex may be woken that nobody sleeps on now, and that is memory of something else by
 * now.) */
__attribute__((noinline, cold)) NTW_INTERNAL int wake_scheduled(const void *word, int count, uint32_t bits)
{
    int woken = 0;
    touch(word, true);
    for (; woken < count; woken++) {
        struct scheduled *first = NULL;
        for (uint32_t i = 0; i < schedule.threads_count; i++) {
            struct scheduled *it = schedule.threads[i];
            if (it->state == IS_SLEEPING && it->word == word && (it->bits & bits) != 0 && (first == NULL || it->slept < first->slept))
                first = it;
        }
        tell_of_woken(word, first, bits == FUTEX_BITSET_MATCH_ANY);
        if (first == NULL)
            break;
        first->was_woken = true;
        let_go_on(first);
    }
    return woken;
}

/* ---- Threads. */

/* A thread for this seat is about to be made. It can go on from now on. */
__attribute__((noinline, cold)) NTW_INTERNAL void schedule_thread(const struct seat *seat)
{
    struct scheduled *it = make_thread();
    number_thread(it);
    it->seat = seat->number;
    if (has_points())
        tell_before(it);
}

/* The last thread that was to run in this seat. */
static struct scheduled *thread_in(uint32_t seat)
{
    for (uint32_t i = schedule.threads_count; i-- > 0;)
        if (schedule.threads[i]->seat == seat)
            return schedule.threads[i];
    return NULL;
}

/* It could not be made. */
__attribute__((noinline, cold)) NTW_INTERNAL void unschedule_thread(const struct seat *seat)
{
    end_thread(thread_in(seat->number));
}

/* The caller is that thread. (To begin is its first point, and what it calls then is none.) */
__attribute__((noinline, cold)) NTW_INTERNAL void begin_scheduled(const struct seat *seat)
{
    struct scheduled *it = thread_in(seat->number);
    it->skips = 1;
    take_part(it);
    touch_object(seat->number);
    begin_in_memory(it);
}

/* The caller ends, in the last round of its destructors: what those of the program call is scheduled, too. (In a child that was forked nothing is: the
 * threads that it knows of are not there.) */
NTW_INTERNAL void end_scheduled(void *round)
{
    char *next = (char *)round + 1;
    if (!is_scheduled || me == NULL || (next < ending_rounds + sizeof ending_rounds && pthread_setspecific(schedule.ending, next) == 0))
        return;
    end_thread(me);
    if (has_points())
        tell_before(me); /* (A sanitizer's runtime has left the thread by now, and knows joins itself.) */
    wake_scheduled(me, INT_MAX, FUTEX_BITSET_MATCH_ANY);
    me->is_choosing = true;
    struct scheduled *after = choose(AT_END);
    is_beyond = true;
    if (after != NULL)
        hand_baton(after);
}

/* As the report numbers the thread of this seat. */
NTW_INTERNAL uint32_t scheduled_number(uint32_t seat)
{
    const struct scheduled *it = is_scheduled ? thread_in(seat) : NULL;
    return it != NULL ? it->number : seat;
}

__attribute__((noinline, cold)) NTW_INTERNAL void end_with_knot(char *text)
{
    look_whether_all_fitted();
    end_run(TIES_KNOT, text);
}

/* In a child that the program forks, which has one thread: nothing is scheduled from now on, and the time goes on from where it is. */
NTW_INTERNAL void leave_schedule(void)
{
    if (!is_scheduled || schedule.makes)
        return;
    is_scheduled = false;
    process.start = monotonic() - (schedule.now - process.start);
}
