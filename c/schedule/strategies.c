/* SPDX-License-Identifier: MIT OR Apache-2.0 */
/* ---- Who decides at a point: chance, priorities, or a file. */
#include "internal.h"

static uint32_t any_ready(uint32_t ready)
{
    uint32_t left = (uint32_t)(any_number() % ready), i = 0;
    while (!can_go_on(i) || left-- > 0)
        i++;
    return i;
}

/* The caller is left at a point always, once in 3, in 12, or in 50. Who goes on then is any of those that can. */
static uint32_t by_chance(enum point point, uint32_t usual, const struct stand *stand)
{
    static const uint32_t seldom[] = { 1, 3, 12, 50 };
    if (schedule.is_free && stand->deadline != NEVER && any_number() % 64 == 0)
        return THE_CLOCK;
    if (stand->ready == 0 || (point == AT_CALL && any_number() % seldom[schedule.habit] != 0))
        return usual;
    const uint32_t any = any_ready(stand->ready);
    return point == AT_YIELD && any == me->number ? usual : any;
}

/* Each thread has a priority by chance; that of the caller falls below all others at some points of the run, and as it yields. */
static uint32_t by_priority(enum point point, uint32_t usual, const struct stand *stand)
{
    const struct scheduled *best = NULL;
    for (uint32_t i = 0; i + 1 < schedule.depth && i < MOST_CHANGES; i++)
        if (schedule.changes[i] == schedule.points) {
            me->priority = -(int64_t)(i + 1);
            if (schedule.is_free && stand->deadline != NEVER && any_number() % 4 == 0)
                return THE_CLOCK;
        }
    if (point == AT_YIELD)
        me->priority = --schedule.lowest - MOST_CHANGES;
    for (uint32_t i = 0; i < schedule.threads_count; i++)
        if (can_go_on(i) && (best == NULL || schedule.threads[i]->priority > best->priority))
            best = schedule.threads[i];
    return best != NULL ? best->number : usual;
}

/* ---- By a file. */

static uint32_t first_slot(uint32_t thread, uint32_t ordinal)
{
    return (thread * 0x9E3779B1u + ordinal * 0x85EBCA6Bu) % DECISION_SLOTS;
}

/* What is wanted at the caller's point; null where that is what is usual. */
static const struct decision *wanted_here(void)
{
    for (uint32_t slot = first_slot(me->number, me->ordinal); schedule.wanted_at[slot] != 0; slot = (slot + 1) % DECISION_SLOTS) {
        const struct decision *it = &schedule.shared->wanted[schedule.wanted_at[slot] - 1];
        if (it->thread == me->number && it->ordinal == me->ordinal)
            return it;
    }
    return NULL;
}

/* (In a process that has not done so.) */
NTW_INTERNAL void list_wanted(void)
{
    for (uint32_t i = 0; i < schedule.shared->wanted_count; i++) {
        uint32_t slot = first_slot(schedule.shared->wanted[i].thread, schedule.shared->wanted[i].ordinal);
        while (schedule.wanted_at[slot] != 0)
            slot = (slot + 1) % DECISION_SLOTS;
        schedule.wanted_at[slot] = i + 1;
    }
}

NTW_INTERNAL void put_decision(char text[48], const struct decision *it)
{
    if (it->chosen == THE_CLOCK)
        snprintf(text, 48, "t%u %u clock", it->thread, it->ordinal);
    else
        snprintf(text, 48, "t%u %u t%u", it->thread, it->ordinal, it->chosen);
}

/* The file is of another program, or of one that has changed. */
__attribute__((noreturn)) static void end_unfitting(const struct decision *it, const char *why)
{
    char text[48];
    put_decision(text, it);
    end_run_saying(DOES_NOT_FIT, "%s: the decision '%s' does not fit: %s\n", schedule.file, text, why);
}

/* Answers what the file says, or what is usual where it says nothing. */
static uint32_t by_file(uint32_t usual, bool may_jump)
{
    const struct decision *it = wanted_here();
    if (it == NULL)
        return usual;
    schedule.fitted++;
    if (it->chosen == THE_CLOCK ? may_jump : can_go_on(it->chosen))
        return it->chosen;
    if (schedule.must_fit)
        end_unfitting(it, it->chosen == THE_CLOCK ? "no deadline can come there" : "that thread can't go on there");
    return usual;
}

/* The run ends, and each decision is to have been made. */
NTW_INTERNAL void look_whether_all_fitted(void)
{
    if (!schedule.must_fit || schedule.fitted == schedule.shared->wanted_count)
        return;
    for (uint32_t i = 0; i < schedule.shared->wanted_count; i++) {
        const struct decision *it = &schedule.shared->wanted[i];
        if (it->thread >= schedule.threads_count || schedule.threads[it->thread]->ordinal < it->ordinal) {
            schedule.must_fit = false;
            end_unfitting(it, "the run ends before that");
        }
    }
}

/* ---- All of them. */

/* Answers who goes on, and writes down what was decided. (A file may say something of a point at which there is no choice: it does not fit then.) */
NTW_INTERNAL uint32_t ntw_decide(enum point point, uint32_t usual, const struct stand *stand)
{
    const bool may_jump = schedule.is_free && stand->deadline != NEVER && usual != NO_ONE && usual != THE_CLOCK;
    if (schedule.strategy != BY_FILE && stand->ready + may_jump < 2) {
        if (does_rest(usual))
            leave_run_off();
        return usual;
    }
    uint32_t chosen = schedule.strategy == BY_CHANCE ? by_chance(point, usual, stand)
        : schedule.strategy == BY_PRIORITY ? by_priority(point, usual, stand)
        : schedule.strategy == BY_FILE ? by_file(usual, may_jump) : by_tree(point, usual, may_jump);
    if (schedule.strategy <= BY_PRIORITY && point == AT_CALL && chosen == me->number && ++schedule.in_a_row > MOST_POINTS_IN_A_ROW
        && stand->ready > 1)
        chosen = next_in_turn();
    if (chosen != me->number)
        schedule.in_a_row = 0;
    if (chosen != usual)
        schedule.shared->made[schedule.shared->made_count++] = (struct decision){ (uint16_t)me->number, (uint16_t)chosen, me->ordinal };
    schedule.shared->preemptions += chosen != usual && point == AT_CALL;
    return chosen;
}
