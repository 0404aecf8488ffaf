/* SPDX-License-Identifier: MIT OR Apache-2.0 */
/* ---- The tree of choices, gone through depth first: a run for each path. It costs 1 to leave a thread that could go on, to choose another than the
 * usual one where a thread yields, and to let a deadline come early. All paths of a cost within a bound are tried, for the bounds 0, 1, .. Where
 * there is no bound, paths are left off by sleep sets (sleep_sets.c); with a bound too that would leave off runs that fail. */
#include "internal.h"

NTW_INTERNAL struct tree *tree;

static uint64_t mask_of_ready(bool may_jump)
{
    uint64_t mask = (uint64_t)may_jump << IN_MASK;
    for (uint32_t i = 0; i < schedule.threads_count && i < IN_MASK; i++)
        mask |= (uint64_t)can_go_on(i) << i;
    return mask;
}

static uint32_t cost_of(enum point point, uint32_t usual, uint32_t chosen)
{
    return chosen != usual && (point == AT_CALL || point == AT_YIELD || chosen == THE_CLOCK);
}

static uint64_t mask_of_resting(void)
{
    uint64_t mask = 0;
    for (uint32_t i = 0; i < schedule.threads_count && i < IN_MASK; i++)
        mask |= (uint64_t)(does_rest(i) && can_go_on(i)) << i;
    return mask;
}

/* The usual one, or where that rests the first by number that does not. The run is left off where there is none. */
static uint32_t first_awake(enum point point, uint32_t usual, uint64_t awake)
{
    if ((awake >> usual & 1) != 0)
        return usual;
    if (point == AT_YIELD)
        awake &= ~(UINT64_C(1) << me->number);
    if (awake == 0)
        leave_run_off();
    const uint32_t first = (uint32_t)__builtin_ctzll(awake);
    return first == IN_MASK ? THE_CLOCK : first;
}

/* The steps that were tried at this choice rest from now on. */
static void let_tried_rest(uint32_t at)
{
    static uint32_t next;
    for (; next < tree->tried_count && tree->tried[next].at <= at; next++)
        let_rest(tree->tried[next].thread, &tree->tried[next].touched);
}

/* What was asked for at this choice, or what is usual past those; and the choice is noted. (A run that comes to another choice than the one before it
 * did depends on more than its schedule.) */
NTW_INTERNAL uint32_t by_tree(enum point point, uint32_t usual, bool may_jump)
{
    const uint64_t ready = mask_of_ready(may_jump), resting = mask_of_resting();
    struct node *node = &tree->nodes[tree->count];
    if (schedule.threads_count > IN_MASK)
        end_run_saying(CANT_BE_EXPLORED, "it has more than %d threads\n", IN_MASK);
    if (tree->count == MOST_NODES) {
        tree->is_cut = true;
        return usual;
    }
    if (tree->count < tree->prefix && (node->ready != ready || node->came != me->number))
        end_run_saying(CANT_BE_EXPLORED, "it is another run each time: at choice %u t%u came, and t%u before\n", tree->count, me->number, node->came);
    const uint32_t chosen = tree->count < tree->prefix ? tree->asked[tree->count] : first_awake(point, usual, ready & ~resting);
    *node = (struct node){ ready, resting, (uint16_t)me->number, (uint16_t)usual, (uint16_t)chosen, (uint8_t)point, schedule.spent,
                           { .is_all = true } };
    schedule.step = notes_touches && chosen != THE_CLOCK ? &node->touched : NULL;
    let_tried_rest(tree->count);
    schedule.spent += cost_of(point, usual, chosen);
    tree->count++;
    return chosen;
}

/* ---- From run to run. */

/* The choice that comes after this one: the usual one is the first, then the others by number, and the clock, but for those that rest; NO_ONE where
 * there is none. */
static uint32_t choice_after(const struct node *node, uint32_t chosen)
{
    const uint64_t awake = node->ready & ~node->resting;
    for (uint32_t i = chosen == node->usual ? 0 : chosen == THE_CLOCK ? IN_MASK + 1 : chosen + 1; i <= IN_MASK; i++) {
        const uint32_t choice = i == IN_MASK ? THE_CLOCK : i;
        if ((awake >> i & 1) != 0 && choice != node->usual && !(node->point == AT_YIELD && i == node->came))
            return choice;
    }
    return NO_ONE;
}

/* The same, of a cost within the bound. */
static uint32_t choice_within(const struct node *node, uint32_t chosen, uint32_t bound)
{
    do
        chosen = choice_after(node, chosen);
    while (chosen != NO_ONE && node->spent + cost_of((enum point)node->point, node->usual, chosen) > bound);
    return chosen;
}

/* ---- A part of a search: of the paths' beginnings, this many choices long, each part goes on with those whose turn it is. */

enum { BEGINNING = 5 };

static uint64_t beginnings; /* how many came before that of this path */

static bool is_of_this_part(void)
{
    return schedule.parts == 0 || beginnings % schedule.parts == schedule.part;
}

/* The step that was chosen at this choice was tried, and of those at later choices nothing is left. (Where there is no room it rests nowhere.) */
static void note_tried(uint32_t at)
{
    const struct node *node = &tree->nodes[at];
    while (tree->tried_count > 0 && tree->tried[tree->tried_count - 1].at > at)
        tree->tried_count--;
    if (schedule.leaves_off && node->chosen != THE_CLOCK && tree->tried_count < MOST_TRIED)
        tree->tried[tree->tried_count++] = (struct tried){ at, node->chosen, node->touched };
}

/* Asks for the next path of a cost within the bound. False where the last run was the last one. */
static bool ask_for_next(uint32_t bound)
{
    for (uint32_t at = is_of_this_part() || tree->count < BEGINNING ? tree->count : BEGINNING; at-- > 0;) {
        const uint32_t next = choice_within(&tree->nodes[at], tree->nodes[at].chosen, bound);
        if (next == NO_ONE)
            continue;
        for (uint32_t i = 0; i < at; i++)
            tree->asked[i] = tree->nodes[i].chosen;
        note_tried(at);
        tree->asked[at] = (uint16_t)next;
        tree->prefix = at + 1;
        beginnings += at < BEGINNING;
        return true;
    }
    return false;
}

static uint32_t bound_of_share;

/* Of all paths the share that is done, if each choice leads to as many. */
static double share_of_tree(void)
{
    double share = 0, all = 1;
    for (uint32_t at = 0; at < tree->count; at++) {
        const struct node *node = &tree->nodes[at];
        uint32_t choices = 1, before = 0;
        for (uint32_t it = node->usual; (it = choice_within(node, it, bound_of_share)) != NO_ONE; choices++)
            before = it == node->chosen ? choices : before;
        all /= choices;
        share += all * before;
    }
    return share;
}

/* How far a search came. */
struct exploration {
    uint64_t runs, of_bound, longest, began;
    uint64_t left_off, failed; /* how many were begun and left off; and where it goes on then, how many fail */
    int ends;                  /* to which it is written how each ended; or less than 0 */
};

/* How many of these runs fail, in words. */
static const char *words_of_failed(const struct exploration *search, char words[40])
{
    snprintf(words, 40, search->failed == 0 ? "none fails" : "%llu of them fail", (unsigned long long)search->failed);
    return words;
}

__attribute__((noreturn)) static void meet_bound(const struct exploration *search, const char *what, uint32_t bound)
{
    char whole[48] = "", failed[40];
    end_progress();
    if (bound != MOST_BOUND)
        snprintf(whole, sizeof whole, "; none of a cost below %u was left out", bound);
    dprintf(1, "ntwin: explore: %llu runs, %s, and then %s%s; %.2f s\n", (unsigned long long)search->runs, words_of_failed(search, failed), what,
            whole, seconds_since(search->began));
    _exit(BOUND_MET);
}

/* The run has come to each choice that was asked for, if it depends on its schedule alone. */
static void look_whether_asked(void)
{
    if ((schedule.shared->verdict != ENDED_WELL && schedule.shared->verdict != LEFT_OFF) || tree->count >= tree->prefix)
        return;
    schedule.shared->verdict = CANT_BE_EXPLORED;
    snprintf(schedule.shared->text, sizeof schedule.shared->text, "it is another run each time: it had %u choices, and %u before\n", tree->count,
             tree->prefix);
}

/* A run has ended, which is one of this part. */
static void note_run(struct exploration *search)
{
    look_whether_asked();
    const uint32_t verdict = schedule.shared->verdict;
    if (verdict == LEFT_OFF) {
        search->left_off++;
        return;
    }
    search->runs++;
    search->of_bound++;
    search->failed += verdict != ENDED_WELL;
    if (schedule.shared->steps > search->longest)
        search->longest = schedule.shared->steps;
    if (verdict != ENDED_WELL && (search->ends < 0 || verdict == CANT_BE_EXPLORED))
        tell_failure("explore", search->runs, search->began);
    if (search->ends >= 0)
        write_end(search->ends);
}

/* Tries all schedules of a cost within the bound. */
static void explore_bound(struct exploration *search, uint32_t bound)
{
    char cost[32] = "", failed[40];
    tree->prefix = tree->tried_count = 0;
    search->of_bound = beginnings = 0;
    bound_of_share = bound;
    do {
        if (search->runs == schedule.count || real_ns() >= schedule.until)
            meet_bound(search, search->runs == schedule.count ? "as many were made as may be" : "the minutes were over", bound);
        tree->count = 0;
        make_run(false);
        tell_progress(search->runs, search->longest, share_of_tree);
        if (is_of_this_part())
            note_run(search);
    } while (ask_for_next(bound));
    end_progress();
    if (bound != MOST_BOUND)
        snprintf(cost, sizeof cost, " of a cost within %u", bound);
    dprintf(1, "ntwin: explore: all %llu schedules%s, %s%s; %llu steps in the longest, %.2f s\n", (unsigned long long)search->of_bound, cost,
            words_of_failed(search, failed), tree->is_cut ? " (some were too long to be varied to their ends)" : "",
            (unsigned long long)search->longest, seconds_since(search->began));
}

/* Where the ends of runs are written. Less than 0 where that was not asked for. */
static int open_ends(void)
{
    const int ends = schedule.ends[0] != 0 ? beyond_streams(open(schedule.ends, O_WRONLY | O_CREAT | O_TRUNC | O_CLOEXEC, 0666)) : -1;
    if (schedule.ends[0] != 0 && ends < 0)
        ntw_refuse("ntwin: NTWIN_SCHEDULE: %s: %s", schedule.ends, strerror(errno));
    return ends;
}

/* What the schedules are that were made, where a bound brings no further one. */
static void tell_whole(const struct exploration *search)
{
    if (search->left_off > 0)
        dprintf(1, "ntwin: explore: each other schedule is one of these, but for the order of steps that touch nothing in common\n");
    else
        dprintf(1, "ntwin: explore: these are all schedules\n");
}

/* Tries them for each bound up to this one, or at once for the greatest, and in parts. Where a bound brings no further schedule there is none. */
__attribute__((noreturn)) NTW_INTERNAL void explore(uint32_t bound)
{
    struct exploration search = { .began = real_ns(), .ends = open_ends() };
    uint64_t before = 0;
    schedule.leaves_off = schedule.leaves_off && begin_leaving_off();
    for (uint32_t i = bound == MOST_BOUND || schedule.parts > 0 ? bound : 0; i <= bound; i++) {
        explore_bound(&search, i);
        if ((search.of_bound == before || i == MOST_BOUND) && !tree->is_cut && schedule.parts == 0) {
            tell_whole(&search);
            break;
        }
        before = search.of_bound;
    }
    _exit(search.failed > 0 ? HAS_FAILED : 0);
}
