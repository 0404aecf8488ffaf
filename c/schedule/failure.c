/* SPDX-License-Identifier: MIT OR Apache-2.0 */
/* ---- A run has failed. Its decisions are left out, by halves, quarters, .. and one by one, as long as it fails in the same way; the shortest run is
 * made once again, and reported. */
#include "../win32/internal.h"
#include "internal.h"

enum { MOST_TRIES = 400, MOST_TOLD = 40, MOST_TRACED = 1000 };

/* How it failed. */
struct failure {
    uint32_t verdict, decisions, preemptions;
    int status;
};

/* The decisions with which it still fails. */
static struct decision *kept;
static uint32_t kept_count;

static void keep_decisions(void)
{
    kept_count = schedule.shared->made_count;
    memcpy(kept, schedule.shared->made, kept_count * sizeof *kept);
}

static bool fails_so(uint32_t verdict, const struct failure *failure)
{
    return verdict == failure->verdict && (verdict != ENDS_BADLY || maker.status == failure->status);
}

/* Asks for those that are kept, but a number of them from one on. */
static void want_without(uint32_t from, uint32_t count)
{
    memcpy(schedule.shared->wanted, kept, from * sizeof *kept);
    memcpy(schedule.shared->wanted + from, kept + from + count, (kept_count - from - count) * sizeof *kept);
    schedule.shared->wanted_count = kept_count - count;
}

/* Answers how many runs that took. */
static uint32_t shorten(const struct failure *failure)
{
    uint32_t tries = 0;
    keep_decisions();
    for (uint32_t size = (kept_count + 1) / 2; size > 0; size = size > 1 ? (size + 1) / 2 : 0)
        for (uint32_t from = 0; from < kept_count && tries < MOST_TRIES; tries++) {
            const uint32_t count = from + size <= kept_count ? size : kept_count - from;
            want_without(from, count);
            if (fails_so(make_run(false), failure))
                keep_decisions();
            else
                from += count;
        }
    return tries;
}

/* What the last run wrote. */
static void copy_output(int to)
{
    char part[4096];
    ssize_t length;
    lseek(maker.output, 0, SEEK_SET);
    while ((length = read(maker.output, part, sizeof part)) > 0)
        (void)!write(to, part, (size_t)length);
}

static void tell_output(void)
{
    dprintf(1, "ntwin: what it wrote:\n");
    copy_output(1);
}

static void write_how(int to, uint32_t verdict, int status)
{
    dprintf(to, "%s", words_of(verdict));
    if (verdict == ENDS_BADLY && WIFSIGNALED(status))
        dprintf(to, ": signal %d (%s)", WTERMSIG(status), strsignal(WTERMSIG(status)));
    else if (verdict == ENDS_BADLY)
        dprintf(to, ": exit status %d", WEXITSTATUS(status));
    dprintf(to, "\n");
}

/* How the last run ended, in a line after a `;`, and what it wrote. */
NTW_INTERNAL void write_end(int to)
{
    dprintf(to, "; ");
    write_how(to, schedule.shared->verdict, maker.status);
    copy_output(to);
}

static void tell_verdict(const char *name, uint64_t number, const struct failure *failure)
{
    dprintf(1, "ntwin: schedule %llu, %s, ", (unsigned long long)number, name);
    write_how(1, failure->verdict, failure->status);
}

static void tell_decisions(void)
{
    char text[48];
    if (schedule.shared->made_count == 0)
        dprintf(1, "  decisions: none, so it fails as the scheduler goes by itself\n");
    for (uint32_t i = 0; i < schedule.shared->made_count && i < MOST_TOLD; i++) {
        put_decision(text, &schedule.shared->made[i]);
        dprintf(1, "  decision: %s\n", text);
    }
    if (schedule.shared->made_count > MOST_TOLD)
        dprintf(1, "  and %u decisions more\n", schedule.shared->made_count - MOST_TOLD);
}

/* Opens the file of steps, where one was asked for. */
NTW_INTERNAL void begin_trace(void)
{
    schedule.trace_from = schedule.shared->steps > MOST_TRACED ? schedule.shared->steps - MOST_TRACED : 0;
    if (schedule.traced[0] != 0)
        schedule.trace = open_output(schedule.traced, 0);
    if (schedule.traced[0] != 0 && schedule.trace.number < 0)
        say_unwritten(schedule.traced);
}

/* The run of this name, which is this one of all, has failed. */
__attribute__((noreturn)) NTW_INTERNAL void tell_failure(const char *name, uint64_t number, uint64_t began)
{
    const struct failure failure = { schedule.shared->verdict, schedule.shared->made_count, schedule.shared->preemptions, maker.status };
    const double seconds = seconds_since(began);
    end_progress();
    kept = malloc(sizeof schedule.shared->made);
    if (kept == NULL)
        ntw_refuse("ntwin: NTWIN_SCHEDULE: out of memory");
    schedule.strategy = BY_FILE;
    notes_touches = false;
    const uint32_t tries = failure.verdict != CANT_BE_EXPLORED ? shorten(&failure) : 0;
    want_without(0, 0);
    begin_trace();
    const bool is_same = failure.verdict == CANT_BE_EXPLORED || fails_so(make_run(true), &failure);
    tell_verdict(name, number, &failure);
    dprintf(1, "ntwin: found in %.2f s; %u threads, %llu steps; %u decisions with %u preemptions, and %u with %u after %u runs more%s\n", seconds,
            schedule.shared->threads, (unsigned long long)schedule.shared->steps, failure.decisions, failure.preemptions, schedule.shared->made_count,
            schedule.shared->preemptions, tries, is_same ? "" : "; made again, it ends otherwise: it depends on more than its schedule");
    (void)!write(1, schedule.shared->text, strlen(schedule.shared->text));
    tell_decisions();
    if (schedule.out[0] != 0)
        write_decisions(schedule.out);
    tell_output();
    _exit(HAS_FAILED);
}
