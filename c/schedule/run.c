/* SPDX-License-Identifier: MIT OR Apache-2.0 */
/* ---- A run of the program under the scheduler: one thread runs at a time, which has the baton, and at each point it is decided which one goes on.
 * The time is a number, which jumps to the next deadline once no thread can go on. So a run is a function of its decisions.
 *
 * What stands in `schedule` belongs to who has the baton; before main, and between runs, to the first thread. */
#include "internal.h"
#include "chance.h"
#include <dirent.h>
#include <execinfo.h>
#include <sys/prctl.h>
#include <sys/wait.h>

NTW_INTERNAL bool is_scheduled, notes_touches;
NTW_INTERNAL _Thread_local volatile uint32_t own_calls __attribute__((tls_model("initial-exec")));
NTW_INTERNAL struct schedule schedule = { .most_steps = 200000, .most_seconds = 5, .until = NEVER, .turns_told.number = -1, .trace.number = -1 };

NTW_INTERNAL _Thread_local struct scheduled *me __attribute__((tls_model("initial-exec")));
NTW_INTERNAL _Thread_local bool is_beyond __attribute__((tls_model("initial-exec"))); /* it has ended, for the scheduler */

/* ---- Chance. */

NTW_INTERNAL uint64_t any_number(void)
{
    return next_of_chance(schedule.random);
}

/* What the seed decides before the run: by its remainder by 4 how often chance leaves who calls, and when priorities change. (Of how many steps a run
 * is nobody knows before it: so that is drawn, too, and the run depends on its seed alone.) */
NTW_INTERNAL void seed_chance(uint64_t seed)
{
    begin_chance(schedule.random, seed);
    schedule.habit = seed % 4;
    const uint64_t length = UINT64_C(4) << any_number() % 8;
    for (uint32_t i = 0; i + 1 < schedule.depth && i < MOST_CHANGES; i++)
        schedule.changes[i] = 1 + any_number() % length;
}

/* ---- The end of a run. */

NTW_INTERNAL const char *words_of(uint32_t verdict)
{
    static const char *const words[] = { "ends well", "HANGS: nothing can end the waits", "ties a KNOT", "does not end", "runs without a call",
                                         "has a RACE", "ends badly", "does not fit the file", "can't be explored", "is left off" };
    return words[verdict];
}

NTW_INTERNAL void say_of_run(uint32_t verdict)
{
    char line[160];
    snprintf(line, sizeof line, "ntwin: the schedule %s, after %llu steps, with %u decision%s\n", words_of(verdict),
             (unsigned long long)schedule.shared->steps, schedule.shared->made_count, schedule.shared->made_count == 1 ? "" : "s");
    ntw_say(line);
    ntw_say(schedule.shared->text);
}

/* The run ends here, with the process. */
__attribute__((noreturn)) NTW_INTERNAL void end_run(enum verdict verdict, char *text)
{
    bool refused;
    schedule.shared->verdict = verdict;
    snprintf(schedule.shared->text, sizeof schedule.shared->text, "%s", text != NULL ? text : "");
    if (journal.text != NULL && take_lock_at_last(&refused))
        close_journal();
    if (ftrylockfile(stdout) == 0)
        fflush(stdout);
    if (!schedule.has_maker) {
        say_of_run(verdict);
        if (schedule.out[0] != 0)
            write_decisions(schedule.out);
    }
    _exit(verdict == DOES_NOT_FIT ? WRONG_WORDS : HAS_FAILED);
}

/* The same with this text, which has a place for a number or two. */
__attribute__((noreturn, format(printf, 2, 3))) NTW_INTERNAL void end_run_saying(enum verdict verdict, const char *format, ...)
{
    char text[600];
    va_list words;
    va_start(words, format);
    vsnprintf(text, sizeof text, format, words);
    va_end(words);
    end_run(verdict, text);
}
