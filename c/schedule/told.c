/* SPDX-License-Identifier: MIT OR Apache-2.0 */
/* ---- What a run does to its turns, a line for each step, where turns=FILE asks for that. Each is a step that the machine of crates/nt_schedule can
 * follow (src/told.rt); crates/nchoose reads them:
 *
 * run [free]                      a run begins; deadlines may come early
 * comes                           there is a thread more
 * sleeps t1 WORD UNTIL            it falls asleep on this word, to this moment (or `never`)
 * wakes WORD t2                   of those that sleep there this one is woken; or `nobody`: none sleeps there
 * rouses t2                       what it sleeps for has come, or it is woken among some of a word's sleepers
 * ends t1
 * passes UNITS                    of time
 * turn t1 call t2 TIME [decided]  t1 comes to a point (or `yield`, `sleep`, `end`); t2 goes on (or `clock`, `nobody`), at that time then; by a
 *                                 decision, and not as usual
 * hangs */
#include "internal.h"

NTW_INTERNAL struct output open_output(const char *path, int flags)
{
    struct stat file;
    struct output it = { .number = beyond_streams(open(path, O_WRONLY | O_CREAT | O_TRUNC | O_CLOEXEC | flags, 0666)) };
    if (it.number >= 0 && fstat(it.number, &file) == 0) {
        it.device = file.st_dev;
        it.node = file.st_ino;
    }
    return it;
}

/* Writes there, unless that number is another file's by now. */
NTW_INTERNAL void write_to(const struct output *it, const char *text, size_t length)
{
    struct stat file;
    if (fstat(it->number, &file) == 0 && file.st_dev == it->device && file.st_ino == it->node)
        (void)!write(it->number, text, length);
}

__attribute__((format(printf, 1, 2))) NTW_INTERNAL void tell_turns(const char *format, ...)
{
    char line[160];
    va_list words;
    if (schedule.turns_told.number < 0)
        return;
    va_start(words, format);
    const int length = vsnprintf(line, sizeof line, format, words);
    va_end(words);
    write_to(&schedule.turns_told, line, (size_t)length);
}

NTW_INTERNAL void tell_of_run(void)
{
    tell_turns("run%s\npasses %llu\n", schedule.is_free ? " free" : "", (unsigned long long)schedule.now);
}

NTW_INTERNAL void tell_of_sleep(const struct scheduled *it)
{
    char until[24] = "never";
    if (it->until != NEVER)
        snprintf(until, sizeof until, "%llu", (unsigned long long)it->until);
    tell_turns("sleeps t%u %llu %s\n", it->number, (unsigned long long)(uintptr_t)it->word, until);
}

/* One that slept on the word is woken, or null, among all that sleep there or some. */
NTW_INTERNAL void tell_of_woken(const void *word, const struct scheduled *it, bool among_all)
{
    char who[16] = "nobody";
    if (it != NULL)
        snprintf(who, sizeof who, "t%u", it->number);
    if (among_all)
        tell_turns("wakes %llu %s\n", (unsigned long long)(uintptr_t)word, who);
    else if (it != NULL)
        tell_turns("rouses %s\n", who);
}

NTW_INTERNAL void tell_of_turn(enum point point, uint32_t chosen, bool is_decided)
{
    static const char *const points[] = { [AT_CALL] = "call", [AT_YIELD] = "yield", [AT_SLEEP] = "sleep", [AT_END] = "end" };
    char who[16];
    snprintf(who, sizeof who, chosen == THE_CLOCK ? "clock" : chosen == NO_ONE ? "nobody" : "t%u", chosen);
    tell_turns("turn t%u %s %s %llu%s\n", me->number, points[point], who, (unsigned long long)schedule.now, is_decided ? " decided" : "");
}
