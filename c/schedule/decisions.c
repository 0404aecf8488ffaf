/* SPDX-License-Identifier: MIT OR Apache-2.0 */
/* ---- Files of decisions: a line for each, as `t1 12 t2`. At its point 12, t1 has t2 go on (or `clock`: the next deadline come). What a file does
 * not say is as usual. */
#include "internal.h"

enum { LONGEST_LINE_READ = 256 };

static const char first_line[] = "; ntwin-schedule 1";
static const char free_time[] = " time=free", still_time[] = " time=still";

/* What was asked for is not written there, and errno says why. */
NTW_INTERNAL void say_unwritten(const char *path)
{
    char line[768];
    snprintf(line, sizeof line, "ntwin: %s is not written: %s\n", path, strerror(errno));
    ntw_say(line);
}

NTW_INTERNAL void write_decisions(const char *path)
{
    char text[48];
    FILE *file = fopen(path, "we");
    if (file != NULL)
        fprintf(file, "%s%s%s\n", first_line, schedule.is_free ? free_time : "", schedule.is_still ? still_time : "");
    for (uint32_t i = 0; file != NULL && i < schedule.shared->made_count; i++) {
        put_decision(text, &schedule.shared->made[i]);
        fprintf(file, "%s\n", text);
    }
    if (file == NULL || fclose(file) != 0)
        say_unwritten(path);
}

/* What was asked for can't be done. */
__attribute__((noreturn, format(printf, 1, 2))) NTW_INTERNAL void ntw_refuse(const char *format, ...)
{
    char line[1200];
    va_list words;
    va_start(words, format);
    const int length = vsnprintf(line, sizeof line - 1, format, words);
    va_end(words);
    snprintf(line + (length < (int)sizeof line - 2 ? length : (int)sizeof line - 2), 2, "\n");
    ntw_say(line);
    _exit(WRONG_WORDS);
}

static bool read_decision(const char *line, struct decision *it)
{
    unsigned thread, ordinal, chosen;
    int end = 0;
    if (sscanf(line, "t%5u %9u clock%n", &thread, &ordinal, &end) == 2 && end > 0)
        chosen = THE_CLOCK;
    else if (sscanf(line, "t%5u %9u t%5u%n", &thread, &ordinal, &chosen, &end) != 3)
        return false;
    if (thread >= MOST_SCHEDULED || (chosen >= MOST_SCHEDULED && chosen != THE_CLOCK) || line[end + (int)strspn(line + end, " \r\n")] != 0)
        return false;
    *it = (struct decision){ (uint16_t)thread, (uint16_t)chosen, ordinal };
    return true;
}

/* Reads a line without its end: of a comment no more than there is room for, and else it goes on as the next one, and is no decision. A zero in it
 * stands as a letter that no decision has. False where there is none. */
static bool read_decisions_line(FILE *file, char line[LONGEST_LINE_READ])
{
    size_t length = 0;
    int letter = 0;
    while ((length + 1 < LONGEST_LINE_READ || line[0] == ';') && (letter = getc(file)) != EOF && letter != '\n')
        if (length + 1 < LONGEST_LINE_READ)
            line[length++] = letter != 0 ? (char)letter : '?';
    line[length] = 0;
    return letter != EOF || length > 0;
}

static void take_decision(const char *path, uint32_t number, const char *line)
{
    struct shared_run *shared = schedule.shared;
    if (shared->wanted_count == MOST_DECISIONS)
        ntw_refuse("ntwin: NTWIN_SCHEDULE: %s:%u: more than %d decisions", path, number, MOST_DECISIONS);
    if (!read_decision(line, &shared->wanted[shared->wanted_count++]))
        ntw_refuse("ntwin: NTWIN_SCHEDULE: %s:%u: no decision: 't1 12 t2' (at its point 12, t1 has t2 go on) or 't1 12 clock' can stand there", path,
                   number);
}

NTW_INTERNAL void read_decisions(const char *path)
{
    char line[LONGEST_LINE_READ] = "";
    FILE *file = fopen(path, "re");
    if (file == NULL)
        ntw_refuse("ntwin: NTWIN_SCHEDULE: %s: %s", path, strerror(errno));
    const bool has_line = read_decisions_line(file, line);
    if (!ferror(file) && (!has_line || strncmp(line, first_line, sizeof first_line - 1) != 0))
        ntw_refuse("ntwin: NTWIN_SCHEDULE: %s: no file of decisions: its first line is '%s', as ntwin-explore writes it", path, first_line);
    schedule.is_free |= strstr(line, free_time) != NULL;
    schedule.is_still |= strstr(line, still_time) != NULL;
    for (uint32_t number = 2; read_decisions_line(file, line); number++)
        if (line[0] != ';' && line[0] != 0)
            take_decision(path, number, line);
    if (ferror(file))
        ntw_refuse("ntwin: NTWIN_SCHEDULE: %s: %s", path, strerror(errno));
    fclose(file);
}
