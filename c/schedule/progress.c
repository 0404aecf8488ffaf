/* SPDX-License-Identifier: MIT OR Apache-2.0 */
/* ---- How far a search is: once a second a line on a terminal, or for who made this process and shows that of several (ntwin-explore). */
#include "internal.h"

enum { MOST_LETTERS = 160 };

static struct {
    int file;       /* that progress=FILE names; or less than 0 */
    uint64_t next;  /* when it is written again, in ns */
    uint64_t began, before;
    bool is_shown;
} progress = { .file = -1 };

NTW_INTERNAL void begin_progress(void)
{
    progress.began = real_ns();
    progress.next = progress.began + 1000000000;
    if (schedule.progress[0] != 0)
        progress.file = beyond_streams(open(schedule.progress, O_WRONLY | O_CREAT | O_CLOEXEC, 0666));
}

/* Tells it, where a second has passed since that was done: how many runs, the steps of the longest, and the share of all that is done. */
NTW_INTERNAL void tell_progress(uint64_t runs, uint64_t longest, double (*share)(void))
{
    char line[MOST_LETTERS];
    const uint64_t now = real_ns();
    if (now < progress.next || (progress.file < 0 && isatty(STDERR_FILENO) == 0))
        return;
    if (progress.file >= 0) {
        snprintf(line, sizeof line, "%20llu %20llu %8.6f\n", (unsigned long long)runs, (unsigned long long)longest, share());
        (void)!pwrite(progress.file, line, strlen(line), 0);
    } else {
        snprintf(line, sizeof line, "\rntwin: %llu schedules, %.0f a second, %llu steps at the most, %.1f %% done\033[K", (unsigned long long)runs,
                 (double)(runs - progress.before) / ((double)(now - progress.next + 1000000000) / 1e9), (unsigned long long)longest, 100 * share());
        (void)!write(STDERR_FILENO, line, strlen(line));
        progress.is_shown = true;
    }
    progress.before = runs;
    progress.next = now + 1000000000;
}

/* The line makes room for what is written at the end. */
NTW_INTERNAL void end_progress(void)
{
    if (progress.is_shown)
        (void)!write(STDERR_FILENO, "\r\033[K", 4);
    progress.is_shown = false;
}
