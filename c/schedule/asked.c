/* SPDX-License-Identifier: MIT OR Apache-2.0 */
/* ---- What NTWIN_SCHEDULE asks for, before main:
 *
 * random:SEED[,COUNT]     a run by chance; with COUNT that number of runs, each in a process of its own, until one fails
 * pct:SEED,DEPTH[,COUNT]  the same by priorities, which change DEPTH - 1 times in a run
 * explore:BOUND[,COUNT]   all runs with a cost within the bound, COUNT at most (tree.c)
 * explore:all[,COUNT]     all runs, but for those that differ in the order of steps alone that touch nothing in common (sleep_sets.c)
 * explore:plain[,COUNT]   all runs
 * replay:FILE             the run that a file of decisions says
 *
 * and then, each after a `;`: steps=N (in a run at the most), time=free (a deadline may come although threads could run), races=pass (a race is no
 * failure), minutes=M (no run begins later), seconds=S (that a thread may run without a step), out=FILE (the decisions of the run that fails),
 * trace=FILE (its steps), turns=FILE (who goes on, in each run: told.c), ends=FILE (how each run of a search ended, which goes on then), part=K,N (of
 * a search one part of N), progress=FILE (how far it is). */
#include "internal.h"
#include <execinfo.h>

/* How many runs a search makes at the most where that is not said. */
enum { MOST_EXPLORED = 100000, MOST_PARTS = 4096 };

#define WHAT_CAN_STAND "random:SEED[,COUNT], pct:SEED,DEPTH[,COUNT], explore:BOUND[,COUNT], explore:all[,COUNT], " \
                       "explore:plain[,COUNT] or replay:FILE can stand there, " \
                       "then ;steps=N ;time=free ;races=pass ;minutes=M ;seconds=S ;out=FILE ;trace=FILE ;turns=FILE ;ends=FILE"

/* Reads numbers with commas between them. Answers how many there are; 0 where it is not such a list, or one of more. */
static uint32_t read_list(const char *text, uint64_t *numbers, uint32_t most)
{
    for (uint32_t count = 0; count < most;) {
        char *end;
        errno = 0;
        numbers[count++] = strtoull(text, &end, 10);
        if (*text < '0' || *text > '9' || errno != 0)
            return 0;
        if (*end == 0)
            return count;
        if (*end != ',')
            return 0;
        text = end + 1;
    }
    return 0;
}

static bool take_path(char to[512], const char *path)
{
    return path[0] != 0 && snprintf(to, 512, "%s", path) < 512;
}

/* The same of a file that is written as the run ends: the program may be in another folder by then. */
static bool take_path_from_here(char to[512], const char *path)
{
    char here[512];
    if (path[0] == 0 || path[0] == '/')
        return take_path(to, path);
    return getcwd(here, sizeof here) != NULL && snprintf(to, 512, "%s/%s", here, path) < 512;
}

/* Reads the bound of a search, and how many runs it may make. */
static bool read_search(const char *text)
{
    uint64_t numbers[2] = { 0, 0 };
    const size_t length = strcspn(text, ",");
    const bool leaves_off = length == 3 && strncmp(text, "all", length) == 0, is_plain = length == 5 && strncmp(text, "plain", length) == 0;
    const bool is_all = leaves_off || is_plain, has_count = text[length] != 0;
    const uint32_t count = !is_all ? read_list(text, numbers, 2) : 1 + (has_count ? read_list(text + length + 1, &numbers[1], 1) : 0);
    schedule.strategy = BY_TREE;
    schedule.leaves_off = leaves_off;
    schedule.is_still = is_all;
    schedule.bound = is_all || numbers[0] > MOST_BOUND ? MOST_BOUND : (uint32_t)numbers[0];
    schedule.count = numbers[1] > 0 ? numbers[1] : MOST_EXPLORED;
    return count == 1u + has_count && (!has_count || numbers[1] > 0);
}

/* Answers whether there is such a strategy. */
static bool read_strategy(const char *word)
{
    uint64_t numbers[3] = { 0, 0, 0 };
    if (strncmp(word, "explore:", 8) == 0)
        return read_search(word + 8);
    if (strncmp(word, "replay:", 7) == 0) {
        schedule.strategy = BY_FILE;
        schedule.must_fit = true;
        return take_path(schedule.file, word + 7);
    }
    const bool has_depth = strncmp(word, "pct:", 4) == 0;
    if (!has_depth && strncmp(word, "random:", 7) != 0)
        return false;
    const uint32_t count = read_list(strchr(word, ':') + 1, numbers, 2 + has_depth);
    schedule.strategy = has_depth ? BY_PRIORITY : BY_CHANCE;
    schedule.seed = numbers[0];
    schedule.depth = has_depth && numbers[1] <= MOST_CHANGES ? (uint32_t)numbers[1] : 0;
    schedule.count = numbers[1 + has_depth];
    return count > has_depth && (!has_depth || schedule.depth > 0) && (count < 2u + has_depth || schedule.count > 0);
}

/* A number of seconds or minutes. (In nanoseconds it is one of 64 bits.) */
static bool read_time(const char *text, double *time)
{
    char *end;
    *time = strtod(text, &end);
    return end != text && *end == 0 && *time > 0 && *time < 1e8;
}

/* Reads which part of a search this is, from 0 on, and of how many: K,N. */
static bool read_part(const char *text)
{
    uint64_t numbers[2] = { 0, 0 };
    if (schedule.strategy != BY_TREE || read_list(text, numbers, 2) != 2 || numbers[0] >= numbers[1] || numbers[1] > MOST_PARTS)
        return false;
    schedule.part = (uint32_t)numbers[0];
    schedule.parts = (uint32_t)numbers[1];
    return true;
}

static bool read_option(const char *option)
{
    uint64_t number = 0;
    double time = 0;
    const char *value = strchr(option, '=');
    const size_t length = value != NULL ? (size_t)(++value - option) : 0;
    if (length == 6 && strncmp(option, "steps=", length) == 0 && read_list(value, &number, 1) == 1 && number > 0)
        schedule.most_steps = number;
    else if (strcmp(option, "time=free") == 0)
        schedule.is_free = true;
    else if (strcmp(option, "races=pass") == 0)
        schedule.passes_races = true;
    else if (length == 8 && strncmp(option, "minutes=", length) == 0 && read_time(value, &time))
        schedule.until = real_ns() + (uint64_t)(time * 60e9);
    else if (length == 8 && strncmp(option, "seconds=", length) == 0 && read_time(value, &time))
        schedule.most_seconds = time;
    else if (length == 4 && strncmp(option, "out=", length) == 0)
        return take_path_from_here(schedule.out, value);
    else if (length == 6 && strncmp(option, "trace=", length) == 0)
        return take_path(schedule.traced, value);
    else if (length == 6 && strncmp(option, "turns=", length) == 0)
        return take_path(schedule.turns_file, value);
    else if (length == 9 && strncmp(option, "progress=", length) == 0)
        return take_path(schedule.progress, value);
    else if (length == 5 && strncmp(option, "ends=", length) == 0)
        return schedule.strategy == BY_TREE && take_path(schedule.ends, value);
    else if (length == 5 && strncmp(option, "part=", length) == 0)
        return read_part(value);
    else
        return false;
    return true;
}

static void read_asked(const char *asked)
{
    char text[2048];
    char *rest = NULL;
    snprintf(text, sizeof text, "%s", asked);
    const char *word = strtok_r(text, ";", &rest);
    if (word == NULL || strlen(asked) >= sizeof text || !read_strategy(word))
        ntw_refuse("ntwin: NTWIN_SCHEDULE=%.100s: " WHAT_CAN_STAND, asked);
    for (const char *option; (option = strtok_r(NULL, ";", &rest)) != NULL;)
        if (!read_option(option))
            ntw_refuse("ntwin: NTWIN_SCHEDULE: %.100s: " WHAT_CAN_STAND, option);
}

/* Memory of zeros, which takes room as it is used. */
NTW_INTERNAL void *reserve(size_t size, int how)
{
    void *memory = mmap(NULL, size, PROT_READ | PROT_WRITE, how | MAP_ANONYMOUS | MAP_NORESERVE, -1, 0);
    if (memory == MAP_FAILED)
        ntw_refuse("ntwin: NTWIN_SCHEDULE: out of memory");
    return memory;
}

/* Writes how the run of this seed is asked for by itself. */
static void name_run(char *to, size_t room, uint64_t seed)
{
    const char *time = schedule.is_free ? ";time=free" : "";
    if (schedule.strategy == BY_PRIORITY)
        snprintf(to, room, "pct:%llu,%u%s", (unsigned long long)seed, schedule.depth, time);
    else
        snprintf(to, room, "random:%llu%s", (unsigned long long)seed, time);
}

static struct {
    uint64_t made;
} runs;

static double share_of_runs(void)
{
    return (double)runs.made / (double)schedule.count;
}

/* Makes runs until one fails, or as many as were asked for. */
__attribute__((noreturn)) static void make_runs(void)
{
    const uint64_t began = real_ns();
    uint64_t longest = 0;
    char name[64];
    for (uint64_t i = 0; i < schedule.count; i++) {
        if (real_ns() >= schedule.until) {
            end_progress();
            dprintf(1, "ntwin: %llu schedules, none fails, and then the minutes were over; %llu steps in the longest\n", (unsigned long long)i,
                    (unsigned long long)longest);
            _exit(BOUND_MET);
        }
        seed_chance(schedule.seed + i);
        const uint32_t verdict = make_run(false);
        if (schedule.shared->steps > longest)
            longest = schedule.shared->steps;
        name_run(name, sizeof name, schedule.seed + i);
        if (verdict != ENDED_WELL)
            tell_failure(name, i + 1, began);
        runs.made = i + 1;
        tell_progress(i + 1, longest, share_of_runs);
    }
    end_progress();
    name_run(name, sizeof name, schedule.seed);
    dprintf(1, "ntwin: %llu schedules from %s on, none fails; %llu steps in the longest, %.2f s\n", (unsigned long long)schedule.count, name,
            (unsigned long long)longest, seconds_since(began));
    _exit(0);
}

static void open_turns(void)
{
    schedule.turns_told = open_output(schedule.turns_file, O_APPEND);
    if (schedule.turns_told.number < 0)
        ntw_refuse("ntwin: NTWIN_SCHEDULE: %s: %s", schedule.turns_file, strerror(errno));
}

/* Once this returns, the process is a run. */
__attribute__((noinline, cold)) NTW_INTERNAL void begin_schedule(const char *asked)
{
    void *frames[1];
    read_asked(asked);
    unsetenv("NTWIN_SCHEDULE");
    backtrace(frames, 1); /* (It loads a library the first time.) */
    schedule.shared = reserve(sizeof *schedule.shared, MAP_SHARED);
    schedule.wanted_at = reserve(DECISION_SLOTS * sizeof *schedule.wanted_at, MAP_PRIVATE);
    schedule.threads = reserve(MOST_SCHEDULED * sizeof(struct scheduled *), MAP_PRIVATE);
    schedule.made = reserve(MOST_SCHEDULED * sizeof(struct scheduled), MAP_PRIVATE);
    schedule.now = UINT64_C(1000) * MOMENTS_PER_SECOND;
    process.looks = process.has_barriers = false;
    if (schedule.turns_file[0] != 0)
        open_turns();
    tells_knots = is_scheduled = true;
    stand_in_for_all();
    made_by = looked_calls;
    if (schedule.strategy == BY_FILE)
        read_decisions(schedule.file);
    if (schedule.count > 0) {
        begin_making();
        begin_progress();
        if (schedule.strategy == BY_TREE)
            tree = reserve(sizeof *tree, MAP_SHARED);
        if (setjmp(program) != 0)
            return;
        if (schedule.strategy == BY_TREE)
            explore(schedule.bound);
        make_runs();
    }
    seed_chance(schedule.seed);
    begin_trace();
    begin_run();
}

/* A run that the program itself is has ended well, or with a status of its own. */
__attribute__((destructor(101))) static void end_schedule(void)
{
    if (!is_scheduled || schedule.makes)
        return;
    is_beyond = true;
    look_whether_all_fitted();
    if (schedule.has_maker)
        return;
    say_of_run(ENDED_WELL);
    if (schedule.out[0] != 0)
        write_decisions(schedule.out);
}
