/* SPDX-License-Identifier: MIT OR Apache-2.0 */
/* ---- Who makes runs: the process, before main, with a child for each, which goes on as the program. */
#include "../win32/internal.h"
#include "posix.h"
#include <dirent.h>
#include <sys/prctl.h>
#include <sys/wait.h>

NTW_INTERNAL uint64_t real_ns(void)
{
    struct timespec now;
    clock_gettime(CLOCK_MONOTONIC, &now);
    return (uint64_t)now.tv_sec * 1000000000 + (uint64_t)now.tv_nsec;
}

NTW_INTERNAL double seconds_since(uint64_t ns)
{
    return (double)(real_ns() - ns) / 1e9;
}

NTW_INTERNAL jmp_buf program; /* where a child goes on */
NTW_INTERNAL struct maker maker;

/* One processor is enough for threads of which one runs at a time, and they take turns faster there. (What the program sees of processors is as
 * before.) */
static void stay_on_processor(void)
{
    cpu_set_t one;
    const int here = sched_getcpu();
    processors_here();
    CPU_ZERO(&one);
    if (here < 0 || here >= CPU_SETSIZE)
        return;
    CPU_SET((unsigned)here, &one);
    sched_setaffinity(0, sizeof one, &one);
}

/* From here on the process is a run, and the caller its first thread. */
NTW_INTERNAL void begin_run(void)
{
    stay_on_processor();
    begin_memory();
    list_wanted();
    if (pthread_key_create(&schedule.ending, end_scheduled) != 0)
        end_run_saying(ENDS_BADLY, "the scheduler gets no key\n");
    tell_of_run();
    me = make_thread();
    me->thread = pthread_self();
    me->id = gettid();
    number_thread(me);
    pthread_setspecific(schedule.ending, ending_rounds);
}

/* What the program reads: each run the same from its beginning where that is a file, and else nothing. */
static void begin_input(void)
{
    struct stat it;
    const int input = open(fstat(0, &it) == 0 && S_ISREG(it.st_mode) ? "/proc/self/fd/0" : "/dev/null", O_RDONLY);
    if (input > 0) {
        dup2(input, 0);
        close(input);
    }
}

__attribute__((noreturn)) static void begin_child(bool is_last)
{
    prctl(PR_SET_PDEATHSIG, SIGKILL);
    if (getppid() != maker.id)
        _exit(HAS_FAILED);
    sigaction(SIGCHLD, &maker.at_child, NULL);
    pthread_sigmask(SIG_SETMASK, &maker.before, NULL);
    schedule.makes = false;
    schedule.has_maker = true;
    if (!is_last)
        unsetenv("NTWIN_JOURNAL");
    begin_input();
    dup2(maker.output, 1);
    dup2(maker.output, 2);
    begin_run();
    longjmp(program, 1);
}

/* ---- A run that makes no step. */

/* How long a process or thread ran, in clock ticks, and its state; 0 where it is gone. */
static uint64_t ticks_of(const char *path, char *state)
{
    char text[1024];
    unsigned long ticks[2] = { 0, 0 };
    const int file = open(path, O_RDONLY | O_CLOEXEC);
    const ssize_t length = file >= 0 ? read(file, text, sizeof text - 1) : -1;
    if (file >= 0)
        close(file);
    text[length > 0 ? length : 0] = 0;
    const char *rest = strrchr(text, ')');
    *state = 'S';
    if (rest == NULL || sscanf(rest, ") %c %*d %*d %*d %*d %*d %*u %*u %*u %*u %*u %lu %lu", state, &ticks[0], &ticks[1]) != 3)
        return 0;
    return ticks[0] + ticks[1];
}

/* Whether none of the child's threads could run when that was looked at. */
static bool are_all_asleep(pid_t child)
{
    char path[320], state;
    bool all = true;
    snprintf(path, sizeof path, "/proc/%d/task", (int)child);
    DIR *tasks = opendir(path);
    for (struct dirent *task; tasks != NULL && (task = readdir(tasks)) != NULL;) {
        snprintf(path, sizeof path, "/proc/%d/task/%s/stat", (int)child, task->d_name);
        ticks_of(path, &state);
        all &= task->d_name[0] == '.' || state == 'S';
    }
    if (tasks != NULL)
        closedir(tasks);
    return tasks != NULL && all;
}

/* What is known of a run that makes no step. */
struct stall {
    uint64_t steps, since, ticks;
};

/* Whether the child has made no step for so long, and has run for so long meanwhile, or can't run. (So it is not the machine that is busy.) */
static bool has_stalled(pid_t child, struct stall *it)
{
    char path[64], state;
    snprintf(path, sizeof path, "/proc/%d/stat", (int)child);
    if (schedule.shared->steps != it->steps || it->since == 0) {
        *it = (struct stall){ schedule.shared->steps, real_ns(), ticks_of(path, &state) };
        return false;
    }
    if (seconds_since(it->since) < schedule.most_seconds)
        return false;
    const double ran = (double)(ticks_of(path, &state) - it->ticks) / (double)sysconf(_SC_CLK_TCK);
    return ran >= schedule.most_seconds || are_all_asleep(child);
}

/* Waits for the child's end, and ends it where it stalls. Answers its status. */
static int await_child(pid_t child)
{
    const struct timespec while_it_runs = { .tv_nsec = 100000000 };
    struct stall stall = { 0, 0, 0 };
    sigset_t ends;
    int status = 0;
    sigemptyset(&ends);
    sigaddset(&ends, SIGCHLD);
    while (waitpid(child, &status, WNOHANG) == 0) {
        if (sigtimedwait(&ends, NULL, &while_it_runs) > 0 || !has_stalled(child, &stall))
            continue;
        if (schedule.shared->verdict == ENDED_WELL)
            schedule.shared->verdict = STALLS;
        kill(child, SIGKILL);
        waitpid(child, &status, 0);
        break;
    }
    return status;
}

/* Makes a run; the last one is shown. Answers its verdict. (In the child it returns where the program begins.) */
NTW_INTERNAL uint32_t make_run(bool is_last)
{
    struct shared_run *shared = schedule.shared;
    shared->steps = 0;
    shared->verdict = ENDED_WELL;
    shared->made_count = shared->preemptions = 0;
    shared->text[0] = 0;
    (void)!ftruncate(maker.output, 0);
    lseek(maker.output, 0, SEEK_SET);
    fflush(NULL);
    const pid_t child = fork();
    if (child == 0)
        begin_child(is_last);
    if (child < 0)
        ntw_refuse("ntwin: NTWIN_SCHEDULE: no process for a run: %s", strerror(errno));
    maker.status = await_child(child);
    if (shared->verdict == ENDED_WELL && maker.status != 0)
        shared->verdict = ENDS_BADLY;
    return shared->verdict;
}

/* Signals of children are asked for, and not delivered. */
NTW_INTERNAL void begin_making(void)
{
    sigset_t ends;
    const struct sigaction usual = { .sa_handler = SIG_DFL };
    maker.id = getpid();
    maker.output = beyond_streams(memfd_create("output", MFD_CLOEXEC));
    if (maker.output < 0)
        ntw_refuse("ntwin: NTWIN_SCHEDULE: no file for what runs write: %s", strerror(errno));
    sigaction(SIGCHLD, &usual, &maker.at_child);
    sigemptyset(&ends);
    sigaddset(&ends, SIGCHLD);
    pthread_sigmask(SIG_BLOCK, &ends, &maker.before);
    schedule.makes = true;
}
