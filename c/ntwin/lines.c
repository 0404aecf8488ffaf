/* SPDX-License-Identifier: MIT OR Apache-2.0 */
/* ---- Files and lines of places, as addr2line tells them, where it is in PATH as the report is written. It runs as a child's child, since a child that
 * has become another program raises SIGCHLD as it ends, and is found by a wait for any child. The child between raises none, and leaves at once. (Whoever
 * adopts what is left of processes, as the first process of a container does, adopts this one, too.) */
#include "internal.h"

/* What the two need. They share all memory with the program's thread, which sleeps until one is another program and the other is gone. */
struct asked {
    const char *command;
    char *const *words;
    int output;
    char *stack; /* of the child's child */
    pid_t task;  /* its number */
};

/* (Its signals stay blocked. The program's files are not for it. It calls the system itself: a sanitizer in the program sees the other calls.) */
static int run_command(void *at)
{
    static char *const environment[] = { "LC_ALL=C", NULL };
    const struct asked *asked = at;
    const long output = (syscall)(SYS_fcntl, asked->output, F_DUPFD, 3), nothing = (syscall)(SYS_openat, AT_FDCWD, "/dev/null", O_RDWR, 0),
               input = (syscall)(SYS_fcntl, nothing, F_DUPFD, 3);
    if (output >= 0 && input >= 0 && (syscall)(SYS_dup3, output, 1, 0) >= 0 && (syscall)(SYS_dup3, input, 0, 0) >= 0
        && (syscall)(SYS_dup3, input, 2, 0) >= 0) {
#ifdef SYS_close_range
        (syscall)(SYS_close_range, 3, ~0u, 0);
#endif
        (syscall)(SYS_execve, asked->command, asked->words, environment);
    }
    (syscall)(SYS_exit_group, 127);
    return 127;
}

/* (By this name no sanitizer takes it for a fork, which it is not.) */
extern int __clone(int (*run)(void *), void *stack, int flags, void *at, ...);

/* Its signal is none, and who began it goes on once it is gone or another program. */
static pid_t begin_beside(int (*run)(void *), char *stack, struct asked *asked)
{
    return __clone(run, (void *)((uintptr_t)(stack + CHILD_STACK) & ~(uintptr_t)63), CLONE_VM | CLONE_VFORK, asked);
}

static int begin_command_beside(void *at)
{
    struct asked *asked = at;
    asked->task = begin_beside(run_command, asked->stack, asked);
    (syscall)(SYS_exit_group, 0);
    return 0;
}

/* Begins the command. Answers its number, or -1. */
static pid_t begin_command(struct asked *asked)
{
    sigset_t all, before;
    char *stacks = malloc(2 * CHILD_STACK);
    if (stacks == NULL)
        return -1;
    asked->stack = stacks + CHILD_STACK;
    sigfillset(&all);
    pthread_sigmask(SIG_SETMASK, &all, &before);
    const pid_t child = begin_beside(begin_command_beside, stacks, asked);
    pthread_sigmask(SIG_SETMASK, &before, NULL);
    free(stacks);
    while (child > 0 && waitpid(child, NULL, __WCLONE) < 0 && errno == EINTR)
        continue;
    return asked->task;
}

/* Reads what is written there, to its end or to this moment of the monotonic clock. Answers how much that is, and in `ends` whether it came to the end. */
static size_t read_output(int input, char *to, size_t room, uint64_t end, bool *ends)
{
    size_t length = 0;
    *ends = false;
    for (uint64_t now; length < room && (now = monotonic()) < end;) {
        struct pollfd it = { .fd = input, .events = POLLIN };
        const int ready = poll(&it, 1, (int)((end - now) / (MOMENTS_PER_SECOND / 1000)) + 1);
        const ssize_t count = ready > 0 ? read(input, to + length, room - length) : -1;
        *ends = count == 0;
        if (*ends || (count < 0 && ready != 0 && errno != EINTR && errno != EAGAIN))
            break;
        length += count > 0 ? (size_t)count : 0;
    }
    return length;
}

/* What the command with these words writes by this moment, which ends with a zero. */
static void ask(const char *command, char *const *words, char *to, size_t room, uint64_t end)
{
    int ends[2];
    size_t length = 0;
    if (pipe2(ends, O_CLOEXEC) == 0) {
        struct asked asked = { .command = command, .words = words, .output = ends[1], .task = -1 };
        const pid_t task = begin_command(&asked);
        bool has_ended;
        close(ends[1]);
        if (task > 0) {
            length = read_output(ends[0], to, room - 1, end, &has_ended);
            /* (One that has ended is gone, and its number may be another's.) */
            if (!has_ended)
                kill(task, SIGKILL);
            waitpid(task, NULL, __WALL | WNOHANG); /* (where this process has adopted it) */
        }
        close(ends[0]);
    }
    to[length] = 0;
}

static char *path_at_start; /* with NTWIN_WHY, PATH as it was before main: later another thread may change it */

NTW_INTERNAL void keep_path(void)
{
    const char *path = secure_getenv("PATH");
    path_at_start = path != NULL ? strdup(path) : NULL;
}

/* Finds a program with one of these names in PATH. (Not by PATH in a program that has more rights than who began it, nor in a folder that depends on
 * where it runs.) */
NTW_INTERNAL bool find_command(char path[PATH_MAX])
{
    static const char *const names[] = { "addr2line", "eu-addr2line", "llvm-addr2line" };
    const char *all = noted != NULL ? path_at_start : secure_getenv("PATH");
    for (size_t i = 0; i < sizeof names / sizeof *names; i++)
        for (const char *at = all; at != NULL && *at != 0; at += strcspn(at, ":"), at += *at == ':') {
            const size_t length = strcspn(at, ":");
            if (*at == '/' && snprintf(path, PATH_MAX, "%.*s/%s", (int)length, at, names[i]) < PATH_MAX && access(path, X_OK) == 0)
                return true;
        }
    return false;
}

/* Takes a line of what was written: a file and a line of that, where they are known. Answers where the next one begins. */
static const char *take_line(const char *from, char line[LONGEST_FILE_AND_LINE])
{
    const size_t length = strcspn(from, "\n");
    const char *more = memmem(from, length, " (", 2);
    const size_t known = more != NULL ? (size_t)(more - from) : length;
    if (known > 2 && known < LONGEST_FILE_AND_LINE && from[0] != '?' && from[known - 1] != '?' && memcmp(from + known - 2, ":0", 2) != 0) {
        memcpy(line, from, known);
        line[known] = 0;
    }
    return from + length + (from[length] == '\n');
}

/* Asks for some of the places, all in this file. */
static void ask_for_some(const char *command, const char *path, struct place *const *some, size_t count, uint64_t end)
{
    enum { FIRST = 4 };
    struct {
        char numbers[ASKED_AT_ONCE][ADDRESS_LENGTH], *words[FIRST + ASKED_AT_ONCE + 1], text[ASKED_AT_ONCE * (LONGEST_FILE_AND_LINE + 32)];
    } *it = calloc(1, sizeof *it);
    if (it == NULL)
        return;
    memcpy(it->words, (char *[FIRST]){ (char *)command, "-s", "-e", (char *)path }, FIRST * sizeof *it->words);
    for (size_t i = 0; i < count; i++) {
        snprintf(it->numbers[i], ADDRESS_LENGTH, "0x%zx", (size_t)(some[i]->address - some[i]->base));
        it->words[FIRST + i] = it->numbers[i];
    }
    ask(command, it->words, it->text, sizeof it->text, end);
    const char *at = it->text;
    for (size_t i = 0; i < count && *at != 0; i++)
        at = take_line(at, some[i]->line);
    free(it);
}

/* Asks for the lines of the places that are in what has this base, which was loaded from the file with this path. */
NTW_INTERNAL void ask_for_lines(const char *command, const char *path, uintptr_t base, struct places *places, uint64_t end)
{
    struct place *some[ASKED_AT_ONCE];
    size_t count = 0;
    for (size_t i = 0; i < places->count; i++) {
        if (places->of[i].is_loaded && places->of[i].base == base)
            some[count++] = &places->of[i];
        if (count == ASKED_AT_ONCE || (count > 0 && i + 1 == places->count)) {
            ask_for_some(command, path, some, count, end);
            count = 0;
        }
    }
}
