/* Within 30 s, unsanitized: 8 passed, 0 failed.
 *
 * The thread that takes SIGQUIT is in the midst of telling why threads wait. A child that is forked then may call, as if nothing were written; and a
 * process that ends then has written all. Where standard error is closed, nothing is written into the file that has its number, and main begins with
 * no error in errno. */
#include "case.h"

#include <dlfcn.h>
#include <fcntl.h>
#include <stdarg.h>
#include <sys/prctl.h>
#include <sys/stat.h>
#include <sys/syscall.h>

enum { IN_NOTHING, IN_TEXT, IN_WRITING };
static LONG held_in, is_held, goes_on;
static int error_at_first; /* as main begins */

/* The library's first call of this kind, if it is to be held, goes on a while after this program does. */
static void hold(LONG kind)
{
    if (InterlockedCompareExchange(&held_in, IN_NOTHING, kind) != kind)
        return;
    raise_flag(&is_held);
    await(&goes_on);
    rest_ms(20);
}

/* These two are called in the system's place: while the library makes the text, and once it has it. */
int vsnprintf(char *at, size_t size, const char *format, va_list list)
{
    int (*real)(char *, size_t, const char *, va_list);
    *(void **)&real = dlsym(RTLD_NEXT, "vsnprintf");
    hold(IN_TEXT);
    return real(at, size, format, list);
}

ssize_t write(int file, const void *from, size_t count)
{
    if (file == STDERR_FILENO)
        hold(IN_WRITING);
    return syscall(SYS_write, file, from, count);
}

static void let_go_on(void)
{
    raise_flag(&goes_on);
}

/* The library tells why threads wait, and is in the midst of it from now on. */
static void hold_report(LONG kind)
{
    must(CreateEvent(NULL, TRUE, FALSE, NULL) != NULL);
    InterlockedExchange(&held_in, kind);
    must(kill(getpid(), SIGQUIT) == 0);
    await(&is_held);
}

static int status_of(pid_t child)
{
    int status;
    must(child > 0 && waitpid(child, &status, 0) == child);
    return status;
}

/* (What is to be done before a fork is done the later, the earlier that was said.) */
static int fork_meanwhile(void)
{
    must(pthread_atfork(let_go_on, NULL, NULL) == 0);
    hold_report(IN_TEXT);
    const pid_t child = fork();
    if (child == 0)
        _exit(CreateEvent(NULL, TRUE, FALSE, NULL) == NULL);
    return status_of(child) != 0;
}

static int end_meanwhile(void)
{
    must(atexit(let_go_on) == 0);
    hold_report(IN_WRITING);
    return 0;
}

/* Opens a file of its own by the number of standard error, and the library tells. */
static int tell_nobody(const char *path, int flags)
{
    must(open(path, O_WRONLY | flags) == STDERR_FILENO);
    hold_report(IN_TEXT);
    let_go_on();
    return 0;
}

static int act(const char *what, const char *path)
{
    if (strcmp(what, "fork") == 0)
        return fork_meanwhile();
    if (strcmp(what, "end") == 0)
        return end_meanwhile();
    if (strcmp(what, "closed") == 0) {
        must(error_at_first == 0);
        return tell_nobody(path, 0);
    }
    close(STDERR_FILENO);
    return tell_nobody(path, O_CLOEXEC);
}

__attribute__((noreturn)) static void become(const char *program, const char *act, const char *path)
{
    prctl(PR_SET_PDEATHSIG, SIGKILL);
    setenv("NTWIN_WHY", "signal", 1);
    execl("/proc/self/exe", program, act, path, (char *)NULL);
    _exit(2);
}

/* This program does that, where standard error is closed, or is closed and then opened. */
static void tells_nobody(const char *program, const char *act, bool is_closed)
{
    char path[] = "/tmp/ntwin-XXXXXX";
    struct stat file;
    must(close(mkstemp(path)) == 0);
    const pid_t child = fork();
    if (child == 0 && is_closed)
        close(STDERR_FILENO);
    if (child == 0)
        become(program, act, path);
    IS(status_of(child), 0);
    must(stat(path, &file) == 0 && unlink(path) == 0);
    IS(file.st_size, 0);
}

/* This program does that, and has written this to its end. */
static int told_by(const char *program, const char *act, char *told, size_t room)
{
    int ends[2];
    size_t length = 0;
    must(pipe(ends) == 0);
    const pid_t child = fork();
    if (child == 0) {
        dup2(ends[1], STDERR_FILENO);
        close(ends[0]);
        close(ends[1]);
        become(program, act, NULL);
    }
    close(ends[1]);
    for (ssize_t more; length < room - 1 && (more = read(ends[0], told + length, room - 1 - length)) > 0;)
        length += (size_t)more;
    told[length] = 0;
    close(ends[0]);
    return status_of(child);
}

int main(int count, char **words)
{
    static char told[4096];
    error_at_first = errno;
    if (count > 1)
        return act(words[1], count > 2 ? words[2] : NULL);
    IS(told_by(words[0], "fork", told, sizeof told), 0);
    IS(strcmp(told, "ntwin: 0 threads wait, 1 runs\n  nobody waits\n"), 0);
    IS(told_by(words[0], "end", told, sizeof told), 0);
    IS(strcmp(told, "ntwin: 0 threads wait, 1 runs\n  nobody waits\n"), 0);
    tells_nobody(words[0], "closed", true);
    tells_nobody(words[0], "closes", false);
    return counted();
}
