/* How threads and processes end. */
#include "case.h"
#include "../../nt.h"

#include <errno.h>
#include <fcntl.h>
#include <linux/futex.h>
#include <sys/resource.h>
#include <sys/select.h>
#include <sys/syscall.h>

/* exit_in_handler. Within 20 s: 12 passed, 0 failed.
 *
 * A handler of SIGTERM calls exit, wherever in a call the thread is: the process ends, also where the thread has the library's lock. */

enum { CHILDREN = 12 };

static void ends(int signal)
{
    (void)signal;
    exit(0);
}

static void block_end(int how)
{
    sigset_t end;
    sigemptyset(&end);
    sigaddset(&end, SIGTERM);
    must(sigprocmask(how, &end, NULL) == 0);
}

static void call_until_signaled(void)
{
    signal(SIGTERM, ends);
    HANDLE event = CreateEvent(NULL, FALSE, FALSE, NULL);
    /* (A sanitizer looks for leaks at the end, and waits for an allocation that the handler interrupted: so there is none from here on.) */
    must(WaitForSingleObject(event, 0) == WAIT_TIMEOUT);
    block_end(SIG_UNBLOCK);
    for (;;) {
        SetEvent(event);
        WaitForSingleObject(event, 0);
    }
}

int case_exit_in_handler(void)
{
    pid_t children[CHILDREN];
    block_end(SIG_BLOCK); /* (until a child has its handler) */
    for (int i = 0; i < CHILDREN; i++) {
        children[i] = fork();
        must(children[i] >= 0);
        if (children[i] == 0)
            call_until_signaled();
    }
    rest_ms(300);
    for (int i = 0; i < CHILDREN; i++) {
        kill(children[i], SIGTERM);
        rest_ms(1);
    }
    const double began = now_ms();
    for (int i = 0; i < CHILDREN; i++) {
        int status = -1;
        while (waitpid(children[i], &status, WNOHANG) == 0 && now_ms() - began < 100000)
            rest_ms(1);
        IS(status, 0);
        if (status == -1)
            kill(children[i], SIGKILL);
    }
    return counted();
}

/* exit_thread_without_memory. Within 10 s, unsanitized: 1 passed, 0 failed.
 *
 * ExitThread takes no memory, the first time neither. (But a sanitizer does as a thread ends, and ends the process where it gets none.) */

static DWORD exit_without_memory(LPVOID unused)
{
    (void)unused;
    struct rlimit none;
    must(getrlimit(RLIMIT_AS, &none) == 0);
    none.rlim_cur = 1;
    must(setrlimit(RLIMIT_AS, &none) == 0);
    ExitThread(0);
}

int case_exit_thread_without_memory(void)
{
    static char room[256];
    setvbuf(stdout, room, _IOFBF, sizeof room);
    HANDLE thread = CreateThread(NULL, 0, exit_without_memory, NULL, 0, NULL);
    IS(WaitForSingleObject(thread, INFINITE), WAIT_OBJECT_0);
    return counted();
}

/* last_thread. Within 20 s, unsanitized: 1 passed, 0 failed.
 *
 * A process whose first thread has left ends with the last of the others, though a thread of the library's takes SIGQUIT. */

static DWORD ends_last(LPVOID unused)
{
    (void)unused;
    rest_ms(50);
    IS(getenv("NTWIN_WHY") != NULL, 1);
    return (DWORD)counted();
}

int case_last_thread(int count, char **words)
{
    if (count == 1) {
        setenv("NTWIN_WHY", "signal", 1);
        execl("/proc/self/exe", words[0], "again", (char *)NULL);
        return 2;
    }
    must(CreateThread(NULL, 0, ends_last, NULL, 0, NULL) != NULL);
    pthread_exit(NULL);
}

/* journal_beside_output. Within 10 s: threads 256.
 *
 * A program begins with its standard output closed, and writes there: that goes to no file of the library's. */

int case_journal_beside_output(int count, char **words)
{
    char path[] = "/tmp/journal_beside_output_XXXXXX", line[64] = "";
    if (count > 1) {
        must(CreateEvent(NULL, TRUE, FALSE, NULL) != NULL);
        /* (At the end the library has no file any more, so it is written now.) */
        return puts("not for the journal") < 0 || fflush(stdout) == 0;
    }
    const int file = mkstemp(path);
    must(file >= 0 && setenv("NTWIN_JOURNAL", path, 1) == 0);
    const pid_t child = fork();
    if (child == 0) {
        close(STDOUT_FILENO);
        execl("/proc/self/exe", words[0], "again", (char *)NULL);
        _exit(2);
    }
    must(child > 0 && waitpid(child, NULL, 0) == child && read(file, line, sizeof line - 1) > 0 && unlink(path) == 0);
    printf("%.*s\n", (int)strcspn(line, "\n"), line);
    return 0;
}

/* scheduled_calls. Within 10 s, unsanitized: 1 passed, 0 failed.
 *
 * Beside a scheduler a call of the system may have any fourth number, which is an address in some calls alone, and a wait may be as long as can be.
 * Of two that read from one pipe the other waits on, where one has taken what came. Those who sleep on a word are woken by their bits, and by who
 * moves them to another word. */

static DWORD write_later(LPVOID end)
{
    Sleep(1000);
    must(write(*(const int *)end, "x", 1) == 1);
    return 0;
}

static DWORD read_one(LPVOID end)
{
    char byte;
    must(read(*(const int *)end, &byte, 1) == 1);
    return 0;
}

static uint32_t word, other_word;

static DWORD sleep_with_bits(LPVOID bits)
{
    must(syscall(SYS_futex, &word, FUTEX_WAIT_BITSET_PRIVATE, 0, NULL, NULL, (uint32_t)(uintptr_t)bits) == 0);
    return 0;
}

static HANDLE sleeper_with_bits(uintptr_t bits)
{
    HANDLE thread = CreateThread(NULL, 0, sleep_with_bits, (LPVOID)bits, 0, NULL);
    must(thread != NULL);
    Sleep(1);
    return thread;
}

static void wake_on_words(void)
{
    HANDLE one = sleeper_with_bits(1), two = sleeper_with_bits(2);
    IS(syscall(SYS_futex, &word, FUTEX_WAKE_BITSET_PRIVATE, 1, NULL, NULL, 2), 1);
    IS(WaitForSingleObject(two, 1000), WAIT_OBJECT_0);
    IS(WaitForSingleObject(one, 0), WAIT_TIMEOUT);
    IS(syscall(SYS_futex, &word, FUTEX_WAKE_PRIVATE, 1), 1);
    IS(WaitForSingleObject(one, INFINITE), WAIT_OBJECT_0);
    HANDLE moved = sleeper_with_bits(1);
    IS(syscall(SYS_futex, &word, FUTEX_CMP_REQUEUE_PRIVATE, 0, (void *)1, &other_word, 1), -1);
    IS(errno, EAGAIN);
    must(syscall(SYS_futex, &word, FUTEX_CMP_REQUEUE_PRIVATE, 0, (void *)1, &other_word, 0) >= 0);
    syscall(SYS_futex, &other_word, FUTEX_WAKE_PRIVATE, 1);
    IS(WaitForSingleObject(moved, INFINITE), WAIT_OBJECT_0);
}

static int call_by_schedule(void)
{
    int ends[2];
    HANDLE readers[2];
    fd_set reads;
    struct timeval longest = { .tv_sec = LONG_MAX };
    IS(syscall(SYS_openat, AT_FDCWD, "/dev/null", O_RDONLY, 0644L) >= 0, 1);
    must(pipe(ends) == 0 && CreateThread(NULL, 0, write_later, &ends[1], 0, NULL) != NULL);
    FD_ZERO(&reads);
    FD_SET(ends[0], &reads);
    IS(select(ends[0] + 1, &reads, NULL, NULL, &longest), 1);
    IS(read_one(&ends[0]), 0);
    for (int i = 0; i < 2; i++)
        must((readers[i] = CreateThread(NULL, 0, read_one, &ends[0], 0, NULL)) != NULL);
    for (int i = 0; i < 2; i++) {
        Sleep(1);
        must(write(ends[1], "y", 1) == 1);
    }
    IS(WaitForMultipleObjects(2, readers, TRUE, INFINITE), WAIT_OBJECT_0);
    wake_on_words();
    return counted();
}

int case_scheduled_calls(int count, char **words)
{
    int status = -1;
    if (count > 1)
        return call_by_schedule();
    const pid_t child = fork();
    if (child == 0) {
        setenv("NTWIN_SCHEDULE", "random:1;seconds=5", 1);
        must(freopen("/dev/null", "w", stdout) != NULL && freopen("/dev/null", "w", stderr) != NULL);
        execl("/proc/self/exe", words[0], "again", (char *)NULL);
        _exit(2);
    }
    must(child > 0 && waitpid(child, &status, 0) == child);
    IS(status, 0);
    return counted();
}

/* left_for_good. Within 10 s, unsanitized: 10 passed, 0 failed.
 *
 * A thread has left for the library in the last but one round of its destructors: a call in the last round is refused, and does not join it again as
 * another thread, whose end nobody would see. (The sanitizers end a thread in that round, too.) */

enum { LAST_ROUND = PTHREAD_DESTRUCTOR_ITERATIONS };

static pthread_key_t key;
static HANDLE event;
static int rounds;
static BOOL answer;
static DWORD error;

static void at_end(void *value)
{
    if (++rounds < LAST_ROUND) {
        pthread_setspecific(key, value);
        return;
    }
    answer = SetEvent(event);
    error = GetLastError();
}

static void *wait_once(void *none)
{
    (void)none;
    IS(WaitForSingleObject(event, 0), WAIT_TIMEOUT);
    pthread_setspecific(key, &key);
    return NULL;
}

int case_left_for_good(void)
{
    must((event = CreateEvent(NULL, TRUE, FALSE, NULL)) != NULL && pthread_key_create(&key, at_end) == 0);
    for (int i = 0; i < 2; i++) {
        pthread_t thread;
        rounds = 0;
        answer = TRUE;
        must(pthread_create(&thread, NULL, wait_once, NULL) == 0 && pthread_join(thread, NULL) == 0);
        IS(rounds, LAST_ROUND);
        IS(answer, FALSE);
        IS(error, NT_ERROR_THREAD_ENDED);
        IS(WaitForSingleObject(event, 0), WAIT_TIMEOUT);
    }
    return counted();
}
