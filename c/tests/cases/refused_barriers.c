/* Within 20 s: 3 passed, 0 failed.
 *
 * The system comes to refuse membarrier(2) once the lock favours a thread, and refuses it to the next program from the beginning: threads may call
 * all the same. */
#include "case.h"

#include <linux/filter.h>
#include <linux/seccomp.h>
#include <stddef.h>
#include <sys/prctl.h>
#include <sys/syscall.h>

enum { CALLS = 1000 };

static HANDLE semaphore;

/* From now on, in each thread, and in the program that follows. */
static void refuse_barriers(void)
{
    struct sock_filter lines[] = {
        BPF_STMT(BPF_LD | BPF_W | BPF_ABS, offsetof(struct seccomp_data, nr)),
        BPF_JUMP(BPF_JMP | BPF_JEQ | BPF_K, SYS_membarrier, 0, 1),
        BPF_STMT(BPF_RET | BPF_K, SECCOMP_RET_ERRNO | EPERM),
        BPF_STMT(BPF_RET | BPF_K, SECCOMP_RET_ALLOW),
    };
    const struct sock_fprog filter = { sizeof lines / sizeof *lines, lines };
    if (prctl(PR_SET_NO_NEW_PRIVS, 1, 0, 0, 0) == 0 && syscall(SYS_seccomp, SECCOMP_SET_MODE_FILTER, SECCOMP_FILTER_FLAG_TSYNC, &filter) == 0)
        return;
    puts("no filter of system calls is allowed here");
    fflush(stdout);
    _exit(77);
}

static DWORD releases(LPVOID unused)
{
    (void)unused;
    for (int i = 0; i < CALLS; i++)
        must(ReleaseSemaphore(semaphore, 1, NULL));
    return 0;
}

/* This thread calls, and then others do: by themselves, and beside it. Answers how often the semaphore was released. */
static LONG released_by_all(void (*between)(void))
{
    LONG count;
    semaphore = CreateSemaphore(NULL, 0, 4 * CALLS, NULL);
    releases(NULL);
    between();
    HANDLE first = CreateThread(NULL, 0, releases, NULL, 0, NULL);
    must(WaitForSingleObject(first, INFINITE) == WAIT_OBJECT_0);
    HANDLE second = CreateThread(NULL, 0, releases, NULL, 0, NULL);
    releases(NULL);
    must(WaitForSingleObject(second, INFINITE) == WAIT_OBJECT_0);
    must(!ReleaseSemaphore(semaphore, 1, NULL) && GetLastError() == ERROR_TOO_MANY_POSTS);
    for (count = 0; WaitForSingleObject(semaphore, 0) == WAIT_OBJECT_0; count++)
        continue;
    return count;
}

static void does_nothing(void)
{
}

int main(int words, char **word)
{
    if (words == 1) {
        must(released_by_all(refuse_barriers) == 4 * CALLS);
        execl("/proc/self/exe", word[0], "refused", NULL);
    }
    IS(words, 2);
    IS(syscall(SYS_membarrier, 0, 0, 0), -1);
    IS(released_by_all(does_nothing), 4 * CALLS);
    return counted();
}
