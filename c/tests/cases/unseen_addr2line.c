/* Within 20 s: 6 passed, 0 failed.
 *
 * A report asks addr2line for lines. The program gets no SIGCHLD by that, and no wait for any child finds one. */
#include "case.h"

#include <stdio.h>
#include <stdlib.h>
#include <sys/stat.h>

static volatile sig_atomic_t signals;
static HANDLE event;

static void on_child(int signal)
{
    (void)signal;
    signals++;
}

static DWORD WINAPI waits(LPVOID unused)
{
    (void)unused;
    return WaitForSingleObject(event, INFINITE);
}

/* Another addr2line, the only program in PATH. */
static void stand_in(const char *folder)
{
    static const char script[] = "#!/bin/sh\nfor it; do echo seen.c:7; done\n";
    char path[64];
    snprintf(path, sizeof path, "%s/addr2line", folder);
    FILE *file = fopen(path, "w");
    must(file != NULL && fputs(script, file) >= 0 && fclose(file) == 0 && chmod(path, 0700) == 0 && setenv("PATH", folder, 1) == 0);
}

static void put_away(const char *folder)
{
    char path[64];
    snprintf(path, sizeof path, "%s/addr2line", folder);
    must(unlink(path) == 0 && rmdir(folder) == 0);
}

static int is_told(const char *words)
{
    char *text;
    size_t length;
    FILE *file = open_memstream(&text, &length);
    must(file != NULL);
    ntwin_why(file);
    must(fclose(file) == 0);
    const int found = strstr(text, words) != NULL;
    free(text);
    return found;
}

int main(void)
{
    char folder[] = "/tmp/unseen_addr2line.XXXXXX";
    must(mkdtemp(folder) != NULL && signal(SIGCHLD, on_child) != SIG_ERR);
    stand_in(folder);
    event = CreateEvent(NULL, TRUE, FALSE, NULL);
    HANDLE thread = CreateThread(NULL, 0, waits, NULL, 0, NULL);
    while (!is_told(" waits for "))
        rest_ms(1);
    for (int i = 0; i < 3; i++)
        IS(is_told("seen.c:7"), 1);
    put_away(folder);
    rest_ms(100);
    IS(signals, 0);
    IS(waitpid(-1, NULL, __WALL | WNOHANG), -1);
    IS(errno, ECHILD);
    SetEvent(event);
    WaitForSingleObject(thread, INFINITE);
    return counted();
}
