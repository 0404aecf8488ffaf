/* What a run does at the edges of a journal, and of telling why. The first word says what:
 *   knot      two threads hold each other, and main ends the process
 *   many      calls by which the journal grows several times
 *   numbers   objects, until all numbers were given
 *   closed    events, each of which is closed before the next is made
 *   events    the same, but more than there are numbers
 *   threads   threads one after another, more than a journal has numbers for
 *   fork      a child goes on, and then its parent
 *   closes    the program closes each file that it did not open, and opens one */
#include <windows.h>

#include <fcntl.h>
#include <stdio.h>
#include <stdlib.h>
#include <string.h>
#include <sys/wait.h>
#include <unistd.h>

#include "../check.h"

static HANDLE locks[2], ready, go;

static DWORD WINAPI take_both(LPVOID at)
{
    const int me = (int)(intptr_t)at;
    WaitForSingleObject(locks[me], INFINITE);
    if (me == 0)
        SignalObjectAndWait(ready, go, INFINITE, FALSE);
    SignalObjectAndWait(ready, locks[1 - me], INFINITE, FALSE);
    return 0;
}

/* The knot is reported, or not, before the first of its threads sleeps. */
static void tie_knot(void)
{
    HANDLE threads[2];
    ready = CreateEvent(NULL, FALSE, FALSE, NULL);
    go = CreateEvent(NULL, FALSE, FALSE, NULL);
    for (int i = 0; i < 2; i++)
        locks[i] = CreateMutex(NULL, FALSE, NULL);
    for (int i = 0; i < 2; i++) {
        threads[i] = CreateThread(NULL, 0, take_both, (LPVOID)(intptr_t)i, 0, NULL);
        must(WaitForSingleObject(ready, INFINITE) == WAIT_OBJECT_0);
    }
    must(SetEvent(go) && WaitForSingleObject(ready, INFINITE) == WAIT_OBJECT_0);
    IS(WaitForMultipleObjects(2, threads, FALSE, 100), WAIT_TIMEOUT);
}

static void make_calls(int count)
{
    HANDLE event = CreateEvent(NULL, FALSE, FALSE, NULL);
    for (int i = 0; i < count; i++)
        must(SetEvent(event) && WaitForSingleObject(event, INFINITE) == WAIT_OBJECT_0);
    ANSWERS(SetEvent(NULL), FALSE, ERROR_INVALID_HANDLE);
    ANSWERS(WaitForMultipleObjects(0, &event, FALSE, INFINITE), WAIT_FAILED, ERROR_INVALID_PARAMETER);
}

static void use_all_numbers(void)
{
    LONG made = 0;
    while (CreateSemaphore(NULL, 1, 1, NULL) != NULL)
        made++;
    /* (In a journal there are 256 threads, and else 4,096, whose own handles have the first numbers.) */
    IS(made, 65536 - (getenv("NTWIN_JOURNAL") != NULL ? 256 : 4096));
    IS(GetLastError(), ERROR_NO_SYSTEM_RESOURCES);
}

static void close_each(void)
{
    for (int i = 0; i < 300; i++) {
        HANDLE event = CreateEvent(NULL, TRUE, i % 2, NULL);
        must(WaitForSingleObject(event, 0) == (DWORD)(i % 2 ? WAIT_OBJECT_0 : WAIT_TIMEOUT) && CloseHandle(event));
    }
    IS(GetLastError(), ERROR_SUCCESS);
}

/* A handle that was closed is refused, though its number is another event's. */
static void outlive_handles(void)
{
    const int count = 70000;
    HANDLE closed = NULL;
    for (int i = 0; i < count; i++) {
        HANDLE event = CreateEvent(NULL, TRUE, i % 2, NULL);
        must(event != NULL);
        if (i % 1000 < 2)
            must(WaitForSingleObject(event, 0) == (DWORD)(i % 2 ? WAIT_OBJECT_0 : WAIT_TIMEOUT));
        if (i > count - 100)
            must(!SetEvent(closed) && GetLastError() == ERROR_INVALID_HANDLE);
        must(CloseHandle(event));
        closed = event;
    }
    ANSWERS(CloseHandle(closed), FALSE, ERROR_INVALID_HANDLE);
}

static DWORD WINAPI set_and_end(LPVOID event)
{
    return SetEvent(event) ? 7 : 8;
}

/* The first one's handle is kept open, and so names it to the end. */
static void outlive_threads(void)
{
    HANDLE event = CreateEvent(NULL, FALSE, FALSE, NULL), first = NULL;
    DWORD code;
    for (int i = 0; i < 600; i++) {
        HANDLE thread = CreateThread(NULL, 0, set_and_end, event, 0, NULL);
        must(thread != NULL && WaitForSingleObject(event, INFINITE) == WAIT_OBJECT_0);
        must(WaitForSingleObject(thread, INFINITE) == WAIT_OBJECT_0 && GetExitCodeThread(thread, &code) && code == 7);
        if (first == NULL)
            first = thread;
        else
            must(CloseHandle(thread));
    }
    IS(GetExitCodeThread(first, &code) && code == 7, TRUE);
    IS(WaitForSingleObject(first, 0), WAIT_OBJECT_0);
}

static void fork_once(void)
{
    int status = 0;
    HANDLE event = CreateEvent(NULL, FALSE, FALSE, NULL);
    const pid_t child = fork();
    if (child == 0)
        _exit(!(ResetEvent(event) && ResetEvent(event)));
    IS(waitpid(child, &status, 0), child);
    IS(status, 0);
    IS(SetEvent(event), TRUE);
}

static void close_all(const char *path)
{
    char text[8] = "";
    for (int file = 3; file < 64; file++)
        close(file);
    const int mine = open(path, O_RDWR | O_CREAT | O_TRUNC, 0600);
    must(mine >= 0 && write(mine, "mine", 4) == 4);
    make_calls(60000);
    must(lseek(mine, 0, SEEK_END) == 4 && lseek(mine, 0, SEEK_SET) == 0 && read(mine, text, 8) == 4);
    IS(strcmp(text, "mine"), 0);
}

int main(int count, char **words)
{
    const char *what = count > 1 ? words[1] : "";
    if (strcmp(what, "knot") == 0)
        tie_knot();
    else if (strcmp(what, "many") == 0)
        make_calls(60000);
    else if (strcmp(what, "numbers") == 0)
        use_all_numbers();
    else if (strcmp(what, "closed") == 0)
        close_each();
    else if (strcmp(what, "events") == 0)
        outlive_handles();
    else if (strcmp(what, "threads") == 0)
        outlive_threads();
    else if (strcmp(what, "fork") == 0)
        fork_once();
    else if (strcmp(what, "closes") == 0)
        close_all(words[2]);
    return counted();
}
