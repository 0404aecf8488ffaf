/* The many threads of ../threads.c, with what each wait answered: a line for each thread, `tN STATUS..`, in its own order. Words: how many
 * hand-overs. */
#include <windows.h>

#include <stdio.h>
#include <stdlib.h>

enum { SEATS = 256, MOST_WAITS = 1 << 14 };

/* What the waits of a thread answered, which it alone writes. */
static struct {
    DWORD *statuses;
    size_t count;
} noted[SEATS];

/* The number of the caller in the dispatcher: a thread that CreateThread made has it in its id, and the others are the first. */
static DWORD number_of_caller(void)
{
    const DWORD id = GetCurrentThreadId();
    return id % 4 == 0 ? id / 4 - 1 : 0;
}

static DWORD note_status(DWORD status)
{
    const DWORD me = number_of_caller();
    if (noted[me].statuses == NULL)
        noted[me].statuses = calloc(MOST_WAITS, sizeof *noted[me].statuses);
    if (noted[me].statuses == NULL || noted[me].count == MOST_WAITS)
        abort();
    return noted[me].statuses[noted[me].count++] = status;
}

#define WaitForSingleObject(object, ms) note_status(WaitForSingleObject(object, ms))
#define WaitForMultipleObjects(count, objects, all, ms) note_status(WaitForMultipleObjects(count, objects, all, ms))
#define SignalObjectAndWait(signal, object, ms, alertable) note_status(SignalObjectAndWait(signal, object, ms, alertable))
#define Sleep(ms) note_status((SleepEx)(ms, FALSE))
#define SleepEx(ms, alertable) note_status((SleepEx)(ms, alertable))
#define ROUNDS 200
#define main run_threads
#include "../threads.c"
#undef main

int main(int count, char **words)
{
    const int failed = run_threads(count, words);
    for (int i = 0; i < SEATS; i++) {
        if (noted[i].count == 0)
            continue;
        printf("t%d", i);
        for (size_t at = 0; at < noted[i].count; at++)
            printf(" %x", noted[i].statuses[at]);
        printf("\n");
    }
    return failed;
}
