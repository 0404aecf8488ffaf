/* The pool's threads, and the one that keeps its timers, are there as the process ends: nothing of theirs is lost (valgrind). */
#include <windows.h>

#include "check.h"

static void CALLBACK note_timer(PVOID event, BOOLEAN is_timeout)
{
    (void)is_timeout;
    SetEvent(event);
}

static DWORD WINAPI note_item(LPVOID event)
{
    SetEvent(event);
    return 0;
}

int main(void)
{
    HANDLE timer, wait, done = CreateEvent(NULL, FALSE, FALSE, NULL), signaled = CreateEvent(NULL, FALSE, TRUE, NULL);
    must(done != NULL && signaled != NULL);
    IS(CreateTimerQueueTimer(&timer, NULL, note_timer, done, 1, 0, WT_EXECUTEDEFAULT), TRUE);
    IS(WaitForSingleObject(done, INFINITE), WAIT_OBJECT_0);
    IS(DeleteTimerQueueTimer(NULL, timer, INVALID_HANDLE_VALUE), TRUE);
    IS(QueueUserWorkItem(note_item, done, 0), TRUE);
    IS(WaitForSingleObject(done, INFINITE), WAIT_OBJECT_0);
    IS(RegisterWaitForSingleObject(&wait, signaled, note_timer, done, INFINITE, WT_EXECUTEONLYONCE), TRUE);
    IS(WaitForSingleObject(done, INFINITE), WAIT_OBJECT_0);
    IS(UnregisterWaitEx(wait, INVALID_HANDLE_VALUE), TRUE);
    CloseHandle(signaled);
    CloseHandle(done);
    return counted();
}
