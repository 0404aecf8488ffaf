/* Two threads hand the turn to each other by SignalObjectAndWait, in one step each. The first ends before the other, with which the program ends. */
#include "say.h"

static HANDLE ping, pong;

static DWORD WINAPI other(void *nothing)
{
    (void)nothing;
    WaitForSingleObject(ping, INFINITE);
    for (unsigned i = 1; i <= 3; i++) {
        say("pong ", i);
        SignalObjectAndWait(pong, ping, INFINITE, FALSE);
    }
    say("the other ends after ", 3);
    Sleep(1);
    return 6;
}

void start(void)
{
    ping = CreateEventA(NULL, FALSE, FALSE, NULL);
    pong = CreateEventA(NULL, FALSE, FALSE, NULL);
    CreateThread(NULL, 0, other, NULL, 0, NULL);
    for (unsigned i = 1; i <= 3; i++) {
        say("ping ", i);
        SignalObjectAndWait(ping, pong, INFINITE, FALSE);
    }
    SetEvent(ping);
    ExitThread(3);
}
