/* Two threads take two locks in another order, main waits for one of them, and a clock goes on. */
#include "hang.h"

static HANDLE accounts, journal, ready, go, tick;

static DWORD WINAPI transfer(LPVOID unused)
{
    UNUSED(unused);
    WaitForSingleObject(accounts, INFINITE);
    SignalObjectAndWait(ready, go, INFINITE, FALSE);
    WaitForSingleObject(journal, INFINITE);
    return 0;
}

static DWORD WINAPI audit(LPVOID unused)
{
    UNUSED(unused);
    WaitForSingleObject(journal, INFINITE);
    SignalObjectAndWait(ready, accounts, INFINITE, FALSE);
    return 0;
}

static DWORD WINAPI count(LPVOID unused)
{
    UNUSED(unused);
    SignalObjectAndWait(ready, tick, 3600000, FALSE);
    return 0;
}

int main(void)
{
    accounts = named(CreateMutexA(NULL, FALSE, NULL), "accounts");
    journal = named(CreateMutexW(NULL, FALSE, NULL), "journal");
    ready = CreateEventA(NULL, FALSE, FALSE, NULL);
    go = CreateEventA(NULL, FALSE, FALSE, NULL);
    tick = CreateEventExA(NULL, NULL, 0, SYNCHRONIZE);
    ntwin_name(GetCurrentThread(), "main");
    HANDLE threads[2] = { begin(transfer, NULL, "transfer"), NULL };
    WaitForSingleObject(ready, INFINITE);
    threads[1] = begin(audit, NULL, "audit");
    WaitForSingleObject(ready, INFINITE);
    begin(count, NULL, "clock");
    WaitForSingleObject(ready, INFINITE);
    SignalObjectAndWait(go, threads[0], INFINITE, FALSE);
    return 0;
}
