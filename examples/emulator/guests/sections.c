/* A critical section that its owner enters twice, and a slim lock with readers and writers. It ends with how many read at once. */
#include "say.h"

static CRITICAL_SECTION section;
static SRWLOCK lock = SRWLOCK_INIT;
static volatile LONG left, right, inside, most, wrong;

static DWORD WINAPI writer(void *nothing)
{
    (void)nothing;
    for (int i = 0; i < 20; i++) {
        AcquireSRWLockExclusive(&lock);
        left++;
        work(30);
        right++;
        ReleaseSRWLockExclusive(&lock);
    }
    return 0;
}

static DWORD WINAPI reader(void *nothing)
{
    (void)nothing;
    for (int i = 0; i < 20; i++) {
        AcquireSRWLockShared(&lock);
        const LONG now = InterlockedIncrement(&inside);
        if (now > most)
            most = now;
        wrong += left != right;
        work(30);
        InterlockedDecrement(&inside);
        ReleaseSRWLockShared(&lock);
        EnterCriticalSection(&section);
        EnterCriticalSection(&section);
        LeaveCriticalSection(&section);
        LeaveCriticalSection(&section);
    }
    return 0;
}

void start(void)
{
    HANDLE threads[4];
    InitializeCriticalSection(&section);
    EnterCriticalSection(&section);
    for (int i = 0; i < 4; i++)
        threads[i] = CreateThread(NULL, 0, i < 2 ? writer : reader, NULL, 0, NULL);
    work(2000);
    LeaveCriticalSection(&section);
    say("all ended, status ", WaitForMultipleObjects(4, threads, TRUE, INFINITE));
    say("written ", (unsigned)left);
    say("read halfway ", (unsigned)wrong);
    say("nobody is inside: ", TryEnterCriticalSection(&section) && TryAcquireSRWLockExclusive(&lock));
    DeleteCriticalSection(&section);
    ExitProcess((UINT)most);
}
