/* Transfers lock two accounts, first where the money comes from. With FIX the lower one is locked first. */
#include "explored.h"

enum { ACCOUNTS = 3, TRANSFERS = 4 };

static struct account {
    CRITICAL_SECTION lock;
    long money;
} accounts[ACCOUNTS];

static void transfer(int from, int to, long sum)
{
    int first = from, second = to;
#ifdef FIX
    if (first > second) {
        first = to;
        second = from;
    }
#endif
    EnterCriticalSection(&accounts[first].lock);
    EnterCriticalSection(&accounts[second].lock);
    accounts[from].money -= sum;
    accounts[to].money += sum;
    LeaveCriticalSection(&accounts[second].lock);
    LeaveCriticalSection(&accounts[first].lock);
}

static DWORD WINAPI trade(LPVOID at)
{
    const int me = (int)(intptr_t)at;
    for (int i = 0; i < TRANSFERS; i++)
        transfer((me + i) % ACCOUNTS, (me + i + 1) % ACCOUNTS, 5);
    return 0;
}

int main(void)
{
    HANDLE threads[ACCOUNTS];
    long sum = 0;
    for (int i = 0; i < ACCOUNTS; i++) {
        InitializeCriticalSection(&accounts[i].lock);
        accounts[i].money = 100;
    }
    for (int i = 0; i < ACCOUNTS; i++)
        threads[i] = begin(trade, (LPVOID)(intptr_t)i);
    WaitForMultipleObjects(ACCOUNTS, threads, TRUE, INFINITE);
    for (int i = 0; i < ACCOUNTS; i++)
        sum += accounts[i].money;
    EXPECT(sum == 100 * ACCOUNTS);
    return 0;
}
