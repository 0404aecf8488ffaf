/* A list of free places: who takes the first reads what comes after it, and swaps it in. Meanwhile another takes two and gives the first back, so a
 * place is taken twice. Each step is atomic: no race, but a wrong schedule. */
#include "../explored.h"

enum { PLACES = 3, NONE = -1 };

static volatile LONG first, after[PLACES], taken[PLACES];

static LONG take(void)
{
    LONG seen, next;
    do {
        seen = InterlockedCompareExchange(&first, 0, 0);
        if (seen == NONE)
            return NONE;
        next = InterlockedCompareExchange(&after[seen], 0, 0);
    } while (InterlockedCompareExchange(&first, next, seen) != seen);
    EXPECT(InterlockedIncrement(&taken[seen]) == 1);
    return seen;
}

static void give(LONG place)
{
    InterlockedDecrement(&taken[place]);
#ifndef FIX /* (Then what was taken is never given back.) */
    LONG seen;
    do {
        seen = InterlockedCompareExchange(&first, 0, 0);
        InterlockedExchange(&after[place], seen);
    } while (InterlockedCompareExchange(&first, place, seen) != seen);
#endif
}

static DWORD WINAPI take_one(LPVOID nothing)
{
    UNUSED(nothing);
    take();
    take();
    return 0;
}

static DWORD WINAPI take_two_give_one(LPVOID nothing)
{
    UNUSED(nothing);
    const LONG one = take();
    take();
    if (one != NONE)
        give(one);
    return 0;
}

int main(void)
{
    HANDLE threads[2];
    for (int i = 0; i < PLACES; i++)
        after[i] = i + 1 < PLACES ? i + 1 : NONE;
    threads[0] = begin(take_one, NULL);
    threads[1] = begin(take_two_give_one, NULL);
    await_all(threads, 2);
    return 0;
}
