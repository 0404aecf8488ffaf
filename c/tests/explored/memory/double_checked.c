/* Who finds the table made looks at it without the lock: nothing orders that after its making. */
#include "../explored.h"

static CRITICAL_SECTION section;
static int rows[4];
#ifdef FIX
static volatile LONG made;
#define IS_MADE() (InterlockedCompareExchange(&made, 0, 0) != 0)
#define SET_MADE() ((void)InterlockedExchange(&made, 1))
#else
static int made;
#define IS_MADE() (made != 0)
#define SET_MADE() ((void)(made = 1))
#endif

static void make_once(void)
{
    if (IS_MADE())
        return;
    EnterCriticalSection(&section);
    if (!IS_MADE()) {
        for (int i = 0; i < 4; i++)
            rows[i] = i + 1;
        SET_MADE();
    }
    LeaveCriticalSection(&section);
}

static DWORD WINAPI use(LPVOID nothing)
{
    UNUSED(nothing);
    make_once();
    return rows[3] == 4 ? 0 : 1;
}

int main(void)
{
    HANDLE threads[2];
    InitializeCriticalSection(&section);
    for (int i = 0; i < 2; i++)
        threads[i] = begin(use, NULL);
    await_all(threads, 2);
    return 0;
}
