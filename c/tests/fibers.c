/* Fibers: who runs, in which order, with what in its slots and on its stack; how they end, and how a thread ends with them; and that they go from
 * thread to thread. */
#include <windows.h>

#include "check.h"

enum { STEPS = 8 };
static char ORDER[64];
static PVOID MAIN, ONE, TWO;

static void note(char letter)
{
    const size_t length = strlen(ORDER);
    must(length + 1 < sizeof ORDER);
    ORDER[length] = letter;
}

static void WINAPI run_one(LPVOID data)
{
    volatile char on_stack[20000];
    for (char letter = 'a';; letter++) {
        on_stack[letter * 100] = letter;
        IS(data == &ONE && GetFiberData() == &ONE && GetCurrentFiber() == ONE, 1);
        note(letter);
        SwitchToFiber(letter % 2 ? TWO : MAIN);
        IS(on_stack[letter * 100], letter);
    }
}

static void WINAPI run_two(LPVOID data)
{
    (void)data;
    for (char letter = 'A';; letter++) {
        note(letter);
        SwitchToFiber(letter == 'A' ? ONE : MAIN);
    }
}

static void order(void)
{
    IS(IsThreadAFiber(), FALSE);
    IS((ULONG_PTR)GetCurrentFiber(), 0x1E00);
    ANSWERS(ConvertFiberToThread(), FALSE, ERROR_ALREADY_THREAD);
    must((MAIN = ConvertThreadToFiber(&MAIN)) != NULL);
    IS(IsThreadAFiber() && GetCurrentFiber() == MAIN && GetFiberData() == &MAIN, 1);
    ANSWERS(ConvertThreadToFiber(NULL), NULL, ERROR_ALREADY_FIBER);
    ANSWERS(CreateFiber(0, NULL, NULL), NULL, ERROR_INVALID_PARAMETER);
    ANSWERS(CreateFiberEx(0, 0, 2, run_one, NULL), NULL, ERROR_INVALID_PARAMETER);
    must((ONE = CreateFiber(0, run_one, &ONE)) != NULL);
    must((TWO = CreateFiberEx(0, 1 << 16, FIBER_FLAG_FLOAT_SWITCH, run_two, NULL)) != NULL);
    SwitchToFiber(ONE);
    note('.');
    SwitchToFiber(TWO);
    note('.');
    SwitchToFiber(ONE);
    IS(strcmp(ORDER, "aAb.B.cC"), 0);
    DeleteFiber(ONE);
    DeleteFiber(TWO);
    ANSWERS(ConvertFiberToThread(), TRUE, UNTOUCHED);
    IS(IsThreadAFiber(), FALSE);
}

static DWORD SLOT;
static LONG HANDED_BACK;

static void WINAPI take_back(PVOID value)
{
    HANDED_BACK += (LONG)(ULONG_PTR)value;
}

static void WINAPI keep_value(LPVOID data)
{
    IS(FlsGetValue(SLOT) == NULL, 1);
    IS(FlsSetValue(SLOT, data), TRUE);
    SwitchToFiber(MAIN);
    IS(FlsGetValue(SLOT) == data, 1);
    SwitchToFiber(MAIN);
}

/* Each fiber has its own value, which goes with it; those of TlsAlloc are the thread's. */
static void slots(void)
{
    const DWORD of_thread = TlsAlloc();
    must((SLOT = FlsAlloc(take_back)) != FLS_OUT_OF_INDEXES);
    FlsSetValue(SLOT, (PVOID)1);
    TlsSetValue(of_thread, (PVOID)77);
    must((MAIN = ConvertThreadToFiberEx(NULL, 0)) != NULL);
    IS(FlsGetValue(SLOT) == (PVOID)1, 1);
    must((ONE = CreateFiber(0, keep_value, (PVOID)10)) != NULL && (TWO = CreateFiber(0, keep_value, (PVOID)100)) != NULL);
    SwitchToFiber(ONE);
    SwitchToFiber(TWO);
    IS(FlsGetValue(SLOT) == (PVOID)1 && TlsGetValue(of_thread) == (PVOID)77, 1);
    SwitchToFiber(ONE);
    SwitchToFiber(TWO);
    IS(HANDED_BACK, 0);
    DeleteFiber(ONE);
    IS(HANDED_BACK, 10);
    must(ConvertFiberToThread());
    IS(FlsGetValue(SLOT) == (PVOID)1, 1);
    /* (A fiber that rests has its value taken back, too.) */
    must(FlsFree(SLOT));
    IS(HANDED_BACK, 111);
    DeleteFiber(TWO);
    IS(HANDED_BACK, 111);
    TlsFree(of_thread);
}

static void WINAPI return_at_once(LPVOID data)
{
    *(LONG *)data += 1;
}

static void WINAPI exit_with_5(LPVOID data)
{
    *(LONG *)data += 1;
    ExitThread(5);
}

static void WINAPI delete_itself(LPVOID data)
{
    *(LONG *)data += 1;
    DeleteFiber(GetCurrentFiber());
}

struct ending {
    LPFIBER_START_ROUTINE routine;
    LONG begun;
    PVOID fiber;
};

static DWORD WINAPI end_in_fiber(LPVOID at)
{
    struct ending *ending = at;
    must(ConvertThreadToFiber(NULL) != NULL);
    FlsSetValue(SLOT, (PVOID)1);
    must((ending->fiber = CreateFiber(0, ending->routine, &ending->begun)) != NULL);
    SwitchToFiber(ending->fiber);
    must(0);
    return 9;
}

static DWORD WINAPI end_as_fiber(LPVOID none)
{
    (void)none;
    must(ConvertThreadToFiber(NULL) != NULL);
    FlsSetValue(SLOT, (PVOID)1);
    return 3;
}

/* The thread's exit code, where its values were handed back. */
static DWORD ended_with(LPTHREAD_START_ROUTINE start, LPVOID parameter)
{
    DWORD code = 99;
    HANDED_BACK = 0;
    HANDLE thread = CreateThread(NULL, 0, start, parameter, 0, NULL);
    must(thread != NULL && WaitForSingleObject(thread, 100000) == WAIT_OBJECT_0 && GetExitCodeThread(thread, &code));
    CloseHandle(thread);
    IS(HANDED_BACK, 1);
    return code;
}

static void ends(void)
{
    struct ending returns = { return_at_once, 0, NULL }, exits = { exit_with_5, 0, NULL }, deletes = { delete_itself, 0, NULL };
    must((SLOT = FlsAlloc(take_back)) != FLS_OUT_OF_INDEXES);
    IS(ended_with(end_in_fiber, &returns), 0);
    IS(ended_with(end_in_fiber, &exits), 5);
    IS(ended_with(end_in_fiber, &deletes), 1);
    IS(returns.begun == 1 && exits.begun == 1 && deletes.begun == 1, 1);
    DeleteFiber(returns.fiber);
    DeleteFiber(exits.fiber);
    IS(ended_with(end_as_fiber, NULL), 3);
    must(FlsFree(SLOT));
}

/* A fiber that two threads run in turn: it waits, and knows on which thread it is. */
static PVOID BACK;
static LONG ROUNDS;

static void WINAPI go_round(LPVOID event)
{
    for (;;) {
        IS(WaitForSingleObject(event, 100000), WAIT_OBJECT_0);
        ROUNDS++;
        SetLastError(GetCurrentThreadId());
        SwitchToFiber(BACK);
    }
}

static DWORD WINAPI run_rounds(LPVOID fiber)
{
    must((BACK = ConvertThreadToFiber(NULL)) != NULL);
    for (int i = 0; i < STEPS; i++) {
        SwitchToFiber(fiber);
        IS(GetLastError(), GetCurrentThreadId());
    }
    must(ConvertFiberToThread());
    return 0;
}

static void from_thread_to_thread(void)
{
    HANDLE event = CreateEvent(NULL, TRUE, TRUE, NULL);
    PVOID fiber = CreateFiber(0, go_round, event);
    must(event != NULL && fiber != NULL);
    run_rounds(fiber);
    for (int i = 0; i < 2; i++) {
        HANDLE thread = CreateThread(NULL, 0, run_rounds, fiber, 0, NULL);
        IS(WaitForSingleObject(thread, 100000), WAIT_OBJECT_0);
        CloseHandle(thread);
    }
    run_rounds(fiber);
    IS(ROUNDS, 4 * STEPS);
    DeleteFiber(fiber);
    CloseHandle(event);
}

int main(void)
{
    order();
    slots();
    ends();
    from_thread_to_thread();
    return counted();
}
