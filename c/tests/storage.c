/* Slots of TLS and FLS, the C runtime's threads, and the small calls on threads, the machine and the time of day: what each answers with its last
 * error, row by row, from Microsoft's pages; and slots under threads. */
#include <windows.h>

#include <process.h>

#include "check.h"

#include <errno.h>
#include <pthread.h>

enum { THREADS = 4, TLS_SLOTS = 1088 };

static void run(void *(*what)(void *), void *argument)
{
    pthread_t thread;
    must(pthread_create(&thread, NULL, what, argument) == 0);
    must(pthread_join(thread, NULL) == 0);
}

/* ---- TLS. */

static DWORD SLOT;

static void *see_that_it_is_null(void *none)
{
    ANSWERS(TlsGetValue(SLOT), 0, ERROR_SUCCESS);
    ANSWERS(TlsSetValue(SLOT, &SLOT), TRUE, UNTOUCHED);
    ANSWERS(TlsGetValue(SLOT), (uintptr_t)&SLOT, ERROR_SUCCESS);
    return none;
}

static void tls(void)
{
    static DWORD slots[TLS_SLOTS];
    int count = 0;
    must((SLOT = TlsAlloc()) != TLS_OUT_OF_INDEXES);
    run(see_that_it_is_null, NULL);
    see_that_it_is_null(NULL);
    run(see_that_it_is_null, NULL);
    /* A slot that is given back and taken again is null. */
    ANSWERS(TlsFree(SLOT), TRUE, UNTOUCHED);
    ANSWERS(TlsFree(SLOT), FALSE, ERROR_INVALID_PARAMETER);
    ANSWERS(TlsAlloc(), SLOT, UNTOUCHED);
    see_that_it_is_null(NULL);
    ANSWERS(TlsFree(SLOT), TRUE, UNTOUCHED);
    ANSWERS(TlsGetValue(TLS_SLOTS), 0, ERROR_INVALID_PARAMETER);
    ANSWERS(TlsSetValue(TLS_SLOTS, NULL), FALSE, ERROR_INVALID_PARAMETER);
    ANSWERS(TlsFree(TLS_SLOTS), FALSE, ERROR_INVALID_PARAMETER);
    ANSWERS(TlsFree(TLS_OUT_OF_INDEXES), FALSE, ERROR_INVALID_PARAMETER);
    while (count < TLS_SLOTS && (slots[count] = TlsAlloc()) != TLS_OUT_OF_INDEXES) {
        IS((uintptr_t)TlsGetValue(slots[count]), 0);
        must(TlsSetValue(slots[count], &slots[count]));
        count++;
    }
    IS(count, TLS_SLOTS);
    ANSWERS(TlsAlloc(), TLS_OUT_OF_INDEXES, ERROR_NO_MORE_ITEMS);
    for (int i = 0; i < count; i++) {
        must(TlsGetValue(slots[i]) == &slots[i]);
        must(TlsFree(slots[i]));
    }
}

static void *take_and_give_slots(void *wrong)
{
    for (int i = 0; i < 2000; i++) {
        const DWORD slot = i % 2 ? TlsAlloc() : FlsAlloc(NULL);
        must(slot != TLS_OUT_OF_INDEXES);
        if ((i % 2 ? TlsGetValue(slot) : FlsGetValue(slot)) != NULL)
            InterlockedIncrement(wrong);
        must(i % 2 ? TlsSetValue(slot, wrong) : FlsSetValue(slot, wrong));
        if ((i % 2 ? TlsGetValue(slot) : FlsGetValue(slot)) != wrong)
            InterlockedIncrement(wrong);
        must(i % 2 ? TlsFree(slot) : FlsFree(slot));
    }
    return NULL;
}

static void slots_under_threads(void)
{
    pthread_t threads[THREADS];
    LONG wrong = 0;
    for (int i = 0; i < THREADS; i++)
        must(pthread_create(&threads[i], NULL, take_and_give_slots, &wrong) == 0);
    for (int i = 0; i < THREADS; i++)
        must(pthread_join(threads[i], NULL) == 0);
    IS(wrong, 0);
}

/* ---- FLS. */

static LONG CALLED;
static volatile LONG SUM;
static DWORD OTHER;

static void WINAPI take_back(PVOID value)
{
    InterlockedIncrement(&CALLED);
    InterlockedExchangeAdd(&SUM, (LONG)(intptr_t)value);
}

/* (It sets the slot once more, which is taken back too.) */
static void WINAPI take_back_and_set(PVOID value)
{
    take_back(value);
    if ((intptr_t)value > 1000)
        must(FlsSetValue(OTHER, (PVOID)1));
}

static void *set_and_end(void *value)
{
    must(FlsSetValue(SLOT, value));
    return NULL;
}

static HANDLE GO, READY;

static void *set_and_wait(void *value)
{
    must(FlsSetValue(SLOT, value));
    SetEvent(READY);
    must(WaitForSingleObject(GO, INFINITE) == WAIT_OBJECT_0);
    must(FlsGetValue(SLOT) == NULL);
    return NULL;
}

static void fls(void)
{
    pthread_t thread;
    SLOT = FlsAlloc(take_back);
    must(SLOT != FLS_OUT_OF_INDEXES && SLOT != 0);
    ANSWERS(FlsGetValue(SLOT), 0, ERROR_SUCCESS);
    ANSWERS(FlsSetValue(SLOT, (PVOID)5), TRUE, UNTOUCHED);
    ANSWERS(FlsGetValue(SLOT), 5, ERROR_SUCCESS);
    ANSWERS(FlsGetValue(0), 0, ERROR_INVALID_PARAMETER);
    ANSWERS(FlsSetValue(0, NULL), FALSE, ERROR_INVALID_PARAMETER);
    ANSWERS(FlsGetValue(FLS_MAXIMUM_AVAILABLE), 0, ERROR_INVALID_PARAMETER);
    ANSWERS(FlsSetValue(FLS_OUT_OF_INDEXES, NULL), FALSE, ERROR_INVALID_PARAMETER);
    ANSWERS(FlsFree(0), FALSE, ERROR_INVALID_PARAMETER);
    ANSWERS(FlsFree(FLS_MAXIMUM_AVAILABLE), FALSE, ERROR_INVALID_PARAMETER);
    /* At a thread's end the callback gets its value, unless that is null. */
    run(set_and_end, (void *)70);
    IS(CALLED, 1);
    IS(SUM, 70);
    run(set_and_end, NULL);
    IS(CALLED, 1);
    OTHER = FlsAlloc(take_back_and_set);
    const DWORD first = SLOT;
    SLOT = OTHER;
    run(set_and_end, (void *)2000);
    IS(CALLED, 3);
    IS(SUM, 70 + 2000 + 1);
    IS(FlsFree(OTHER), TRUE);
    SLOT = first;
    /* As the slot is freed, it gets the value of each thread. */
    must((GO = CreateEvent(NULL, TRUE, FALSE, NULL)) != NULL && (READY = CreateEvent(NULL, FALSE, FALSE, NULL)) != NULL);
    must(pthread_create(&thread, NULL, set_and_wait, (void *)9) == 0);
    must(WaitForSingleObject(READY, INFINITE) == WAIT_OBJECT_0);
    CALLED = SUM = 0;
    ANSWERS(FlsFree(SLOT), TRUE, UNTOUCHED);
    IS(CALLED, 2);
    IS(SUM, 5 + 9);
    ANSWERS(FlsFree(SLOT), FALSE, ERROR_INVALID_PARAMETER);
    SetEvent(GO);
    must(pthread_join(thread, NULL) == 0);
    IS(CALLED, 2);
    CloseHandle(GO);
    CloseHandle(READY);
}

/* ---- The C runtime's threads. */

static unsigned __stdcall end_by_return(void *argument)
{
    InterlockedIncrement(argument);
    return 7;
}

static unsigned __stdcall end_at_once(void *argument)
{
    InterlockedIncrement(argument);
    _endthreadex(8);
}

static void __cdecl begun_by_return(void *event)
{
    must(WaitForSingleObject(event, INFINITE) == WAIT_OBJECT_0);
}

static void __cdecl begun_to_end(void *event)
{
    must(WaitForSingleObject(event, INFINITE) == WAIT_OBJECT_0);
    _endthread();
}

static void threads_of_the_runtime(void)
{
    unsigned id = 0;
    unsigned long error = 0;
    LONG ran = 0;
    HANDLE thread, same, event, self = GetCurrentProcess();
    must((event = CreateEvent(NULL, FALSE, FALSE, NULL)) != NULL);
    must((thread = (HANDLE)_beginthreadex(NULL, 0, end_by_return, &ran, 0, &id)) != NULL);
    IS(WaitForSingleObject(thread, INFINITE), WAIT_OBJECT_0);
    IS(ran, 1);
    IS(id != 0 && id != GetCurrentThreadId(), 1);
    IS(CloseHandle(thread), TRUE);
    must((thread = (HANDLE)_beginthreadex(NULL, 65536, end_at_once, &ran, 0, NULL)) != NULL);
    IS(WaitForSingleObject(thread, INFINITE), WAIT_OBJECT_0);
    IS(ran, 2);
    IS(CloseHandle(thread), TRUE);
    errno = 0;
    IS(_set_doserrno(77), 0);
    IS(_beginthreadex(NULL, 0, NULL, NULL, 0, NULL), 0);
    IS(errno, EINVAL);
    IS(_get_doserrno(&error), 0);
    IS(error, ERROR_INVALID_PARAMETER);
    _doserrno = 0;
    void (*const starts[])(void *) = { begun_by_return, begun_to_end };
    for (int i = 0; i < 2; i++) {
        must((thread = (HANDLE)_beginthread(starts[i], 0, event)) != (HANDLE)(intptr_t)-1);
        /* Its handle is closed as it ends: by another it is waited for. */
        must(DuplicateHandle(self, thread, self, &same, 0, FALSE, DUPLICATE_SAME_ACCESS));
        IS(SetEvent(event), TRUE);
        IS(WaitForSingleObject(same, INFINITE), WAIT_OBJECT_0);
        ANSWERS(WaitForSingleObject(thread, 0), WAIT_FAILED, ERROR_INVALID_HANDLE);
        IS(CloseHandle(same), TRUE);
    }
    errno = 0;
    IS(_doserrno, 0);
    IS(_beginthread(NULL, 0, NULL), (uintptr_t)-1);
    IS(errno, EINVAL);
    IS(_doserrno, ERROR_INVALID_PARAMETER);
    IS(_getpid(), GetCurrentProcessId());
    CloseHandle(event);
}

/* ---- The machine, and the time of day. */

static void machine(void)
{
    SYSTEM_INFO info;
    DWORD_PTR here = 0, all = 0;
    GetSystemInfo(&info);
    IS(info.dwPageSize, 4096);
    IS(info.dwAllocationGranularity, 65536);
    IS(info.dwNumberOfProcessors >= 1, 1);
#ifdef __x86_64__
    IS(info.wProcessorArchitecture, PROCESSOR_ARCHITECTURE_AMD64);
    IS(info.dwProcessorType, PROCESSOR_AMD_X8664);
#endif
    ANSWERS(GetProcessAffinityMask(GetCurrentProcess(), &here, &all), TRUE, UNTOUCHED);
    IS(here != 0 && (here & ~all) == 0 && here == info.dwActiveProcessorMask, 1);
    ANSWERS(GetProcessAffinityMask(NULL, &here, &all), FALSE, ERROR_INVALID_HANDLE);
    IS(SwitchToThread(), TRUE);
    IS(GetCurrentProcessorNumber() < 65536, 1);
    IS(timeBeginPeriod(1), TIMERR_NOERROR);
    IS(timeEndPeriod(1), TIMERR_NOERROR);
    IS(timeBeginPeriod(0), TIMERR_NOCANDO);
    IS(timeGetTime() - GetTickCount() <= 1000 || GetTickCount() - timeGetTime() <= 1000, 1);
}

/* A moment since 1601 in units of 100 ns, and the same by the calendar. */
static const struct {
    ULONGLONG moment;
    SYSTEMTIME time;
} MOMENTS[] = {
    { 0, { 1601, 1, 1, 1, 0, 0, 0, 0 } },
    { UINT64_C(116444736000000000), { 1970, 1, 4, 1, 0, 0, 0, 0 } },
    { UINT64_C(125963136000000000), { 2000, 2, 2, 29, 16, 0, 0, 0 } },
    { UINT64_C(133801631990230000), { 2024, 12, 2, 31, 23, 59, 59, 23 } },
};

static void times_of_day(void)
{
    SYSTEMTIME time, now;
    FILETIME moment;
    for (size_t i = 0; i < ARRAYSIZE(MOMENTS); i++) {
        const FILETIME from = { (DWORD)MOMENTS[i].moment, (DWORD)(MOMENTS[i].moment >> 32) };
        ANSWERS(FileTimeToSystemTime(&from, &time), TRUE, UNTOUCHED);
        IS(memcmp(&time, &MOMENTS[i].time, sizeof time), 0);
        ANSWERS(SystemTimeToFileTime(&MOMENTS[i].time, &moment), TRUE, UNTOUCHED);
        IS((ULONGLONG)moment.dwHighDateTime << 32 | moment.dwLowDateTime, MOMENTS[i].moment);
    }
    const FILETIME too_late = { 0, 0x80000000 };
    const SYSTEMTIME wrong[] = {
        { 1600, 1, 0, 1, 0, 0, 0, 0 },  { 2001, 0, 0, 1, 0, 0, 0, 0 },   { 2001, 13, 0, 1, 0, 0, 0, 0 },  { 2001, 2, 0, 29, 0, 0, 0, 0 },
        { 2001, 4, 0, 31, 0, 0, 0, 0 }, { 2001, 1, 0, 1, 24, 0, 0, 0 }, { 2001, 1, 0, 1, 0, 60, 0, 0 }, { 2001, 1, 0, 1, 0, 0, 60, 0 },
        { 2001, 1, 0, 1, 0, 0, 0, 1000 }, { 2001, 1, 0, 0, 0, 0, 0, 0 },
    };
    ANSWERS(FileTimeToSystemTime(&too_late, &time), FALSE, ERROR_INVALID_PARAMETER);
    for (size_t i = 0; i < ARRAYSIZE(wrong); i++)
        ANSWERS(SystemTimeToFileTime(&wrong[i], &moment), FALSE, ERROR_INVALID_PARAMETER);
    GetSystemTime(&now);
    GetSystemTimePreciseAsFileTime(&moment);
    must(FileTimeToSystemTime(&moment, &time));
    IS(now.wYear == time.wYear || now.wYear + 1 == time.wYear, 1);
    GetLocalTime(&now);
    IS(now.wYear >= 2024 && now.wMonth >= 1 && now.wMonth <= 12, 1);
}

int main(void)
{
    tls();
    slots_under_threads();
    fls();
    threads_of_the_runtime();
    machine();
    times_of_day();
    return counted();
}
