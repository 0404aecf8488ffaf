/* The interlocked calls: each call, the value that stood there, what it answers and what stands there then; and lists, by one thread and by
 * many. The values are those of Microsoft's pages. */
#include <windows.h>

#include <intrin.h>
#include <malloc.h>

#include "check.h"

#include <sys/wait.h>
#include <unistd.h>

/* The call on a place of this type with this value answers that, and leaves the third. */
#define ROW(type, before, call, answer, after) \
    do { \
        type volatile at = (before); \
        IS(call, (type)(answer)); \
        IS(at, (type)(after)); \
    } while (0)

/* Each name of one width with its variants. The greatest value is followed by the least. */
#define COUNTS(type, least, greatest, Increment, Decrement, Add, ExchangeAdd, ExchangeSubtract, Exchange, CompareExchange) \
    ROW(type, 5, Increment(&at), 6, 6); \
    ROW(type, -1, Increment(&at), 0, 0); \
    ROW(type, greatest, Increment(&at), least, least); \
    ROW(type, 5, Decrement(&at), 4, 4); \
    ROW(type, 0, Decrement(&at), -1, -1); \
    ROW(type, least, Decrement(&at), greatest, greatest); \
    ROW(type, 5, Add(&at, -7), -2, -2); \
    ROW(type, 5, ExchangeAdd(&at, 7), 5, 12); \
    ROW(type, greatest, ExchangeAdd(&at, 1), greatest, least); \
    ROW(type, 5, ExchangeSubtract(&at, 7), 5, -2); \
    ROW(type, least, ExchangeSubtract(&at, 1), least, greatest); \
    ROW(type, 5, Exchange(&at, -9), 5, -9); \
    ROW(type, 5, CompareExchange(&at, 8, 5), 5, 8); \
    ROW(type, 5, CompareExchange(&at, 8, 4), 5, 5)

#define BITS(type, And, Or, Xor) \
    ROW(type, 0x6C, And(&at, 0x3A), 0x6C, 0x28); \
    ROW(type, 0x6C, Or(&at, 0x13), 0x6C, 0x7F); \
    ROW(type, 0x6C, Xor(&at, -1), 0x6C, ~0x6C)

/* The calls whose names begin and end so. */
#define COUNTS_OF(type, least, greatest, begin, end) \
    COUNTS(type, least, greatest, begin##Increment##end, begin##Decrement##end, begin##Add##end, begin##ExchangeAdd##end, \
           begin##ExchangeSubtract##end, begin##Exchange##end, begin##CompareExchange##end)
#define BITS_OF(type, begin, end) BITS(type, begin##And##end, begin##Or##end, begin##Xor##end)

#define IN_EACH_ORDER(type, least, greatest, width) \
    COUNTS_OF(type, least, greatest, Interlocked, width); \
    COUNTS_OF(type, least, greatest, Interlocked, Acquire##width); \
    COUNTS_OF(type, least, greatest, Interlocked, Release##width); \
    COUNTS_OF(type, least, greatest, Interlocked, NoFence##width); \
    COUNTS_OF(type, least, greatest, _Interlocked, width)

#define BITS_IN_EACH_ORDER(type, width) \
    BITS_OF(type, Interlocked, width); \
    BITS_OF(type, Interlocked, width##Acquire); \
    BITS_OF(type, Interlocked, width##Release); \
    BITS_OF(type, Interlocked, width##NoFence); \
    BITS_OF(type, _Interlocked, width)

static void counts(void)
{
    COUNTS(LONG, INT32_MIN, INT32_MAX, InterlockedIncrement, InterlockedDecrement, InterlockedAdd, InterlockedExchangeAdd,
           InterlockedExchangeSubtract, InterlockedExchange, InterlockedCompareExchange);
    COUNTS_OF(LONG, INT32_MIN, INT32_MAX, Interlocked, Acquire);
    COUNTS_OF(LONG, INT32_MIN, INT32_MAX, Interlocked, Release);
    COUNTS_OF(LONG, INT32_MIN, INT32_MAX, Interlocked, NoFence);
    COUNTS_OF(LONG, INT32_MIN, INT32_MAX, _Interlocked, );
    IN_EACH_ORDER(LONG64, INT64_MIN, INT64_MAX, 64);
    IN_EACH_ORDER(SHORT, INT16_MIN, INT16_MAX, 16);
    IN_EACH_ORDER(CHAR, INT8_MIN, INT8_MAX, 8);
    /* A `long` is changed as a whole (longs.c). */
    COUNTS(long, INT64_MIN, INT64_MAX, InterlockedIncrement, InterlockedDecrement, InterlockedAdd, InterlockedExchangeAdd,
           InterlockedExchangeSubtract, InterlockedExchange, InterlockedCompareExchange);
}

static void bits(void)
{
    BITS(LONG, InterlockedAnd, InterlockedOr, InterlockedXor);
    BITS_OF(LONG, Interlocked, Acquire);
    BITS_OF(LONG, Interlocked, Release);
    BITS_OF(LONG, Interlocked, NoFence);
    BITS_OF(LONG, _Interlocked, );
    BITS_IN_EACH_ORDER(LONG64, 64);
    BITS_IN_EACH_ORDER(SHORT, 16);
    BITS_IN_EACH_ORDER(CHAR, 8);
    BITS(long, InterlockedAnd, InterlockedOr, InterlockedXor);
}

/* The call on two words: its answer, and what stands in them then. */
#define BIT_ROW(type, first, second, call, answer, first_after, second_after) \
    do { \
        type volatile at[2] = { (first), (second) }; \
        IS(call, answer); \
        IS(at[0], (type)(first_after)); \
        IS(at[1], (type)(second_after)); \
    } while (0)

/* The three tests of bits whose names end so. */
#define BIT_ROWS(type, end) \
    BIT_ROW(type, 0, 0, InterlockedBitTestAndSet##end(&at[0], 1), 0, 2, 0); \
    BIT_ROW(type, 2, 0, InterlockedBitTestAndSet##end(&at[0], 1), 1, 2, 0); \
    BIT_ROW(type, 3, 0, InterlockedBitTestAndReset##end(&at[0], 1), 1, 1, 0); \
    BIT_ROW(type, 1, 0, InterlockedBitTestAndReset##end(&at[0], 1), 0, 1, 0); \
    BIT_ROW(type, 0, 0, InterlockedBitTestAndComplement##end(&at[0], 4), 0, 16, 0); \
    BIT_ROW(type, 16, 0, InterlockedBitTestAndComplement##end(&at[0], 4), 1, 0, 0)

static void tests_of_bits(void)
{
    BIT_ROWS(LONG, );
    BIT_ROWS(LONG, Acquire);
    BIT_ROWS(LONG, Release);
    BIT_ROWS(LONG, NoFence);
    BIT_ROWS(LONG64, 64);
    BIT_ROW(LONG, 0, 0, InterlockedBitTestAndSet(&at[0], 31), 0, INT32_MIN, 0);
    BIT_ROW(LONG, -1, 0, InterlockedBitTestAndSet(&at[0], 3), 1, -1, 0);
    BIT_ROW(LONG, 0, 0, InterlockedBitTestAndSet(&at[0], 33), 0, 0, 2);
    BIT_ROW(LONG, 0, 0, InterlockedBitTestAndSet(&at[1], -1), 0, INT32_MIN, 0);
    BIT_ROW(LONG, -1, -1, InterlockedBitTestAndReset(&at[1], -32), 1, -2, -1);
    BIT_ROW(LONG, -1, -1, InterlockedBitTestAndReset(&at[0], 0), 1, -2, -1);
    BIT_ROW(LONG, 0, 0, InterlockedBitTestAndReset(&at[0], 5), 0, 0, 0);
    BIT_ROW(LONG, 0, 0, _interlockedbittestandset(&at[0], 1), 0, 2, 0);
    BIT_ROW(LONG, 2, 0, _interlockedbittestandreset(&at[0], 1), 1, 0, 0);
    BIT_ROW(LONG64, 0, 0, InterlockedBitTestAndSet64(&at[0], 63), 0, INT64_MIN, 0);
    BIT_ROW(LONG64, 0, 0, InterlockedBitTestAndSet64(&at[0], 64), 0, 0, 1);
    BIT_ROW(LONG64, 0, 0, InterlockedBitTestAndSet64(&at[1], -64), 0, 1, 0);
    BIT_ROW(LONG64, -1, 0, InterlockedBitTestAndReset64(&at[0], 62), 1, -1 ^ INT64_C(1) << 62, 0);
    BIT_ROW(LONG64, 0, 0, _interlockedbittestandset64(&at[0], 40), 0, INT64_C(1) << 40, 0);
}

static void scans_of_bits(void)
{
    DWORD at = 99;
    IS(_BitScanForward(&at, 0x90), 1);
    IS(at, 4);
    IS(_BitScanReverse(&at, 0x90), 1);
    IS(at, 7);
    IS(_BitScanForward64(&at, UINT64_C(1) << 40), 1);
    IS(at, 40);
    IS(_BitScanReverse64(&at, UINT64_C(3) << 62), 1);
    IS(at, 63);
    IS(_BitScanForward(&at, 0), 0);
    IS(_BitScanReverse64(&at, 0), 0);
    IS(__popcnt(0xF0F1), 9);
    IS(__popcnt64(UINT64_C(0xF000000000000001)), 5);
    IS(_byteswap_ushort(0x0102), 0x0201);
    IS(_byteswap_ulong(0x01020304), 0x04030201);
    IS(_byteswap_uint64(UINT64_C(0x0102030405060708)), UINT64_C(0x0807060504030201));
}

/* Answers whether the place of the return address has it. */
__attribute__((noinline)) static BOOL knows_who_called(void **caller)
{
    *caller = _ReturnAddress();
    return *(void **)_AddressOfReturnAddress() == *caller;
}

static void intrinsics(void)
{
    void *first, *second;
    int status = 0;
    IS(knows_who_called(&first), TRUE);
    IS(knows_who_called(&second), TRUE);
    IS(first < second && (char *)second - (char *)first < 4096, 1);
    char *bytes = _alloca(100);
    memset(bytes, 1, 100);
    IS(bytes[99], 1);
    __nop();
    const pid_t child = fork();
    if (child == 0) {
        __debugbreak();
        _exit(0);
    }
    must(child > 0 && waitpid(child, &status, 0) == child);
    IS(WIFSIGNALED(status), 1);
}

#define POINTERS(Exchange, CompareExchange) \
    at = NULL; \
    IS((ULONG_PTR)Exchange(&at, &one), 0); \
    IS((ULONG_PTR)CompareExchange(&at, NULL, &other), (ULONG_PTR)&one); \
    IS((ULONG_PTR)CompareExchange(&at, &other, &one), (ULONG_PTR)&one); \
    IS((ULONG_PTR)at, (ULONG_PTR)&other)

/* What is written is read. */
#define READS(type, value, read_acquire, read, write_release, write) \
    do { \
        type at = 0; \
        _WriteBarrier(); \
        write_release(&at, (type)(value)); \
        IS((ULONG_PTR)read_acquire(&at), value); \
        write(&at, (type)((value)-1)); \
        _ReadBarrier(); \
        IS((ULONG_PTR)read(&at), (value)-1); \
    } while (0)

static void pointers_and_pairs(void)
{
    static int one, other;
    PVOID at = &one;
    IS((ULONG_PTR)InterlockedExchangePointer(&at, &other), (ULONG_PTR)&one);
    IS((ULONG_PTR)InterlockedCompareExchangePointer(&at, NULL, &one), (ULONG_PTR)&other);
    IS((ULONG_PTR)at, (ULONG_PTR)&other);
    IS((ULONG_PTR)InterlockedCompareExchangePointer(&at, NULL, &other), (ULONG_PTR)&other);
    IS((ULONG_PTR)at, 0);
    POINTERS(InterlockedExchangePointerAcquire, InterlockedCompareExchangePointerAcquire);
    POINTERS(InterlockedExchangePointerRelease, InterlockedCompareExchangePointerRelease);
    POINTERS(InterlockedExchangePointerNoFence, InterlockedCompareExchangePointerNoFence);
    POINTERS(_InterlockedExchangePointer, _InterlockedCompareExchangePointer);
    LONG64 pair[2] __attribute__((aligned(16))) = { 1, 2 }, seen[2] = { 1, 3 };
    IS(InterlockedCompareExchange128(pair, 9, 8, seen), 0);
    IS(seen[0], 1);
    IS(seen[1], 2);
    IS(pair[1], 2);
    IS(InterlockedCompareExchange128(pair, 9, 8, seen), 1);
    IS(pair[0], 8);
    IS(pair[1], 9);
    IS(seen[1], 2);
    READS(LONG, 8, ReadAcquire, ReadNoFence, WriteRelease, WriteNoFence);
    READS(LONG64, INT64_C(1) << 40, ReadAcquire64, ReadNoFence64, WriteRelease64, WriteNoFence64);
    READS(PVOID, UINT64_C(1) << 40, ReadPointerAcquire, ReadPointerNoFence, WritePointerRelease, WritePointerNoFence);
}

struct item {
    SLIST_ENTRY entry;
    int number;
};

static void lists(void)
{
    static SLIST_HEADER head;
    static struct item items[5];
    InitializeSListHead(&head);
    IS((ULONG_PTR)InterlockedPopEntrySList(&head), 0);
    IS(QueryDepthSList(&head), 0);
    IS((ULONG_PTR)InterlockedPushEntrySList(&head, &items[0].entry), 0);
    IS((ULONG_PTR)InterlockedPushEntrySList(&head, &items[1].entry), (ULONG_PTR)&items[0]);
    IS(QueryDepthSList(&head), 2);
    IS((ULONG_PTR)FirstEntrySList(&head), (ULONG_PTR)&items[1]);
    items[2].entry.Next = &items[3].entry;
    IS((ULONG_PTR)InterlockedPushListSListEx(&head, &items[2].entry, &items[3].entry, 2), (ULONG_PTR)&items[1]);
    IS(QueryDepthSList(&head), 4);
    IS((ULONG_PTR)InterlockedPopEntrySList(&head), (ULONG_PTR)&items[2]);
    IS((ULONG_PTR)InterlockedPopEntrySList(&head), (ULONG_PTR)&items[3]);
    IS((ULONG_PTR)InterlockedFlushSList(&head), (ULONG_PTR)&items[1]);
    IS((ULONG_PTR)items[1].entry.Next, (ULONG_PTR)&items[0]);
    IS((ULONG_PTR)items[0].entry.Next, 0);
    IS(QueryDepthSList(&head), 0);
    IS((ULONG_PTR)InterlockedFlushSList(&head), 0);
}

/* Threads count in each way, and hand items round by two lists: nothing is counted twice or lost, and no item is held by two. */
enum { THREADS = 4, ITEMS = 8, ROUNDS = 5000 };
static SLIST_HEADER FROM, TO;
static LONG BY_ONE, BY_EXCHANGE, HELD_TWICE;
static LONG64 IN_64_BITS;
static LONG64 PAIR[2] __attribute__((aligned(16)));
static LONG HOLDERS[ITEMS];

static void add_to_both(LONG64 by)
{
    LONG64 seen[2] = { 0, 0 };
    while (!InterlockedCompareExchange128(PAIR, seen[1] - by, seen[0] + by, seen))
        continue;
}

static DWORD WINAPI hand_round(LPVOID none)
{
    (void)none;
    for (int i = 0; i < ROUNDS; i++) {
        InterlockedIncrement(&BY_ONE);
        InterlockedAdd64(&IN_64_BITS, INT64_C(0x100000001));
        add_to_both(1);
        for (LONG seen = ReadAcquire(&BY_EXCHANGE), now; (now = InterlockedCompareExchange(&BY_EXCHANGE, seen + 2, seen)) != seen;)
            seen = now;
        struct item *item = (struct item *)(void *)InterlockedPopEntrySList(i % 2 ? &FROM : &TO);
        if (item == NULL)
            continue;
        if (InterlockedIncrement(&HOLDERS[item->number]) != 1)
            InterlockedIncrement(&HELD_TWICE);
        InterlockedDecrement(&HOLDERS[item->number]);
        InterlockedPushEntrySList(i % 2 ? &TO : &FROM, &item->entry);
    }
    return 0;
}

static void by_many_threads(void)
{
    static struct item items[ITEMS];
    HANDLE threads[THREADS];
    for (int i = 0; i < ITEMS; i++) {
        items[i].number = i;
        InterlockedPushEntrySList(&FROM, &items[i].entry);
    }
    for (int i = 0; i < THREADS; i++)
        must((threads[i] = CreateThread(NULL, 0, hand_round, NULL, 0, NULL)) != NULL);
    IS(WaitForMultipleObjects(THREADS, threads, TRUE, INFINITE), WAIT_OBJECT_0);
    IS(BY_ONE, THREADS * ROUNDS);
    IS(BY_EXCHANGE, 2 * THREADS * ROUNDS);
    IS(IN_64_BITS, INT64_C(0x100000001) * THREADS * ROUNDS);
    IS(PAIR[0], THREADS * ROUNDS);
    IS(PAIR[1], -THREADS * ROUNDS);
    IS(HELD_TWICE, 0);
    IS(QueryDepthSList(&FROM) + QueryDepthSList(&TO), ITEMS);
    int left = 0;
    for (PSLIST_ENTRY at = InterlockedFlushSList(&FROM); at != NULL; at = at->Next)
        left++;
    for (PSLIST_ENTRY at = InterlockedFlushSList(&TO); at != NULL; at = at->Next)
        left++;
    IS(left, ITEMS);
}

int main(void)
{
    counts();
    bits();
    tests_of_bits();
    scans_of_bits();
    intrinsics();
    pointers_and_pairs();
    lists();
    by_many_threads();
    return counted();
}
