/* The interlocked calls with the address of a `long`, in C and in C++: of one, and of a LONG that a program has cast, as sources for Windows do. The
 * words beside a LONG stay as they are. */
#include <intrin.h>
#include <windows.h>

#include "check.h"

#include <stdlib.h>

#if defined _WIN32 && defined __x86_64__
#if !defined _WIN64 || _M_X64 != 100 || _M_AMD64 != 100
#error "these are defined where _WIN32 is"
#endif
#endif

/* In C the compiler knows that a variable is small, in C++ where it optimizes. That a field is one knows gcc where it optimizes, and clang; but in C++ not
 * that of a volatile one. How much was allocated for a place knows who optimizes. */
#if !defined __cplusplus || defined __OPTIMIZE__
#define KNOWS_VARIABLES
#endif
#if defined __clang__ || defined __OPTIMIZE__
#define KNOWS_FIELDS
#endif
#if defined __clang__ ? !defined __cplusplus : defined __OPTIMIZE__
#define KNOWS_VOLATILE_FIELDS
#endif
#ifdef __OPTIMIZE__
#define KNOWS_ALLOCATIONS
#endif

/* What is beside each word: a word that has all bits, and one that has none. */
struct words {
    LONG at_multiple, between, ones, last;
};

/* The call on a place with this value answers that, and leaves the third, in the place alone. */
#define ROW(at, type, before, call, answer, after) \
    do { \
        at = (LONG)(before); \
        IS(call, (type)(answer)); \
        IS(at, (LONG)(after)); \
    } while (0)

/* Each of the calls on a LONG that is cast to the type, the address of which is `to`. */
#define ROWS(at, type, to) \
    ROW(at, type, 5, InterlockedIncrement(to), 6, 6); \
    ROW(at, type, -1, InterlockedIncrement(to), 0, 0); \
    ROW(at, type, 0, InterlockedDecrement(to), (LONG_OF(type))-1, -1); \
    ROW(at, type, 5, InterlockedAdd(to, (type)-7), (LONG_OF(type))-2, -2); \
    ROW(at, type, -1, InterlockedExchangeAdd(to, 1), (LONG_OF(type))-1, 0); \
    ROW(at, type, 0, InterlockedExchangeSubtract(to, 1), 0, -1); \
    ROW(at, type, 5, InterlockedExchange(to, (type)-9), 5, -9); \
    ROW(at, type, -5, InterlockedCompareExchange(to, 8, (type)-5), (LONG_OF(type))-5, 8); \
    ROW(at, type, 5, InterlockedCompareExchange(to, 8, 4), 5, 5); \
    ROW(at, type, 0x6C, InterlockedAnd(to, 0x3A), 0x6C, 0x28); \
    ROW(at, type, 0x6C, InterlockedOr(to, 0x13), 0x6C, 0x7F); \
    ROW(at, type, 0x6C, InterlockedXor(to, (type)-1), 0x6C, ~0x6C)
/* (What is answered is widened as the type of Windows is: by its sign, or not.) */
#define LONG_OF(type) type##_32
typedef LONG signed_long_32;
typedef ULONG unsigned_long_32;
typedef long signed_long;
typedef unsigned long unsigned_long;

static void are_alone(const struct words *words, LONG at_multiple, LONG between)
{
    IS(words->at_multiple, at_multiple);
    IS(words->between, between);
    IS(words->ones, -1);
    IS(words->last, 0);
}

/* The word at no multiple of 8, of which the compiler knows nothing. */
__attribute__((__noinline__)) static void between_two(struct words *words)
{
    volatile LONG *volatile place = &words->between;
    ROWS(*place, signed_long, (signed_long volatile *)place);
    ROWS(*place, unsigned_long, (unsigned_long volatile *)place);
    *place = 0;
    are_alone(words, 7, 0);
}

#ifdef KNOWS_FIELDS
__attribute__((__noinline__)) static void field_at_multiple(struct words *words)
{
    volatile LONG *volatile place = &words->at_multiple;
    ROWS(*place, signed_long, (signed_long *)&words->at_multiple);
    ROWS(*place, unsigned_long, (unsigned_long *)&words->at_multiple);
    words->at_multiple = 7;
    are_alone(words, 7, 0);
}
#endif

#ifdef KNOWS_VOLATILE_FIELDS
static void volatile_field_at_multiple(struct words *words)
{
    ROWS(words->at_multiple, signed_long, (signed_long volatile *)&words->at_multiple);
    ROWS(words->at_multiple, unsigned_long, (unsigned_long volatile *)&words->at_multiple);
    words->at_multiple = 7;
    are_alone(words, 7, 0);
}
#endif

#ifdef KNOWS_ALLOCATIONS
/* (The word behind it is the heap's.) */
static void allocated_at_multiple(void)
{
    LONG *at = (LONG *)malloc(sizeof *at);
    volatile LONG *volatile place = at;
    must(at != NULL);
    ROWS(*place, signed_long, (signed_long volatile *)at);
    ROWS(*place, unsigned_long, (unsigned_long volatile *)at);
    free(at);
}
#endif

#ifdef KNOWS_VARIABLES
static void variable_at_multiple(void)
{
    LONG volatile at __attribute__((__aligned__(8)));
    ROWS(at, signed_long, (signed_long volatile *)&at);
    ROWS(at, unsigned_long, (unsigned_long volatile *)&at);
}
#endif

/* A `long` is changed as a whole, whether the compiler knows its size or not. */
static void whole_longs(void)
{
    signed_long volatile at = -1;
    signed_long volatile *volatile place = &at;
    IS(InterlockedIncrement(&at), 0);
    IS(InterlockedDecrement(place), -1L);
    IS(InterlockedExchange(place, 0xFFFFFFFFL), -1L);
    IS(InterlockedIncrement(place), 0x100000000L);
    IS(InterlockedAdd(&at, 0x100000000L), 0x200000000L);
    IS(InterlockedCompareExchange(place, 5, 0x200000000L), 0x200000000L);
    IS(InterlockedOr(place, 0x700000000L), 5);
    IS(InterlockedAnd(place, 0x500000001L), 0x700000005L);
    IS(InterlockedXor(place, -1L), 0x500000001L);
    IS(at, ~0x500000001L);
    unsigned_long volatile positive = 0xFFFFFFFFuL;
    unsigned_long volatile *volatile positive_place = &positive;
    IS(InterlockedIncrement(positive_place), 0x100000000uL);
    IS(InterlockedExchangeSubtract(&positive, 1), 0x100000000uL);
    IS(positive, 0xFFFFFFFFuL);
}

/* The names that begin with _ do so too, in C and in C++. */
static void whole_longs_by_intrinsics(void)
{
    signed_long volatile at = 0;
    IS(_InterlockedDecrement(&at), -1L);
    IS(_InterlockedIncrement(&at), 0);
    IS(_InterlockedExchange(&at, 0x100000000L), 0);
    IS(_InterlockedExchangeAdd(&at, -1), 0x100000000L);
    IS(_InterlockedCompareExchange(&at, -5, 0xFFFFFFFFL), 0xFFFFFFFFL);
    IS(_InterlockedAnd(&at, 0x7000000FFL), -5L);
    IS(_InterlockedOr(&at, 0x100000004L), 0x7000000FBL);
    IS(_InterlockedXor(&at, -1L), 0x7000000FFL);
    IS(at, ~0x7000000FFL);
}

/* The number of a bit is written as a whole. */
static void scans_to_longs(void)
{
    unsigned_long at = ~0uL;
    IS(_BitScanForward(&at, 0x90), 1);
    IS(at, 4);
    at = ~0uL;
    IS(_BitScanReverse(&at, 0x90), 1);
    IS(at, 7);
    at = ~0uL;
    IS(BitScanForward64(&at, UINT64_C(1) << 40), 1);
    IS(at, 40);
    at = ~0uL;
    IS(_BitScanReverse64(&at, UINT64_C(3) << 62), 1);
    IS(at, 63);
    IS(_BitScanReverse(&at, 0), 0);
    IS(at, 63);
}

/* At a multiple of 8 where the compiler knows no size 64 bits are changed: so the word behind it is a part of the `long`. */
__attribute__((__noinline__)) static void unknown_at_multiple(struct words *words)
{
    signed_long volatile *volatile place = (signed_long volatile *)words;
    words->at_multiple = -1;
    words->between = 0;
    IS(InterlockedIncrement(place), 0x100000000L);
    are_alone(words, 0, 1);
    IS(InterlockedExchange(place, 7), 0x100000000L);
    are_alone(words, 7, 0);
}

int main(void)
{
    static struct words words __attribute__((__aligned__(8))) = { 7, 0, -1, 0 };
    between_two(&words);
#ifdef KNOWS_FIELDS
    field_at_multiple(&words);
#endif
#ifdef KNOWS_VARIABLES
    variable_at_multiple();
#endif
#ifdef KNOWS_VOLATILE_FIELDS
    volatile_field_at_multiple(&words);
#endif
#ifdef KNOWS_ALLOCATIONS
    allocated_at_multiple();
#endif
    unknown_at_multiple(&words);
    whole_longs();
    whole_longs_by_intrinsics();
    scans_to_longs();
    return counted();
}
