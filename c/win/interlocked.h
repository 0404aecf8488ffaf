/* SPDX-License-Identifier: MIT OR Apache-2.0 */
/* The interlocked calls and memory barriers. Each is one atomic step. It orders all that comes before and after; Acquire, Release and NoFence
 * at the end of a name order as much as they say. Increment, Decrement and Add answer the value after, the others the value before.
 *
 * In C the plain names, and those that begin with _, take a `long` or an `unsigned long` too; in C++ they are overloaded for all integers of 32 and
 * 64 bits. */
#ifndef NTWIN_INTERLOCKED_H
#define NTWIN_INTERLOCKED_H

#include "../ntwin.h"

#define NTWIN_INLINE static __inline__ __attribute__((__unused__))

/* Where a program is compiled with NTWIN_POINTS, and linked with points.c, a schedule of its threads may switch before each call (NTWIN_SCHEDULE). */
#if defined NTWIN_POINTS && !defined __SANITIZE_THREAD__
#ifdef __cplusplus
extern "C"
#endif
void ntwin_come_to_memory(const volatile void *at, __SIZE_TYPE__ size);
#define NTWIN_COME(at) ntwin_come_to_memory((at), 1)
#else
#define NTWIN_COME(at) ((void)0)
#endif

/* ---- What each call does, on one type and in one order, under the names that NAME makes. */

#define NTWIN_COUNTS(NAME, type, memory) \
    NTWIN_INLINE type NAME(Increment)(type volatile *at) \
    { \
        NTWIN_COME(at); \
        return __atomic_add_fetch(at, (type)1, memory); \
    } \
    NTWIN_INLINE type NAME(Decrement)(type volatile *at) \
    { \
        NTWIN_COME(at); \
        return __atomic_sub_fetch(at, (type)1, memory); \
    } \
    NTWIN_INLINE type NAME(Add)(type volatile *at, type by) \
    { \
        NTWIN_COME(at); \
        return __atomic_add_fetch(at, by, memory); \
    } \
    NTWIN_INLINE type NAME(ExchangeAdd)(type volatile *at, type by) \
    { \
        NTWIN_COME(at); \
        return __atomic_fetch_add(at, by, memory); \
    } \
    NTWIN_INLINE type NAME(ExchangeSubtract)(type volatile *at, type by) \
    { \
        NTWIN_COME(at); \
        return __atomic_fetch_sub(at, by, memory); \
    }

#define NTWIN_BITS(NAME, type, memory) \
    NTWIN_INLINE type NAME(And)(type volatile *at, type bits) \
    { \
        NTWIN_COME(at); \
        return __atomic_fetch_and(at, bits, memory); \
    } \
    NTWIN_INLINE type NAME(Or)(type volatile *at, type bits) \
    { \
        NTWIN_COME(at); \
        return __atomic_fetch_or(at, bits, memory); \
    } \
    NTWIN_INLINE type NAME(Xor)(type volatile *at, type bits) \
    { \
        NTWIN_COME(at); \
        return __atomic_fetch_xor(at, bits, memory); \
    }

#define NTWIN_EXCHANGES(NAME, type, memory, seen_memory) \
    NTWIN_INLINE type NAME(Exchange)(type volatile *at, type value) \
    { \
        NTWIN_COME(at); \
        return __atomic_exchange_n(at, value, memory); \
    } \
    NTWIN_INLINE type NAME(CompareExchange)(type volatile *at, type value, type comparand) \
    { \
        NTWIN_COME(at); \
        __atomic_compare_exchange_n(at, &comparand, value, 0, memory, seen_memory); \
        return comparand; \
    }

/* The bit may lie in an element after the first, or before it where its number is negative, as it does for the instruction of x86. */
#define NTWIN_ELEMENT(base, unsigned_type, bit, width) ((unsigned_type volatile *)(base) + (bit - (bit & (width - 1))) / width)
#define NTWIN_BIT_TESTS(NAME, type, unsigned_type, width, memory) \
    NTWIN_INLINE BOOLEAN NAME(BitTestAndSet)(type volatile *base, type bit) \
    { \
        const unsigned_type mask = (unsigned_type)1 << (bit & (width - 1)); \
        NTWIN_COME(base); \
        return (__atomic_fetch_or(NTWIN_ELEMENT(base, unsigned_type, bit, width), mask, memory) & mask) != 0; \
    } \
    NTWIN_INLINE BOOLEAN NAME(BitTestAndReset)(type volatile *base, type bit) \
    { \
        const unsigned_type mask = (unsigned_type)1 << (bit & (width - 1)); \
        NTWIN_COME(base); \
        return (__atomic_fetch_and(NTWIN_ELEMENT(base, unsigned_type, bit, width), (unsigned_type)~mask, memory) & mask) != 0; \
    } \
    NTWIN_INLINE BOOLEAN NAME(BitTestAndComplement)(type volatile *base, type bit) \
    { \
        const unsigned_type mask = (unsigned_type)1 << (bit & (width - 1)); \
        NTWIN_COME(base); \
        return (__atomic_fetch_xor(NTWIN_ELEMENT(base, unsigned_type, bit, width), mask, memory) & mask) != 0; \
    }

#define NTWIN_ALL(NAME, BITS_NAME, type, memory, seen_memory) \
    NTWIN_COUNTS(NAME, type, memory) \
    NTWIN_EXCHANGES(NAME, type, memory, seen_memory) \
    NTWIN_BITS(BITS_NAME, type, memory)

/* ---- The names. The width of And, Or and Xor stands before the order, that of the others after it. */

#define NTWIN_PLAIN(name) Interlocked##name
#define NTWIN_ACQUIRE(name) Interlocked##name##Acquire
#define NTWIN_RELEASE(name) Interlocked##name##Release
#define NTWIN_NOFENCE(name) Interlocked##name##NoFence
#define NTWIN_PLAIN8(name) Interlocked##name##8
#define NTWIN_ACQUIRE8(name) Interlocked##name##Acquire8
#define NTWIN_RELEASE8(name) Interlocked##name##Release8
#define NTWIN_NOFENCE8(name) Interlocked##name##NoFence8
#define NTWIN_8ACQUIRE(name) Interlocked##name##8Acquire
#define NTWIN_8RELEASE(name) Interlocked##name##8Release
#define NTWIN_8NOFENCE(name) Interlocked##name##8NoFence
#define NTWIN_PLAIN16(name) Interlocked##name##16
#define NTWIN_ACQUIRE16(name) Interlocked##name##Acquire16
#define NTWIN_RELEASE16(name) Interlocked##name##Release16
#define NTWIN_NOFENCE16(name) Interlocked##name##NoFence16
#define NTWIN_16ACQUIRE(name) Interlocked##name##16Acquire
#define NTWIN_16RELEASE(name) Interlocked##name##16Release
#define NTWIN_16NOFENCE(name) Interlocked##name##16NoFence
#define NTWIN_PLAIN64(name) Interlocked##name##64
#define NTWIN_ACQUIRE64(name) Interlocked##name##Acquire64
#define NTWIN_RELEASE64(name) Interlocked##name##Release64
#define NTWIN_NOFENCE64(name) Interlocked##name##NoFence64
#define NTWIN_64ACQUIRE(name) Interlocked##name##64Acquire
#define NTWIN_64RELEASE(name) Interlocked##name##64Release
#define NTWIN_64NOFENCE(name) Interlocked##name##64NoFence
#define NTWIN_INTRINSIC(name) _Interlocked##name
#define NTWIN_INTRINSIC8(name) _Interlocked##name##8
#define NTWIN_INTRINSIC16(name) _Interlocked##name##16
#define NTWIN_INTRINSIC64(name) _Interlocked##name##64

NTWIN_ALL(NTWIN_PLAIN, NTWIN_PLAIN, LONG, __ATOMIC_SEQ_CST, __ATOMIC_SEQ_CST)
NTWIN_ALL(NTWIN_ACQUIRE, NTWIN_ACQUIRE, LONG, __ATOMIC_ACQUIRE, __ATOMIC_ACQUIRE)
NTWIN_ALL(NTWIN_RELEASE, NTWIN_RELEASE, LONG, __ATOMIC_RELEASE, __ATOMIC_RELAXED)
NTWIN_ALL(NTWIN_NOFENCE, NTWIN_NOFENCE, LONG, __ATOMIC_RELAXED, __ATOMIC_RELAXED)
NTWIN_ALL(NTWIN_INTRINSIC, NTWIN_INTRINSIC, LONG, __ATOMIC_SEQ_CST, __ATOMIC_SEQ_CST)

NTWIN_ALL(NTWIN_PLAIN8, NTWIN_PLAIN8, CHAR, __ATOMIC_SEQ_CST, __ATOMIC_SEQ_CST)
NTWIN_ALL(NTWIN_ACQUIRE8, NTWIN_8ACQUIRE, CHAR, __ATOMIC_ACQUIRE, __ATOMIC_ACQUIRE)
NTWIN_ALL(NTWIN_RELEASE8, NTWIN_8RELEASE, CHAR, __ATOMIC_RELEASE, __ATOMIC_RELAXED)
NTWIN_ALL(NTWIN_NOFENCE8, NTWIN_8NOFENCE, CHAR, __ATOMIC_RELAXED, __ATOMIC_RELAXED)
NTWIN_ALL(NTWIN_INTRINSIC8, NTWIN_INTRINSIC8, CHAR, __ATOMIC_SEQ_CST, __ATOMIC_SEQ_CST)

NTWIN_ALL(NTWIN_PLAIN16, NTWIN_PLAIN16, SHORT, __ATOMIC_SEQ_CST, __ATOMIC_SEQ_CST)
NTWIN_ALL(NTWIN_ACQUIRE16, NTWIN_16ACQUIRE, SHORT, __ATOMIC_ACQUIRE, __ATOMIC_ACQUIRE)
NTWIN_ALL(NTWIN_RELEASE16, NTWIN_16RELEASE, SHORT, __ATOMIC_RELEASE, __ATOMIC_RELAXED)
NTWIN_ALL(NTWIN_NOFENCE16, NTWIN_16NOFENCE, SHORT, __ATOMIC_RELAXED, __ATOMIC_RELAXED)
NTWIN_ALL(NTWIN_INTRINSIC16, NTWIN_INTRINSIC16, SHORT, __ATOMIC_SEQ_CST, __ATOMIC_SEQ_CST)

NTWIN_ALL(NTWIN_PLAIN64, NTWIN_PLAIN64, LONG64, __ATOMIC_SEQ_CST, __ATOMIC_SEQ_CST)
NTWIN_ALL(NTWIN_ACQUIRE64, NTWIN_64ACQUIRE, LONG64, __ATOMIC_ACQUIRE, __ATOMIC_ACQUIRE)
NTWIN_ALL(NTWIN_RELEASE64, NTWIN_64RELEASE, LONG64, __ATOMIC_RELEASE, __ATOMIC_RELAXED)
NTWIN_ALL(NTWIN_NOFENCE64, NTWIN_64NOFENCE, LONG64, __ATOMIC_RELAXED, __ATOMIC_RELAXED)
NTWIN_ALL(NTWIN_INTRINSIC64, NTWIN_INTRINSIC64, LONG64, __ATOMIC_SEQ_CST, __ATOMIC_SEQ_CST)

NTWIN_BIT_TESTS(NTWIN_PLAIN, LONG, ULONG, 32, __ATOMIC_SEQ_CST)
NTWIN_BIT_TESTS(NTWIN_ACQUIRE, LONG, ULONG, 32, __ATOMIC_ACQUIRE)
NTWIN_BIT_TESTS(NTWIN_RELEASE, LONG, ULONG, 32, __ATOMIC_RELEASE)
NTWIN_BIT_TESTS(NTWIN_NOFENCE, LONG, ULONG, 32, __ATOMIC_RELAXED)
NTWIN_BIT_TESTS(NTWIN_PLAIN64, LONG64, ULONG64, 64, __ATOMIC_SEQ_CST)
#define _interlockedbittestandset InterlockedBitTestAndSet
#define _interlockedbittestandreset InterlockedBitTestAndReset
#define _interlockedbittestandset64 InterlockedBitTestAndSet64
#define _interlockedbittestandreset64 InterlockedBitTestAndReset64

/* ---- Pointers. */

#define NTWIN_POINTERS(NAME, memory, seen_memory) \
    NTWIN_INLINE PVOID NAME(ExchangePointer)(PVOID volatile *at, PVOID value) \
    { \
        NTWIN_COME(at); \
        return __atomic_exchange_n(at, value, memory); \
    } \
    NTWIN_INLINE PVOID NAME(CompareExchangePointer)(PVOID volatile *at, PVOID value, PVOID comparand) \
    { \
        NTWIN_COME(at); \
        __atomic_compare_exchange_n(at, &comparand, value, 0, memory, seen_memory); \
        return comparand; \
    }

NTWIN_POINTERS(NTWIN_PLAIN, __ATOMIC_SEQ_CST, __ATOMIC_SEQ_CST)
NTWIN_POINTERS(NTWIN_ACQUIRE, __ATOMIC_ACQUIRE, __ATOMIC_ACQUIRE)
NTWIN_POINTERS(NTWIN_RELEASE, __ATOMIC_RELEASE, __ATOMIC_RELAXED)
NTWIN_POINTERS(NTWIN_NOFENCE, __ATOMIC_RELAXED, __ATOMIC_RELAXED)
NTWIN_POINTERS(NTWIN_INTRINSIC, __ATOMIC_SEQ_CST, __ATOMIC_SEQ_CST)

/* ---- 128 bits. */

/* Answers 1 where the 16 bytes were as in `comparand`, and now have this high and low half; else 0, and `comparand` has what they are. */
NTWIN_INLINE BYTE InterlockedCompareExchange128(LONG64 volatile *at, LONG64 high, LONG64 low, LONG64 *comparand)
{
#ifdef __x86_64__
    BYTE equal;
    NTWIN_COME(at);
    __asm__ __volatile__("lock cmpxchg16b %1"
                         : "=@ccz"(equal), "+m"(*at), "+a"(comparand[0]), "+d"(comparand[1])
                         : "b"(low), "c"(high)
                         : "memory");
    return equal;
#else
    __extension__ typedef unsigned __int128 both __attribute__((__may_alias__));
    both wanted = (both)(ULONG64)comparand[1] << 64 | (ULONG64)comparand[0];
    const both value = (NTWIN_COME(at), (both)(ULONG64)high << 64 | (ULONG64)low);
    const BYTE equal = __atomic_compare_exchange_n((both volatile *)at, &wanted, value, 0, __ATOMIC_SEQ_CST, __ATOMIC_SEQ_CST);
    comparand[0] = (LONG64)wanted;
    comparand[1] = (LONG64)(wanted >> 64);
    return equal;
#endif
}
#define _InterlockedCompareExchange128 InterlockedCompareExchange128

/* ---- A `long` has 64 bits here, and 32 on Windows: so a program casts the address of a LONG to one of a `long`. Where no `long` can be, 32 bits are
 * changed: its address is no multiple of 8, or the compiler knows that the object, or the field, is smaller. Else 64 are. (docs/PORTING.md says which
 * compiler knows what.) */

#define NTWIN_IS_BETWEEN(at) (((uintptr_t)(at) & 7) != 0)
#define NTWIN_IS_SMALL(at) (__builtin_object_size((const void *)(at), 1) < 8)

#define NTWIN_OF_LONG_1(NAME, name, place, type, half, is_half) \
    NTWIN_INLINE __attribute__((__always_inline__)) type NAME(name)(place) \
    { \
        return is_half ? (type)(half)Interlocked##name((LONG volatile *)at) : (type)Interlocked##name##64((LONG64 volatile *)at); \
    }
#define NTWIN_OF_LONG_2(NAME, name, place, type, half, is_half) \
    NTWIN_INLINE __attribute__((__always_inline__)) type NAME(name)(place, type value) \
    { \
        return is_half ? (type)(half)Interlocked##name((LONG volatile *)at, (LONG)value) \
                       : (type)Interlocked##name##64((LONG64 volatile *)at, (LONG64)value); \
    }
#define NTWIN_OF_LONG_3(NAME, name, place, type, half, is_half) \
    NTWIN_INLINE __attribute__((__always_inline__)) type NAME(name)(place, type value, type comparand) \
    { \
        return is_half ? (type)(half)Interlocked##name((LONG volatile *)at, (LONG)value, (LONG)comparand) \
                       : (type)Interlocked##name##64((LONG64 volatile *)at, (LONG64)value, (LONG64)comparand); \
    }
#define NTWIN_OF_LONG(NAME, place, type, half, is_half) \
    NTWIN_OF_LONG_1(NAME, Increment, place, type, half, is_half) \
    NTWIN_OF_LONG_1(NAME, Decrement, place, type, half, is_half) \
    NTWIN_OF_LONG_2(NAME, Add, place, type, half, is_half) \
    NTWIN_OF_LONG_2(NAME, ExchangeAdd, place, type, half, is_half) \
    NTWIN_OF_LONG_2(NAME, ExchangeSubtract, place, type, half, is_half) \
    NTWIN_OF_LONG_2(NAME, Exchange, place, type, half, is_half) \
    NTWIN_OF_LONG_3(NAME, CompareExchange, place, type, half, is_half) \
    NTWIN_OF_LONG_2(NAME, And, place, type, half, is_half) \
    NTWIN_OF_LONG_2(NAME, Or, place, type, half, is_half) \
    NTWIN_OF_LONG_2(NAME, Xor, place, type, half, is_half)

#ifdef __cplusplus
#define NTWIN_OVERLOADS(NAME, type) \
    NTWIN_COUNTS(NAME, type, __ATOMIC_SEQ_CST) \
    NTWIN_EXCHANGES(NAME, type, __ATOMIC_SEQ_CST, __ATOMIC_SEQ_CST) \
    NTWIN_BITS(NAME, type, __ATOMIC_SEQ_CST)
#define NTWIN_IS_HALF (NTWIN_IS_BETWEEN(at) || NTWIN_IS_SMALL(at))

NTWIN_OVERLOADS(NTWIN_PLAIN, ULONG)
NTWIN_OF_LONG(NTWIN_PLAIN, LONG64 volatile *at, LONG64, LONG, NTWIN_IS_HALF)
NTWIN_OF_LONG(NTWIN_PLAIN, ULONG64 volatile *at, ULONG64, ULONG, NTWIN_IS_HALF)
NTWIN_OVERLOADS(NTWIN_PLAIN64, ULONG64)
NTWIN_OF_LONG(NTWIN_INTRINSIC, LONG64 volatile *at, LONG64, LONG, NTWIN_IS_HALF)
/* (clang knows a field where the call is made, and hands on what it knows of a place that is not volatile.) */
#ifdef __clang__
#define NTWIN_SIZED(type) type *const at __attribute__((__pass_object_size__(1)))
#define NTWIN_IS_SIZED_HALF (NTWIN_IS_BETWEEN(at) || __builtin_object_size(at, 1) < 8)
NTWIN_OF_LONG(NTWIN_PLAIN, NTWIN_SIZED(LONG64), LONG64, LONG, NTWIN_IS_SIZED_HALF)
NTWIN_OF_LONG(NTWIN_PLAIN, NTWIN_SIZED(ULONG64), ULONG64, ULONG, NTWIN_IS_SIZED_HALF)
NTWIN_OF_LONG(NTWIN_INTRINSIC, NTWIN_SIZED(LONG64), LONG64, LONG, NTWIN_IS_SIZED_HALF)
#endif
#if __cplusplus >= 201103L
NTWIN_OVERLOADS(NTWIN_PLAIN64, long long)
NTWIN_OVERLOADS(NTWIN_PLAIN64, unsigned long long)
#endif
#else
#define NTWIN_LONG(name) ntwin_long_##name
#define NTWIN_ULONG(name) ntwin_ulong_##name
#define NTWIN_HALF_LONG(name) ntwin_half_long_##name
#define NTWIN_HALF_ULONG(name) ntwin_half_ulong_##name
NTWIN_OF_LONG(NTWIN_LONG, long volatile *at, long, LONG, NTWIN_IS_BETWEEN(at))
NTWIN_OF_LONG(NTWIN_ULONG, unsigned long volatile *at, unsigned long, ULONG, NTWIN_IS_BETWEEN(at))
NTWIN_OF_LONG(NTWIN_HALF_LONG, long volatile *at, long, LONG, TRUE)
NTWIN_OF_LONG(NTWIN_HALF_ULONG, unsigned long volatile *at, unsigned long, ULONG, TRUE)

#define NTWIN_BY_WIDTH(name, at, usual) \
    (__extension__ _Generic((at), \
        long *: NTWIN_IS_SMALL(at) ? NTWIN_HALF_LONG(name) : NTWIN_LONG(name), \
        long volatile *: NTWIN_IS_SMALL(at) ? NTWIN_HALF_LONG(name) : NTWIN_LONG(name), \
        unsigned long *: NTWIN_IS_SMALL(at) ? NTWIN_HALF_ULONG(name) : NTWIN_ULONG(name), \
        unsigned long volatile *: NTWIN_IS_SMALL(at) ? NTWIN_HALF_ULONG(name) : NTWIN_ULONG(name), \
        default: usual))
#define InterlockedIncrement(at) NTWIN_BY_WIDTH(Increment, at, InterlockedIncrement)(at)
#define InterlockedDecrement(at) NTWIN_BY_WIDTH(Decrement, at, InterlockedDecrement)(at)
#define InterlockedAdd(at, by) NTWIN_BY_WIDTH(Add, at, InterlockedAdd)(at, by)
#define InterlockedExchangeAdd(at, by) NTWIN_BY_WIDTH(ExchangeAdd, at, InterlockedExchangeAdd)(at, by)
#define InterlockedExchangeSubtract(at, by) NTWIN_BY_WIDTH(ExchangeSubtract, at, InterlockedExchangeSubtract)(at, by)
#define InterlockedExchange(at, value) NTWIN_BY_WIDTH(Exchange, at, InterlockedExchange)(at, value)
#define InterlockedCompareExchange(at, value, comparand) NTWIN_BY_WIDTH(CompareExchange, at, InterlockedCompareExchange)(at, value, comparand)
#define InterlockedAnd(at, bits) NTWIN_BY_WIDTH(And, at, InterlockedAnd)(at, bits)
#define InterlockedOr(at, bits) NTWIN_BY_WIDTH(Or, at, InterlockedOr)(at, bits)
#define InterlockedXor(at, bits) NTWIN_BY_WIDTH(Xor, at, InterlockedXor)(at, bits)
#define _InterlockedIncrement(at) NTWIN_BY_WIDTH(Increment, at, _InterlockedIncrement)(at)
#define _InterlockedDecrement(at) NTWIN_BY_WIDTH(Decrement, at, _InterlockedDecrement)(at)
#define _InterlockedAdd(at, by) NTWIN_BY_WIDTH(Add, at, _InterlockedAdd)(at, by)
#define _InterlockedExchangeAdd(at, by) NTWIN_BY_WIDTH(ExchangeAdd, at, _InterlockedExchangeAdd)(at, by)
#define _InterlockedExchangeSubtract(at, by) NTWIN_BY_WIDTH(ExchangeSubtract, at, _InterlockedExchangeSubtract)(at, by)
#define _InterlockedExchange(at, value) NTWIN_BY_WIDTH(Exchange, at, _InterlockedExchange)(at, value)
#define _InterlockedCompareExchange(at, value, comparand) NTWIN_BY_WIDTH(CompareExchange, at, _InterlockedCompareExchange)(at, value, comparand)
#define _InterlockedAnd(at, bits) NTWIN_BY_WIDTH(And, at, _InterlockedAnd)(at, bits)
#define _InterlockedOr(at, bits) NTWIN_BY_WIDTH(Or, at, _InterlockedOr)(at, bits)
#define _InterlockedXor(at, bits) NTWIN_BY_WIDTH(Xor, at, _InterlockedXor)(at, bits)
#endif

/* ---- Barriers, and reads and writes that order. */

#define MemoryBarrier() __atomic_thread_fence(__ATOMIC_SEQ_CST)
#define _ReadWriteBarrier() __atomic_signal_fence(__ATOMIC_SEQ_CST)
#define _ReadBarrier() __atomic_signal_fence(__ATOMIC_ACQUIRE)
#define _WriteBarrier() __atomic_signal_fence(__ATOMIC_RELEASE)
#if defined __x86_64__ || defined __i386__
#define YieldProcessor() __builtin_ia32_pause()
#else
#define YieldProcessor() __atomic_signal_fence(__ATOMIC_SEQ_CST)
#endif

#define NTWIN_READS(type, read_acquire, read, write_release, write) \
    NTWIN_INLINE type read_acquire(type const volatile *at) \
    { \
        NTWIN_COME(at); \
        return __atomic_load_n(at, __ATOMIC_ACQUIRE); \
    } \
    NTWIN_INLINE type read(type const volatile *at) \
    { \
        NTWIN_COME(at); \
        return __atomic_load_n(at, __ATOMIC_RELAXED); \
    } \
    NTWIN_INLINE void write_release(type volatile *at, type value) \
    { \
        NTWIN_COME(at); \
        __atomic_store_n(at, value, __ATOMIC_RELEASE); \
    } \
    NTWIN_INLINE void write(type volatile *at, type value) \
    { \
        NTWIN_COME(at); \
        __atomic_store_n(at, value, __ATOMIC_RELAXED); \
    }

NTWIN_READS(LONG, ReadAcquire, ReadNoFence, WriteRelease, WriteNoFence)
NTWIN_READS(LONG64, ReadAcquire64, ReadNoFence64, WriteRelease64, WriteNoFence64)
NTWIN_READS(PVOID, ReadPointerAcquire, ReadPointerNoFence, WritePointerRelease, WritePointerNoFence)

#endif
