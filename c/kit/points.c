/* SPDX-License-Identifier: MIT OR Apache-2.0 */
/* Points at memory for NTWIN_SCHEDULE (docs/SCHEDULES.md). A program that is compiled, but not linked, with -fsanitize=thread comes here before it
 * reads or writes memory, and for each atomic step; a program that is compiled with -DNTWIN_POINTS, before each interlocked call. The scheduler looks for
 * races, and may let another thread go on. Without a scheduler nothing happens but the access.
 *
 *     cc -fsanitize=thread -g -c program.c
 *     cc -o program program.o points.c libntwin.a -lpthread */
#include <stddef.h>
#include <stdint.h>

/* How memory is touched (schedule/memory.c has the same). */
enum { READS = 0, WRITES = 1, IS_ATOMIC = 2, ACQUIRES = 4, RELEASES = 8 };

/* The library writes these as a run begins. */
struct {
    void (*touch)(const volatile void *at, size_t size, unsigned how, const void *place);
    void (*order)(const volatile void *at, unsigned how);
} ntwin_points;

/* (What comes after the call keeps its caller's frame, by which reports name the access.) */
#define TOUCH(at, size, how) \
    do { \
        if (ntwin_points.touch != NULL) \
            ntwin_points.touch((at), (size), (how), __builtin_return_address(0)); \
        __asm__ __volatile__(""); \
    } while (0)

/* The compilers know these names, and declare them otherwise. */
#if defined __GNUC__ && !defined __clang__
#pragma GCC diagnostic ignored "-Wbuiltin-declaration-mismatch"
#endif

void ntwin_come_to_memory(const volatile void *at, size_t size);
void ntwin_come_to_memory(const volatile void *at, size_t size)
{
    TOUCH(at, size, WRITES | IS_ATOMIC | ACQUIRES | RELEASES);
}

/* ---- Plain accesses. (Those of what is volatile are taken for steps that order, as compilers for Windows take them.) */

#define DECLARED(type, name, parameters) \
    type name parameters; \
    type name parameters

enum { VOLATILE_READ = IS_ATOMIC | ACQUIRES, VOLATILE_WRITE = WRITES | IS_ATOMIC | RELEASES };

#define ACCESSES(size) \
    DECLARED(void, __tsan_read##size, (void *at)) { TOUCH(at, size, READS); } \
    DECLARED(void, __tsan_write##size, (void *at)) { TOUCH(at, size, WRITES); } \
    DECLARED(void, __tsan_unaligned_read##size, (void *at)) { TOUCH(at, size, READS); } \
    DECLARED(void, __tsan_unaligned_write##size, (void *at)) { TOUCH(at, size, WRITES); } \
    DECLARED(void, __tsan_volatile_read##size, (void *at)) { TOUCH(at, size, VOLATILE_READ); } \
    DECLARED(void, __tsan_volatile_write##size, (void *at)) { TOUCH(at, size, VOLATILE_WRITE); } \
    DECLARED(void, __tsan_unaligned_volatile_read##size, (void *at)) { TOUCH(at, size, VOLATILE_READ); } \
    DECLARED(void, __tsan_unaligned_volatile_write##size, (void *at)) { TOUCH(at, size, VOLATILE_WRITE); } \
    DECLARED(void, __tsan_read_write##size, (void *at)) { TOUCH(at, size, WRITES); } \
    DECLARED(void, __tsan_unaligned_read_write##size, (void *at)) { TOUCH(at, size, WRITES); }

ACCESSES(1)
ACCESSES(2)
ACCESSES(4)
ACCESSES(8)
ACCESSES(16)

DECLARED(void, __tsan_read_range, (void *at, size_t size)) { TOUCH(at, size, READS); }
DECLARED(void, __tsan_write_range, (void *at, size_t size)) { TOUCH(at, size, WRITES); }
DECLARED(void, __tsan_vptr_read, (void **at)) { TOUCH(at, sizeof *at, READS); }

/* (A constructor that writes the same again is no race.) */
DECLARED(void, __tsan_vptr_update, (void **at, void *value))
{
    if (*at != value)
        TOUCH(at, sizeof *at, WRITES);
}

/* Copies, which clang calls by these names from version 15 on. (What gcc copies it names above; clang before that does not say.) */
#define COPIES(name, parameters, first, second) \
    DECLARED(void *, __tsan_##name, parameters) \
    { \
        first; \
        second; \
        return __builtin_##name(to, from, size); \
    }
COPIES(memcpy, (void *to, const void *from, size_t size), TOUCH(from, size, READS), TOUCH(to, size, WRITES))
COPIES(memmove, (void *to, const void *from, size_t size), TOUCH(from, size, READS), TOUCH(to, size, WRITES))
COPIES(memset, (void *to, int from, size_t size), TOUCH(to, size, WRITES), (void)0)

DECLARED(void, __tsan_init, (void)) {}
DECLARED(void, __tsan_func_entry, (void *from)) { (void)from; }
DECLARED(void, __tsan_func_exit, (void)) {}

/* ---- What the library says of its own calls. */

DECLARED(void, __tsan_acquire, (void *at))
{
    if (ntwin_points.order != NULL)
        ntwin_points.order(at, ACQUIRES);
}

DECLARED(void, __tsan_release, (void *at))
{
    if (ntwin_points.order != NULL)
        ntwin_points.order(at, RELEASES);
}

/* ---- Atomic steps. Each is carried out in the strongest order, and orders for races as much as it says. */

static unsigned loads(int order)
{
    return IS_ATOMIC | (order != __ATOMIC_RELAXED ? ACQUIRES : 0u);
}

static unsigned stores(int order)
{
    return WRITES | IS_ATOMIC | (order != __ATOMIC_RELAXED ? RELEASES : 0u);
}

static unsigned changes(int order)
{
    const unsigned acquires = order == __ATOMIC_RELAXED || order == __ATOMIC_RELEASE ? 0 : ACQUIRES;
    return WRITES | IS_ATOMIC | acquires | (order == __ATOMIC_RELEASE || order == __ATOMIC_ACQ_REL || order == __ATOMIC_SEQ_CST ? RELEASES : 0u);
}

#define CHANGE(bits, name, step) \
    DECLARED(uint##bits##_t, __tsan_atomic##bits##_##name, (volatile uint##bits##_t *at, uint##bits##_t value, int order)) \
    { \
        TOUCH(at, sizeof *at, changes(order)); \
        return step(at, value, __ATOMIC_SEQ_CST); \
    }

#define COMPARE(bits, name) \
    DECLARED(int, __tsan_atomic##bits##_##name, \
             (volatile uint##bits##_t *at, uint##bits##_t *expected, uint##bits##_t value, int order, int otherwise)) \
    { \
        (void)otherwise; \
        TOUCH(at, sizeof *at, changes(order)); \
        return __atomic_compare_exchange_n(at, expected, value, 0, __ATOMIC_SEQ_CST, __ATOMIC_SEQ_CST); \
    }

#define ATOMIC(bits) \
    DECLARED(uint##bits##_t, __tsan_atomic##bits##_load, (const volatile uint##bits##_t *at, int order)) \
    { \
        TOUCH(at, sizeof *at, loads(order)); \
        return __atomic_load_n(at, __ATOMIC_SEQ_CST); \
    } \
    DECLARED(void, __tsan_atomic##bits##_store, (volatile uint##bits##_t *at, uint##bits##_t value, int order)) \
    { \
        TOUCH(at, sizeof *at, stores(order)); \
        __atomic_store_n(at, value, __ATOMIC_SEQ_CST); \
    } \
    CHANGE(bits, exchange, __atomic_exchange_n) \
    CHANGE(bits, fetch_add, __atomic_fetch_add) \
    CHANGE(bits, fetch_sub, __atomic_fetch_sub) \
    CHANGE(bits, fetch_and, __atomic_fetch_and) \
    CHANGE(bits, fetch_or, __atomic_fetch_or) \
    CHANGE(bits, fetch_xor, __atomic_fetch_xor) \
    CHANGE(bits, fetch_nand, __atomic_fetch_nand) \
    COMPARE(bits, compare_exchange_strong) \
    COMPARE(bits, compare_exchange_weak) \
    DECLARED(uint##bits##_t, __tsan_atomic##bits##_compare_exchange_val, \
             (volatile uint##bits##_t *at, uint##bits##_t expected, uint##bits##_t value, int order, int otherwise)) \
    { \
        (void)otherwise; \
        TOUCH(at, sizeof *at, changes(order)); \
        __atomic_compare_exchange_n(at, &expected, value, 0, __ATOMIC_SEQ_CST, __ATOMIC_SEQ_CST); \
        return expected; \
    }

ATOMIC(8)
ATOMIC(16)
ATOMIC(32)
ATOMIC(64)

DECLARED(void, __tsan_atomic_thread_fence, (int order))
{
    (void)order;
    __atomic_thread_fence(__ATOMIC_SEQ_CST);
}

DECLARED(void, __tsan_atomic_signal_fence, (int order)) { (void)order; }
