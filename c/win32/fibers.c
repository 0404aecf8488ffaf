/* SPDX-License-Identifier: MIT OR Apache-2.0 */
/* ---- Fibers: each a stack and registers of its own, which a thread runs until it switches to another. What they have in the slots of FlsAlloc goes
 * with them; all else is the thread's. A thread's first fiber has the thread's own stack. */
#include "internal.h"
#include "../schedule/internal.h"
#include <ucontext.h>

struct fiber {
    PVOID data;                /* (GetFiberData looks for it here.) */
    LPFIBER_START_ROUTINE start;
    ucontext_t context;
    char *stack;               /* from its guard page on; null where it is a thread's own */
    size_t size;
    _Atomic bool runs;
    struct storage storage;    /* but what is in the slots of TlsAlloc */
    const void *bottom;        /* of the stack; this and what follows is for sanitizers */
    size_t height;
    void *frames, *history;
};

enum { GUARD = 4096, USUAL_STACK = 1 << 20 };

static _Thread_local struct {
    struct fiber *current, *first; /* null where the thread is none */
    struct fiber *deleted;         /* by itself: the thread deletes it once it has left its stack, */
    bool exits;                    /* and exits, with this code */
    DWORD code;
} fibers __attribute__((tls_model("initial-exec")));

/* What a sanitizer of the program has to know of stacks, where there is one. */
__attribute__((weak)) void __sanitizer_start_switch_fiber(void **frames, const void *bottom, size_t size);
__attribute__((weak)) void __sanitizer_finish_switch_fiber(void *frames, const void **bottom, size_t *size);
__attribute__((weak)) void *__tsan_get_current_fiber(void);
__attribute__((weak)) void *__tsan_create_fiber(unsigned flags);
__attribute__((weak)) void __tsan_destroy_fiber(void *history);
__attribute__((weak)) void __tsan_switch_to_fiber(void *history, unsigned flags);

/* ---- Coming and going. */

/* The caller runs this fiber from now on. (No address of something that a thread has is kept over a switch: it may be another's then.) */
__attribute__((noinline)) static void arrive(struct fiber *here)
{
    if (__sanitizer_finish_switch_fiber != NULL)
        __sanitizer_finish_switch_fiber(here->frames, NULL, NULL);
    struct fiber *deleted = fibers.deleted;
    fibers.deleted = NULL;
    if (deleted != NULL)
        DeleteFiber(deleted);
    if (fibers.exits)
        ExitThread(fibers.code);
}

__attribute__((noinline)) static void depart(struct fiber *from, struct fiber *to)
{
    atomic_store_explicit(&from->runs, false, memory_order_relaxed);
    atomic_store_explicit(&to->runs, true, memory_order_relaxed);
    fibers.current = to;
    storage_of_fiber = &to->storage;
    if (__sanitizer_start_switch_fiber != NULL)
        __sanitizer_start_switch_fiber(&from->frames, to->bottom, to->height);
}

__attribute__((noinline)) static void switch_fiber(struct fiber *from, struct fiber *to)
{
    depart(from, to);
    if (__tsan_switch_to_fiber != NULL)
        __tsan_switch_to_fiber(to->history, 0);
    swapcontext(&from->context, &to->context);
    arrive(from);
}

__attribute__((noinline)) static struct fiber *fiber_of_caller(void)
{
    return fibers.current;
}

/* A fiber that returns ends its thread. */
static void run_fiber(void)
{
    struct fiber *here = fiber_of_caller();
    arrive(here);
    here->start(here->data);
    ExitThread(0);
}

NTW_INTERNAL void exit_by_own_stack(DWORD code)
{
    struct fiber *here = fibers.current, *first = fibers.first;
    if (here == first || atomic_load_explicit(&first->runs, memory_order_relaxed))
        return;
    fibers.exits = true;
    fibers.code = code;
    switch_fiber(here, first);
}

void SwitchToFiber(LPVOID fiber)
{
    struct fiber *here = fiber_of_caller();
    if (here != NULL && fiber != NULL && fiber != here)
        switch_fiber(here, fiber);
}

/* ---- Fibers are made, and are gone. */

static void list_fiber(struct fiber *fiber)
{
    take_latch(&storages.latch);
    list_storage(&fiber->storage);
    give_latch(&storages.latch);
}

static void free_fiber(struct fiber *fiber)
{
    empty_storage(&fiber->storage);
    if (fiber->stack != NULL) {
        munmap(fiber->stack, fiber->size);
        if (__tsan_destroy_fiber != NULL)
            __tsan_destroy_fiber(fiber->history);
    }
    free(fiber);
}

/* A stack of this number of bytes above its guard page. False where memory is refused. */
static bool make_stack(struct fiber *fiber, size_t size)
{
    fiber->size = (size + 2 * GUARD - 1) / GUARD * GUARD;
    char *stack = mmap(NULL, fiber->size, PROT_READ | PROT_WRITE, MAP_PRIVATE | MAP_ANONYMOUS | MAP_NORESERVE | MAP_STACK, -1, 0);
    if (stack == MAP_FAILED)
        return false;
    mprotect(stack, GUARD, PROT_NONE);
    fiber->stack = stack;
    fiber->bottom = stack + GUARD;
    fiber->height = fiber->size - GUARD;
    return true;
}

LPVOID CreateFiberEx(SIZE_T commit, SIZE_T reserve, DWORD flags, LPFIBER_START_ROUTINE start, LPVOID data)
{
    const size_t least = reserve != 0 ? reserve : USUAL_STACK, size = commit > least ? commit : least;
    if (start == NULL || (flags & ~FIBER_FLAG_FLOAT_SWITCH) != 0) {
        ntw_fail(ERROR_INVALID_PARAMETER);
        return NULL;
    }
    struct fiber *fiber = size < SIZE_MAX / 2 ? calloc(1, sizeof *fiber) : NULL;
    if (fiber == NULL || getcontext(&fiber->context) != 0 || !make_stack(fiber, size)) {
        free(fiber);
        ntw_fail(ERROR_NOT_ENOUGH_MEMORY);
        return NULL;
    }
    fiber->data = data;
    fiber->start = start;
    fiber->context.uc_stack = (stack_t){ .ss_sp = fiber->stack + GUARD, .ss_size = fiber->height };
    fiber->context.uc_link = NULL;
    makecontext(&fiber->context, run_fiber, 0);
    if (__tsan_create_fiber != NULL)
        fiber->history = __tsan_create_fiber(0);
    list_fiber(fiber);
    return fiber;
}

LPVOID CreateFiber(SIZE_T stack, LPFIBER_START_ROUTINE start, LPVOID data)
{
    return CreateFiberEx(stack, 0, 0, start, data);
}

/* (Another thread's first fiber goes with that.) */
void DeleteFiber(LPVOID at)
{
    struct fiber *fiber = at, *here = fiber_of_caller();
    if (fiber == here && fiber != NULL) {
        if (fiber->stack != NULL)
            fibers.deleted = fiber;
        ExitThread(1);
    }
    if (fiber != NULL && fiber->stack != NULL)
        free_fiber(fiber);
}

/* ---- A thread becomes a fiber, and a thread again. */

/* What the one has in the slots of FlsAlloc is the other's from now on. */
static void move_values(struct storage *from, struct storage *to)
{
    take_latch(&storages.latch);
    for (int block = 0; block < BLOCKS; block++) {
        struct value *values = atomic_exchange_explicit(&from->blocks[FLS][block], NULL, memory_order_relaxed);
        atomic_store_explicit(&to->blocks[FLS][block], values, memory_order_release);
    }
    give_latch(&storages.latch);
}

LPVOID ConvertThreadToFiberEx(LPVOID data, DWORD flags)
{
    ULONG_PTR low, high;
    if (fibers.current != NULL || (flags & ~FIBER_FLAG_FLOAT_SWITCH) != 0) {
        ntw_fail(fibers.current != NULL ? ERROR_ALREADY_FIBER : ERROR_INVALID_PARAMETER);
        return NULL;
    }
    struct storage *mine = storage != NULL ? storage : make_storage();
    struct fiber *fiber = mine != NULL ? calloc(1, sizeof *fiber) : NULL;
    if (fiber == NULL) {
        ntw_fail(ERROR_NOT_ENOUGH_MEMORY);
        return NULL;
    }
    GetCurrentThreadStackLimits(&low, &high);
    fiber->data = data;
    fiber->bottom = (const void *)low;
    fiber->height = high - low;
    if (__tsan_get_current_fiber != NULL)
        fiber->history = __tsan_get_current_fiber();
    fiber->runs = true;
    list_fiber(fiber);
    move_values(mine, &fiber->storage);
    fibers.current = fibers.first = fiber;
    storage_of_fiber = &fiber->storage;
    return fiber;
}

LPVOID ConvertThreadToFiber(LPVOID data)
{
    return ConvertThreadToFiberEx(data, 0);
}

BOOL ConvertFiberToThread(void)
{
    struct fiber *here = fibers.current;
    if (here == NULL || here != fibers.first)
        return ntw_fail(here == NULL ? ERROR_ALREADY_THREAD : ERROR_NOT_SUPPORTED);
    move_values(&here->storage, storage);
    fibers.current = fibers.first = NULL;
    storage_of_fiber = NULL;
    free_fiber(here);
    return TRUE;
}

/* (What a thread's other fibers have stays, until they are deleted.) */
NTW_INTERNAL void end_fiber_of_thread(void)
{
    struct fiber *here = fibers.current;
    if (here == NULL)
        return;
    if (here != fibers.first) {
        hand_back_values(&here->storage);
        return;
    }
    fibers.current = fibers.first = NULL;
    storage_of_fiber = NULL;
    free_fiber(here);
}

BOOL IsThreadAFiber(void)
{
    return fibers.current != NULL;
}

/* (What Windows answers of a thread that is no fiber.) */
PVOID GetCurrentFiber(void)
{
    struct fiber *here = fiber_of_caller();
    return here != NULL ? here : (PVOID)(uintptr_t)0x1E00;
}
