/* SPDX-License-Identifier: MIT OR Apache-2.0 */
/* ---- One-time initialization. The two lowest bits say how it stands; the others are its context once it is done. */
#include "internal.h"

enum { ONCE_BEFORE, ONCE_BEGUN, ONCE_DONE, ONCE_BEGUN_BY_MANY, ONCE_BITS = 3 };

static uintptr_t once_of(PINIT_ONCE once)
{
    return (uintptr_t)__atomic_load_n(&once->Ptr, __ATOMIC_ACQUIRE);
}

/* Changes it from `seen`, where it is that still. */
static bool change_once(PINIT_ONCE once, uintptr_t seen, uintptr_t value)
{
    PVOID expected = (PVOID)seen;
    comes_before((_Atomic uint32_t *)(void *)once);
    return __atomic_compare_exchange_n(&once->Ptr, &expected, (PVOID)value, 0, __ATOMIC_ACQ_REL, __ATOMIC_ACQUIRE);
}

void InitOnceInitialize(PINIT_ONCE once)
{
    once->Ptr = NULL;
}

/* It is done: hands out its context. */
static BOOL finish_once(PINIT_ONCE once, uintptr_t value, LPVOID *context)
{
    comes_after((_Atomic uint32_t *)(void *)once);
    if (context != NULL)
        *context = (LPVOID)(value & ~(uintptr_t)ONCE_BITS);
    return TRUE;
}

BOOL InitOnceBeginInitialize(LPINIT_ONCE once, DWORD flags, PBOOL pending, LPVOID *context)
{
    const bool is_async = (flags & INIT_ONCE_ASYNC) != 0, only_checks = (flags & INIT_ONCE_CHECK_ONLY) != 0;
    if ((flags & ~(INIT_ONCE_ASYNC | INIT_ONCE_CHECK_ONLY)) != 0 || (is_async && only_checks))
        return ntw_fail(ERROR_INVALID_PARAMETER);
    may_switch_at_seen(once);
    for (;;) {
        uintptr_t value = once_of(once);
        const uintptr_t stand = value & ONCE_BITS;
        if (stand == ONCE_DONE) {
            *pending = FALSE;
            return finish_once(once, value, context);
        }
        if (only_checks)
            return ntw_fail(ERROR_GEN_FAILURE);
        if (stand != ONCE_BEFORE && is_async != (stand == ONCE_BEGUN_BY_MANY))
            return ntw_fail(ERROR_INVALID_PARAMETER);
        if (stand == ONCE_BEGUN) {
            wait_on(&once->Ptr, &value, sizeof value, INFINITE, FOR_ONCE);
        } else if (stand == ONCE_BEGUN_BY_MANY || change_once(once, value, is_async ? ONCE_BEGUN_BY_MANY : ONCE_BEGUN)) {
            *pending = TRUE;
            return TRUE;
        }
    }
}

BOOL InitOnceComplete(LPINIT_ONCE once, DWORD flags, LPVOID context)
{
    const bool is_async = (flags & INIT_ONCE_ASYNC) != 0, has_failed = (flags & INIT_ONCE_INIT_FAILED) != 0;
    const uintptr_t after = has_failed ? ONCE_BEFORE : (uintptr_t)context | ONCE_DONE;
    const uintptr_t before = once_of(once);
    if ((flags & ~(INIT_ONCE_ASYNC | INIT_ONCE_INIT_FAILED)) != 0 || ((uintptr_t)context & ONCE_BITS) != 0
        || (has_failed && (is_async || context != NULL)))
        return ntw_fail(ERROR_INVALID_PARAMETER);
    if ((before & ONCE_BITS) == ONCE_BEGUN_BY_MANY && !is_async)
        return ntw_fail(ERROR_INVALID_PARAMETER);
    if ((before != ONCE_BEGUN && before != ONCE_BEGUN_BY_MANY) || !change_once(once, before, after))
        return ntw_fail(ERROR_GEN_FAILURE);
    WakeByAddressAll(&once->Ptr);
    return TRUE;
}

/* The callback has made this context: the initialization is done, or failed where that has one of the bits that are not its own. */
static BOOL complete_made(PINIT_ONCE once, LPVOID made)
{
    if (((uintptr_t)made & ONCE_BITS) == 0)
        return InitOnceComplete(once, 0, made);
    InitOnceComplete(once, INIT_ONCE_INIT_FAILED, NULL);
    return ntw_fail(ERROR_INVALID_PARAMETER);
}

BOOL InitOnceExecuteOnce(PINIT_ONCE once, PINIT_ONCE_FN initialize, PVOID parameter, LPVOID *context)
{
    BOOL pending;
    LPVOID none = NULL, *made = context != NULL ? context : &none;
    const uintptr_t value = once_of(once);
    if ((value & ONCE_BITS) == ONCE_DONE)
        return finish_once(once, value, context);
    if (!InitOnceBeginInitialize(once, 0, &pending, context))
        return FALSE;
    if (!pending)
        return TRUE;
    if (initialize(once, parameter, made))
        return complete_made(once, *made);
    InitOnceComplete(once, INIT_ONCE_INIT_FAILED, NULL);
    return FALSE;
}
