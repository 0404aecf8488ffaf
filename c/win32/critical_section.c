/* SPDX-License-Identifier: MIT OR Apache-2.0 */
/* ---- Critical sections. LockCount is the word that threads sleep on: */
#include "internal.h"

enum { SECTION_FREE = -1, SECTION_TAKEN, SECTION_WANTED };
#define SECTION_SPINS 0x00FFFFFFu /* the bits of a spin count that are no flags */

static _Atomic uint32_t *word_of(LPCRITICAL_SECTION section)
{
    return (_Atomic uint32_t *)(void *)&section->LockCount;
}

static void open_section(LPCRITICAL_SECTION section, DWORD spins)
{
    section->DebugInfo = (PRTL_CRITICAL_SECTION_DEBUG)(intptr_t)-1;
    section->RecursionCount = 0;
    section->OwningThread = NULL;
    section->LockSemaphore = NULL;
    section->SpinCount = spins & SECTION_SPINS;
    __atomic_store_n(&section->LockCount, SECTION_FREE, __ATOMIC_RELEASE);
}

void InitializeCriticalSection(LPCRITICAL_SECTION section)
{
    open_section(section, 0);
}

BOOL InitializeCriticalSectionAndSpinCount(LPCRITICAL_SECTION section, DWORD spins)
{
    open_section(section, spins);
    return TRUE;
}

BOOL InitializeCriticalSectionEx(LPCRITICAL_SECTION section, DWORD spins, DWORD flags)
{
    const DWORD known = RTL_CRITICAL_SECTION_FLAG_NO_DEBUG_INFO | RTL_CRITICAL_SECTION_FLAG_DYNAMIC_SPIN
        | RTL_CRITICAL_SECTION_FLAG_STATIC_INIT | RTL_CRITICAL_SECTION_FLAG_FORCE_DEBUG_INFO;
    if ((flags & ~known) != 0 || (spins & ~SECTION_SPINS) != 0)
        return ntw_fail(ERROR_INVALID_PARAMETER);
    open_section(section, spins);
    return TRUE;
}

DWORD SetCriticalSectionSpinCount(LPCRITICAL_SECTION section, DWORD spins)
{
    return (DWORD)__atomic_exchange_n(&section->SpinCount, spins & SECTION_SPINS, __ATOMIC_RELAXED);
}

/* Takes it where it is free. (A process with one thread needs no step that is one for others.) */
static inline bool try_section(LPCRITICAL_SECTION section)
{
    LONG seen = SECTION_FREE;
    if (!is_alone())
        return __atomic_compare_exchange_n(&section->LockCount, &seen, SECTION_TAKEN, 0, __ATOMIC_ACQUIRE, __ATOMIC_RELAXED);
    if (__atomic_load_n(&section->LockCount, __ATOMIC_RELAXED) != SECTION_FREE)
        return false;
    __atomic_store_n(&section->LockCount, SECTION_TAKEN, __ATOMIC_RELAXED);
    return true;
}

/* Looks for a while whether it is free, and then sleeps until it is. */
__attribute__((noinline)) static void wait_for_section(LPCRITICAL_SECTION section)
{
    const ULONG_PTR spins = __atomic_load_n(&section->SpinCount, __ATOMIC_RELAXED);
    for (ULONG_PTR i = 0; (i < LOOKS_AT_LOCK || i < spins) && !is_scheduled; i++) {
        const LONG seen = __atomic_load_n(&section->LockCount, __ATOMIC_RELAXED);
        if (seen == SECTION_WANTED)
            break;
        if (seen == SECTION_FREE && try_section(section))
            return;
        rest();
    }
    if (__atomic_exchange_n(&section->LockCount, SECTION_WANTED, __ATOMIC_ACQUIRE) == SECTION_FREE)
        return;
    struct sleeper sleeper = { .section = section };
    note_sleeper(&sleeper);
    do
        sleep_on(word_of(section), SECTION_WANTED, NULL);
    while (__atomic_exchange_n(&section->LockCount, SECTION_WANTED, __ATOMIC_ACQUIRE) != SECTION_FREE);
    forget_sleeper(&sleeper);
}

/* The id by which the caller owns a section. */
static HANDLE handle_of_id(DWORD id)
{
    return (HANDLE)(uintptr_t)id;
}

/* The caller, which has this id, has it. */
static inline void own_section(LPCRITICAL_SECTION section, DWORD id)
{
    __atomic_store_n(&section->OwningThread, handle_of_id(id), __ATOMIC_RELAXED);
    section->RecursionCount = 1;
}

/* Once more where the caller has it. Answers whether it does. */
static inline bool enter_again(LPCRITICAL_SECTION section, DWORD id)
{
    const bool owns = __atomic_load_n(&section->OwningThread, __ATOMIC_RELAXED) == handle_of_id(id);
    if (owns)
        section->RecursionCount++;
    return owns;
}

/* Enters a section that another thread has. */
__attribute__((noinline)) static void enter_taken(LPCRITICAL_SECTION section, DWORD id)
{
    wait_for_section(section);
    own_section(section, id);
}

/* What a sanitizer learns of who enters and leaves. */
__attribute__((noinline, cold)) static void tell_of_entering(LPCRITICAL_SECTION section)
{
    comes_after(word_of(section));
}

/* The caller's id, which is its mark from now on, where neither a sanitizer nor a scheduler learns of each section. */
__attribute__((noinline)) static DWORD mark_caller(void)
{
    const DWORD id = id_of_caller();
    if (!has_sanitizer() && !is_scheduled)
        own.mark = id;
    return id;
}

__attribute__((noinline)) static void enter_unmarked(LPCRITICAL_SECTION section)
{
    const DWORD id = mark_caller();
    if (enter_again(section, id))
        return;
    may_switch_at(word_of(section));
    if (try_section(section))
        own_section(section, id);
    else
        enter_taken(section, id);
    tell_of_entering(section);
}

/* (What is rare is a last call, so that the rest keeps no register for it.) */
void EnterCriticalSection(LPCRITICAL_SECTION section)
{
    const DWORD id = own.mark;
    if (id == 0) {
        enter_unmarked(section);
        return;
    }
    if (enter_again(section, id))
        return;
    if (!try_section(section)) {
        enter_taken(section, id);
        return;
    }
    own_section(section, id);
}

BOOL TryEnterCriticalSection(LPCRITICAL_SECTION section)
{
    const DWORD id = own.mark != 0 ? own.mark : mark_caller();
    if (enter_again(section, id))
        return TRUE;
    may_switch_at(word_of(section));
    if (!try_section(section))
        return FALSE;
    own_section(section, id);
    if (has_sanitizer())
        tell_of_entering(section);
    return TRUE;
}

__attribute__((noinline, cold)) static void wake_for_section(LPCRITICAL_SECTION section)
{
    wake_one(word_of(section));
}

/* It is nobody's. */
static inline void give_section(LPCRITICAL_SECTION section)
{
    if (__atomic_exchange_n(&section->LockCount, SECTION_FREE, __ATOMIC_RELEASE) == SECTION_WANTED)
        wake_for_section(section);
}

__attribute__((noinline, cold)) static void tell_and_give_section(LPCRITICAL_SECTION section)
{
    comes_before(word_of(section));
    give_section(section);
}

void LeaveCriticalSection(LPCRITICAL_SECTION section)
{
    if (--section->RecursionCount > 0)
        return;
    __atomic_store_n(&section->OwningThread, NULL, __ATOMIC_RELAXED);
    if (is_alone())
        __atomic_store_n(&section->LockCount, SECTION_FREE, __ATOMIC_RELAXED);
    else if (is_told())
        tell_and_give_section(section);
    else
        give_section(section);
}

void DeleteCriticalSection(LPCRITICAL_SECTION section)
{
    section->DebugInfo = NULL;
    section->RecursionCount = 0;
    section->OwningThread = NULL;
    section->LockSemaphore = NULL;
    section->SpinCount = 0;
    __atomic_store_n(&section->LockCount, SECTION_FREE, __ATOMIC_RELEASE);
}
