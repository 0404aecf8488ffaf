/* SPDX-License-Identifier: MIT OR Apache-2.0 */
/* ---- Handles of objects by their names. */
#include "internal.h"

NTW_INTERNAL HANDLE open_by_name(enum kind kind, struct given_name given, DWORD access)
{
    struct name name;
    struct nt_reply reply;
    uint32_t refused;
    if (!is_named(given))
        refused = has_name(given) ? ERROR_INVALID_HANDLE : ERROR_INVALID_PARAMETER;
    else
        refused = read_name(given, &name);
    if (refused != 0) {
        ntw_fail(refused);
        return NULL;
    }
    struct seat *seat = ntw_begin();
    if (seat == NULL)
        return NULL;
    struct named *named = find_named(name.text);
    if (named == NULL)
        refused = ERROR_FILE_NOT_FOUND;
    else
        refused = named->kind != kind ? ERROR_INVALID_HANDLE : open_named(seat, named, rights_asked(kind, access), &reply);
    return finish_creation(seat, refused, &reply, own.last_error);
}

HANDLE OpenEventA(DWORD access, BOOL inherit, LPCSTR name)
{
    (void)inherit;
    return open_by_name(KIND_EVENT, NARROW(name), access);
}

HANDLE OpenEventW(DWORD access, BOOL inherit, LPCWSTR name)
{
    (void)inherit;
    return open_by_name(KIND_EVENT, WIDE(name), access);
}

HANDLE OpenSemaphoreA(DWORD access, BOOL inherit, LPCSTR name)
{
    (void)inherit;
    return open_by_name(KIND_SEMAPHORE, NARROW(name), access);
}

HANDLE OpenSemaphoreW(DWORD access, BOOL inherit, LPCWSTR name)
{
    (void)inherit;
    return open_by_name(KIND_SEMAPHORE, WIDE(name), access);
}

HANDLE OpenMutexA(DWORD access, BOOL inherit, LPCSTR name)
{
    (void)inherit;
    return open_by_name(KIND_MUTEX, NARROW(name), access);
}

HANDLE OpenMutexW(DWORD access, BOOL inherit, LPCWSTR name)
{
    (void)inherit;
    return open_by_name(KIND_MUTEX, WIDE(name), access);
}

HANDLE OpenWaitableTimerA(DWORD access, BOOL inherit, LPCSTR name)
{
    (void)inherit;
    return open_by_name(KIND_TIMER, NARROW(name), access);
}

HANDLE OpenWaitableTimerW(DWORD access, BOOL inherit, LPCWSTR name)
{
    (void)inherit;
    return open_by_name(KIND_TIMER, WIDE(name), access);
}
