/* SPDX-License-Identifier: MIT OR Apache-2.0 */
/* Counts of semaphores. A LONG has 32 bits and a `long` 64, so what a program writes for the greatest LONG may be LONG_MAX: a count of 64 bits is
 * taken as it is, and one that fits in no LONG is the nearest. */
#ifndef NTWIN_COUNTS_H
#define NTWIN_COUNTS_H

#include "../ntwin.h"

#ifdef __cplusplus
extern "C" {
#endif

/* As ReleaseSemaphore; by more than any LONG is too much: ERROR_TOO_MANY_POSTS. */
BOOL ntwin_release_semaphore(HANDLE semaphore, LONGLONG count, LPLONG previous);

#ifdef __cplusplus
}
#endif

static __inline__ __attribute__((__unused__)) LONG ntwin_nearest_long(LONGLONG count)
{
    return count > INT32_MAX ? INT32_MAX : count < INT32_MIN ? INT32_MIN : (LONG)count;
}

#ifdef __cplusplus
/* (What has 32 bits is converted as for the call itself: of two calls that match, the one that is no template is made.) */
template <typename Count> LONG ntwin_count(Count count)
{
    return sizeof(count) > sizeof(LONG) ? ntwin_nearest_long((LONGLONG)count) : (LONG)count;
}

template <typename Initial, typename Maximum>
HANDLE CreateSemaphoreA(LPSECURITY_ATTRIBUTES attributes, Initial initial, Maximum maximum, LPCSTR name)
{
    return CreateSemaphoreA(attributes, ntwin_count(initial), ntwin_count(maximum), name);
}

template <typename Initial, typename Maximum>
HANDLE CreateSemaphoreW(LPSECURITY_ATTRIBUTES attributes, Initial initial, Maximum maximum, LPCWSTR name)
{
    return CreateSemaphoreW(attributes, ntwin_count(initial), ntwin_count(maximum), name);
}

template <typename Initial, typename Maximum>
HANDLE CreateSemaphoreExA(LPSECURITY_ATTRIBUTES attributes, Initial initial, Maximum maximum, LPCSTR name, DWORD flags, DWORD access)
{
    return CreateSemaphoreExA(attributes, ntwin_count(initial), ntwin_count(maximum), name, flags, access);
}

template <typename Initial, typename Maximum>
HANDLE CreateSemaphoreExW(LPSECURITY_ATTRIBUTES attributes, Initial initial, Maximum maximum, LPCWSTR name, DWORD flags, DWORD access)
{
    return CreateSemaphoreExW(attributes, ntwin_count(initial), ntwin_count(maximum), name, flags, access);
}

template <typename Count> BOOL ReleaseSemaphore(HANDLE semaphore, Count count, LPLONG previous)
{
    return ntwin_release_semaphore(semaphore, sizeof(count) > sizeof(LONG) ? (LONGLONG)count : (LONGLONG)(LONG)count, previous);
}
#else
#define NTWIN_COUNT(count) (sizeof(count) > sizeof(LONG) ? ntwin_nearest_long((LONGLONG)(count)) : (LONG)(count))
#define CreateSemaphoreA(attributes, initial, maximum, name) CreateSemaphoreA(attributes, NTWIN_COUNT(initial), NTWIN_COUNT(maximum), name)
#define CreateSemaphoreW(attributes, initial, maximum, name) CreateSemaphoreW(attributes, NTWIN_COUNT(initial), NTWIN_COUNT(maximum), name)
#define CreateSemaphoreExA(attributes, initial, maximum, name, flags, access) \
    CreateSemaphoreExA(attributes, NTWIN_COUNT(initial), NTWIN_COUNT(maximum), name, flags, access)
#define CreateSemaphoreExW(attributes, initial, maximum, name, flags, access) \
    CreateSemaphoreExW(attributes, NTWIN_COUNT(initial), NTWIN_COUNT(maximum), name, flags, access)
#define ReleaseSemaphore(semaphore, count, previous) \
    (sizeof(count) > sizeof(LONG) ? ntwin_release_semaphore(semaphore, (LONGLONG)(count), previous) \
                                  : (ReleaseSemaphore)(semaphore, (LONG)(count), previous))
#endif

#endif
