/* Counts of semaphores as sources for Windows write them, where a `long` has 32 bits: of which type and size they are, in C and in C++. */
#include <windows.h>

#include "check.h"

#include <limits.h>

static const LONGLONG GREATEST_LONG = 2147483647;

static void maxima_of_64_bits(void)
{
    HANDLE semaphore;
    LONG previous = -1;
    size_t three = 3;
    must((semaphore = CreateSemaphore(NULL, 0, LONG_MAX, NULL)) != NULL);
    ANSWERS(ReleaseSemaphore(semaphore, 2147483647, &previous), TRUE, UNTOUCHED);
    IS(previous, 0);
    ANSWERS(ReleaseSemaphore(semaphore, 1, NULL), FALSE, ERROR_TOO_MANY_POSTS);
    CloseHandle(semaphore);
    must((semaphore = CreateSemaphoreW(NULL, LONG_MAX, LONG_MAX, NULL)) != NULL);
    ANSWERS(ReleaseSemaphore(semaphore, 1, NULL), FALSE, ERROR_TOO_MANY_POSTS);
    CloseHandle(semaphore);
    must((semaphore = CreateSemaphoreExA(NULL, 2, GREATEST_LONG + 1, NULL, 0, SEMAPHORE_ALL_ACCESS)) != NULL);
    CloseHandle(semaphore);
    must((semaphore = CreateSemaphoreExW(NULL, 0, three, NULL, 0, SEMAPHORE_ALL_ACCESS)) != NULL);
    ANSWERS(ReleaseSemaphore(semaphore, three + 1, NULL), FALSE, ERROR_TOO_MANY_POSTS);
    ANSWERS(ReleaseSemaphore(semaphore, three, &previous), TRUE, UNTOUCHED);
    IS(previous, 0);
    CloseHandle(semaphore);
}

/* What no count may be is refused as on Windows, whatever its type. */
static void refused_creations(void)
{
    ANSWERS(CreateSemaphore(NULL, -1L, LONG_MAX, NULL), NULL, ERROR_INVALID_PARAMETER);
    ANSWERS(CreateSemaphore(NULL, LONG_MAX, 5, NULL), NULL, ERROR_INVALID_PARAMETER);
    ANSWERS(CreateSemaphore(NULL, 0, LONG_MIN, NULL), NULL, ERROR_INVALID_PARAMETER);
    ANSWERS(CreateSemaphore(NULL, 0, 0L, NULL), NULL, ERROR_INVALID_PARAMETER);
    ANSWERS(CreateSemaphore(NULL, 0, 0xFFFFFFFFu, NULL), NULL, ERROR_INVALID_PARAMETER);
    ANSWERS(CreateSemaphoreW(NULL, 0, MINLONG, NULL), NULL, ERROR_INVALID_PARAMETER);
}

static void refused_releases(void)
{
    HANDLE semaphore = CreateSemaphore(NULL, 0, LONG_MAX, NULL), event = CreateEvent(NULL, FALSE, FALSE, NULL), waits_only;
    LONG previous = -7;
    must(semaphore != NULL && event != NULL);
    must(DuplicateHandle(GetCurrentProcess(), semaphore, GetCurrentProcess(), &waits_only, SYNCHRONIZE, FALSE, 0));
    ANSWERS(ReleaseSemaphore(semaphore, GREATEST_LONG + 1, &previous), FALSE, ERROR_TOO_MANY_POSTS);
    ANSWERS(ReleaseSemaphore(semaphore, LONG_MAX, &previous), FALSE, ERROR_TOO_MANY_POSTS);
    ANSWERS(ReleaseSemaphore(event, LONG_MAX, &previous), FALSE, ERROR_INVALID_HANDLE);
    ANSWERS(ReleaseSemaphore(waits_only, LONG_MAX, &previous), FALSE, ERROR_ACCESS_DENIED);
    ANSWERS(ReleaseSemaphore(semaphore, LONG_MIN, &previous), FALSE, ERROR_INVALID_PARAMETER);
    ANSWERS(ReleaseSemaphore(semaphore, 0L, &previous), FALSE, ERROR_INVALID_PARAMETER);
    ANSWERS(ReleaseSemaphore(semaphore, 0xFFFFFFFFu, &previous), FALSE, ERROR_INVALID_PARAMETER);
    IS(previous, -7);
    ANSWERS(WaitForSingleObject(semaphore, 0), WAIT_TIMEOUT, UNTOUCHED);
    ANSWERS(ReleaseSemaphore(semaphore, GREATEST_LONG, &previous), TRUE, UNTOUCHED);
    IS(previous, 0);
    CloseHandle(waits_only);
    CloseHandle(event);
    CloseHandle(semaphore);
}

/* A count is read once. */
static void effects(void)
{
    long long next = 1;
    LONG previous = -1;
    HANDLE semaphore = CreateSemaphore(NULL, 1, ++next, NULL);
    must(semaphore != NULL);
    IS(next, 2);
    next = 1;
    ANSWERS(ReleaseSemaphore(semaphore, next++, &previous), TRUE, UNTOUCHED);
    IS(next, 2);
    IS(previous, 1);
    CloseHandle(semaphore);
}

/* The call itself is as Windows declares it, also by its address. */
static void addresses(void)
{
    HANDLE(WINAPI * create)(LPSECURITY_ATTRIBUTES, LONG, LONG, LPCSTR) = CreateSemaphoreA;
    BOOL(WINAPI * release)(HANDLE, LONG, LPLONG) = ReleaseSemaphore;
    HANDLE semaphore = create(NULL, 0, 1, NULL);
    must(semaphore != NULL);
    ANSWERS(release(semaphore, 1, NULL), TRUE, UNTOUCHED);
    CloseHandle(semaphore);
}

int main(void)
{
    maxima_of_64_bits();
    refused_creations();
    refused_releases();
    effects();
    addresses();
    return counted();
}
