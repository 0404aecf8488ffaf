/* What comes where the system refuses memory: this program's own functions stand before the system's, also for a library that it is linked with. */
#include "case.h"

#include <dlfcn.h>
#include <stdbool.h>

static volatile bool refuses_memory;

extern void *__libc_malloc(size_t size);
extern void *__libc_calloc(size_t count, size_t size);
extern void *__libc_realloc(void *at, size_t size);
extern void *__libc_memalign(size_t alignment, size_t size);

/* A sanitizer's, where there is one. */
extern void *__interceptor_malloc(size_t size) __attribute__((weak));
extern void *__interceptor_calloc(size_t count, size_t size) __attribute__((weak));
extern void *__interceptor_realloc(void *at, size_t size) __attribute__((weak));
extern void *__interceptor_aligned_alloc(size_t alignment, size_t size) __attribute__((weak));

UNSANITIZED static void *refuse(void)
{
    errno = ENOMEM;
    return NULL;
}

UNSANITIZED void *malloc(size_t size)
{
    if (refuses_memory)
        return refuse();
    return __interceptor_malloc != NULL ? __interceptor_malloc(size) : __libc_malloc(size);
}

UNSANITIZED void *calloc(size_t count, size_t size)
{
    if (refuses_memory)
        return refuse();
    return __interceptor_calloc != NULL ? __interceptor_calloc(count, size) : __libc_calloc(count, size);
}

UNSANITIZED void *realloc(void *at, size_t size)
{
    if (refuses_memory)
        return refuse();
    return __interceptor_realloc != NULL ? __interceptor_realloc(at, size) : __libc_realloc(at, size);
}

UNSANITIZED void *aligned_alloc(size_t alignment, size_t size)
{
    if (refuses_memory)
        return refuse();
    return __interceptor_aligned_alloc != NULL ? __interceptor_aligned_alloc(alignment, size) : __libc_memalign(alignment, size);
}

/* first_call_refused. Within 10 s: 6 passed, 0 failed.
 *
 * The first call of the process is refused memory, and so fails. A later one finds memory, and succeeds. */
int case_first_call_refused(void)
{
    for (int i = 0; i < 2; i++) {
        refuses_memory = true;
        HANDLE none = CreateEvent(NULL, FALSE, TRUE, NULL);
        refuses_memory = false;
        IS(none == NULL, 1);
        IS(GetLastError(), ERROR_NOT_ENOUGH_MEMORY);
    }
    HANDLE event = CreateEvent(NULL, FALSE, TRUE, NULL);
    IS(event != NULL, 1);
    IS(WaitForSingleObject(event, INFINITE), WAIT_OBJECT_0);
    return counted();
}

/* sleep_can_not_fail. Within 120 s: 5 passed, 0 failed.
 *
 * Sleep sleeps where memory is refused, and where more threads call than there are places, and leaves the last error. */

/* (By ThreadSanitizer, to which each of many threads costs the more, all have a place.) */
enum { PLACES = 4095, WITHOUT = HAS_THREAD_SANITIZER ? 0 : 5, THREADS = HAS_THREAD_SANITIZER ? 100 : PLACES + WITHOUT, SLEEP_MS = 30 };

static HANDLE event;
static pthread_barrier_t all_have_called;
static LONG refused, short_sleeps, changed_errors;

static void *sleeps(void *unused)
{
    (void)unused;
    if (!SetEvent(event)) {
        InterlockedIncrement(&refused);
        SetLastError(12345);
        Sleep(1);
        InterlockedExchangeAdd(&changed_errors, GetLastError() != 12345);
    }
    pthread_barrier_wait(&all_have_called);
    const double began = now_ms();
    Sleep(SLEEP_MS);
    if (now_ms() - began < SLEEP_MS)
        InterlockedIncrement(&short_sleeps);
    return NULL;
}

int case_sleep_can_not_fail(void)
{
    static pthread_t threads[THREADS];
    pthread_attr_t small;
    event = CreateEvent(NULL, FALSE, FALSE, NULL);
    SetLastError(12345);
    refuses_memory = true;
    const double began = now_ms();
    Sleep(SLEEP_MS);
    const double took = now_ms() - began;
    refuses_memory = false;
    IS(took >= SLEEP_MS, 1);
    IS(GetLastError(), 12345);
    pthread_barrier_init(&all_have_called, NULL, THREADS);
    must(pthread_attr_init(&small) == 0 && pthread_attr_setstacksize(&small, 1 << 16) == 0);
    for (int i = 0; i < THREADS; i++)
        must(pthread_create(&threads[i], &small, sleeps, NULL) == 0);
    for (int i = 0; i < THREADS; i++)
        pthread_join(threads[i], NULL);
    IS(refused, WITHOUT);
    IS(short_sleeps, 0);
    IS(changed_errors, 0);
    return counted();
}
