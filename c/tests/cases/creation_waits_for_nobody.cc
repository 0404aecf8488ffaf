/* Within 10 s: 8 passed, 0 failed.
 *
 * A thread calls CreateThread while it holds a lock that a destructor of another thread wants, whose function has returned: one of a
 * thread_local object, or, in the last round of all, one of a key, when the thread's handle is signaled. CreateThread waits for no thread,
 * and so comes back. (The last round is ThreadSanitizer's own, where there is one: then the first of the two is tried twice.) */
#include "case.h"

/* (Nobody waits for the last thread, which may run as the process ends.) */
extern "C" const char *__tsan_default_options()
{
    return "report_thread_leaks=0";
}

static pthread_mutex_t of_program = PTHREAD_MUTEX_INITIALIZER;
static pthread_key_t key;
static LONG is_ending;

static void want_lock()
{
    raise_flag(&is_ending);
    pthread_mutex_lock(&of_program);
    pthread_mutex_unlock(&of_program);
}

struct at_end {
    bool is_used = false;
    ~at_end()
    {
        if (is_used)
            want_lock();
    }
};

static thread_local at_end mark;

static void in_last_round(void *round)
{
    if ((intptr_t)round < PTHREAD_DESTRUCTOR_ITERATIONS)
        pthread_setspecific(key, (char *)round + 1);
    else
        want_lock();
}

static DWORD ends(LPVOID)
{
    mark.is_used = true;
    return 0;
}

static DWORD ends_late(LPVOID)
{
    pthread_setspecific(key, (char *)1);
    return 0;
}

static DWORD does_nothing(LPVOID)
{
    return 0;
}

/* The caller holds the lock that this thread wants as it ends. */
static void create_beside(LPTHREAD_START_ROUTINE start, DWORD status)
{
    is_ending = 0;
    pthread_mutex_lock(&of_program);
    HANDLE first = CreateThread(nullptr, 0, start, nullptr, 0, nullptr);
    await(&is_ending);
    HANDLE second = CreateThread(nullptr, 0, does_nothing, nullptr, 0, nullptr);
    IS(WaitForSingleObject(second, INFINITE), WAIT_OBJECT_0);
    IS(WaitForSingleObject(first, 0), status);
    IS(CreateThread(nullptr, 0, does_nothing, nullptr, 0, nullptr) != nullptr, 1);
    pthread_mutex_unlock(&of_program);
    IS(WaitForSingleObject(first, INFINITE), WAIT_OBJECT_0);
}

int main()
{
    must(pthread_key_create(&key, in_last_round) == 0);
    create_beside(ends, WAIT_TIMEOUT);
    if (HAS_THREAD_SANITIZER)
        create_beside(ends, WAIT_TIMEOUT);
    else
        create_beside(ends_late, WAIT_OBJECT_0);
    return counted();
}
