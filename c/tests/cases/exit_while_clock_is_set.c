/* Within 8 s, unsanitized: 1 passed, 0 failed.
 *
 * The process ends within its two seconds, also where the clock of the day is set back meanwhile: here, by an hour before it is asked for. */
#include "case.h"

static LONG is_ending;
static pthread_key_t key;
static char rounds[PTHREAD_DESTRUCTOR_ITERATIONS];

time_t time(time_t *at)
{
    struct timespec now;
    clock_gettime(CLOCK_REALTIME, &now);
    now.tv_sec += 3600;
    if (at != NULL)
        *at = now.tv_sec;
    return now.tv_sec;
}

/* In its last round the destructor of the thread, which has left the library by then, never returns. */
static void never_ends(void *round)
{
    char *next = (char *)round + 1;
    if (next < rounds + PTHREAD_DESTRUCTOR_ITERATIONS) {
        must(pthread_setspecific(key, next) == 0);
        return;
    }
    raise_flag(&is_ending);
    for (;;)
        pause();
}

static DWORD WINAPI run(LPVOID none)
{
    (void)none;
    must(pthread_setspecific(key, rounds) == 0);
    return 0;
}

int main(void)
{
    must(pthread_key_create(&key, never_ends) == 0);
    HANDLE thread = CreateThread(NULL, 0, run, NULL, 0, NULL);
    await(&is_ending);
    IS(WaitForSingleObject(thread, INFINITE), WAIT_OBJECT_0);
    return counted();
}
