/* What programs that are written for Windows do, for bench/users.

   usage: users SHAPE ROUNDS: prints a line for each thing that was timed: its name, how many calls that were, picoseconds a call, and picoseconds for
   which processors worked (or, of `bytes`, how many objects were made, and how many bytes of the process's memory one takes); nothing where the
   library has no such calls */
#include "users.h"

uint64_t ROUNDS;

#if defined OVER_POSIX || defined OVER_FIFO
extern const struct shape POSIX_SHAPES[];
static const struct shape *const PARTS[] = { POSIX_SHAPES };
#else
extern const struct shape OBJECT_SHAPES[], LOCK_SHAPES[], THREAD_SHAPES[];
static const struct shape *const PARTS[] = { OBJECT_SHAPES, LOCK_SHAPES, THREAD_SHAPES };
#endif

void must(bool holds)
{
    if (!holds) {
        fputs("a call did not answer what it has to\n", stderr);
        exit(1);
    }
}

static uint64_t in_nanoseconds(clockid_t clock)
{
    struct timespec time;
    clock_gettime(clock, &time);
    return (uint64_t)time.tv_sec * 1000000000u + (uint64_t)time.tv_nsec;
}

struct moment now(void)
{
    return (struct moment){ in_nanoseconds(CLOCK_MONOTONIC), in_nanoseconds(CLOCK_PROCESS_CPUTIME_ID) };
}

void tell(const char *what, uint64_t calls, struct moment took)
{
    printf("%s: %llu calls, %llu ps a call, %llu ps of processors\n", what, (unsigned long long)calls,
           (unsigned long long)(took.time * 1000 / calls), (unsigned long long)(took.used * 1000 / calls));
}

void tell_since(const char *what, uint64_t calls, struct moment began)
{
    const struct moment ended = now();
    tell(what, calls, (struct moment){ ended.time - began.time, ended.used - began.used });
}

int main(int count, char **words)
{
    must(count == 3);
    ROUNDS = strtoull(words[2], NULL, 10);
    for (size_t part = 0; part < sizeof PARTS / sizeof *PARTS; part++)
        for (const struct shape *at = PARTS[part]; at->name != NULL; at++)
            if (strcmp(words[1], at->name) == 0)
                at->run(at->name);
    return 0;
}
