/* What the tests share: rows that say what a call answers, counted, with the last line in the gate's form. What fails is written with its file
 * and line, as a compiler tells it. */
#ifndef CHECK_H
#define CHECK_H

#include <stdio.h>
#include <stdlib.h>

static int PASSED, FAILED;

static inline void check(const char *what, unsigned long long found, unsigned long long wanted, const char *file, int line)
{
    if (found == wanted) {
        PASSED++;
        return;
    }
    FAILED++;
    printf("%s:%d: %s: wanted %llu (0x%llx), found %llu (0x%llx)\n", file, line, what, wanted, wanted, found, found);
}

/* A call that answers this, and leaves this last error: UNTOUCHED where it leaves that as it was. For tests that include <windows.h>. */
enum { UNTOUCHED = 12345 };
#define ANSWERS(call, value, error) \
    do { \
        SetLastError(UNTOUCHED); \
        IS((uintptr_t)(call), (uintptr_t)(value)); \
        IS(GetLastError(), error); \
    } while (0)

/* The value of an expression. */
#define IS(expression, wanted) check(#expression, (unsigned long long)(expression), (unsigned long long)(wanted), __FILE__, __LINE__)

__attribute__((noreturn)) static inline void break_off(const char *what, const char *file, int line)
{
    fprintf(stderr, "%s:%d: does not hold: %s\n", file, line, what);
    abort();
}

/* What has to hold, or else the program ends. */
#define must(holds) ((holds) ? (void)0 : break_off(#holds, __FILE__, __LINE__))

static inline int counted(void)
{
    printf("%d passed, %d failed\n", PASSED, FAILED);
    return FAILED != 0;
}

#endif
