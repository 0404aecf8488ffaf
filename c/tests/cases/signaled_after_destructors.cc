/* Within 10 s: 2 passed, 0 failed.
 *
 * The handle of a thread is signaled once its thread_local destructors have run: what they wrote is there after the wait. */
#include "case.h"

static int flushed, ends;

struct log {
    int lines = 0;
    ~log()
    {
        rest_ms(lines);
        flushed += lines;
        ends++;
    }
};

static thread_local log lines_of_thread;

static DWORD run(LPVOID lines)
{
    lines_of_thread.lines = (int)(intptr_t)lines;
    return 0;
}

int main()
{
    for (int i = 0; i < 50; i++) {
        HANDLE thread = CreateThread(nullptr, 0, run, (LPVOID)(intptr_t)(i % 4), 0, nullptr);
        must(WaitForSingleObject(thread, INFINITE) == WAIT_OBJECT_0);
        must(ends == i + 1);
    }
    IS(ends, 50);
    IS(flushed, 12 * (1 + 2 + 3) + 1);
    return counted();
}
