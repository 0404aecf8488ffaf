/* Within 8 s: 1 passed, 0 failed.
 *
 * ExitProcess waits for no thread, not even for one that has returned and whose destructor never does. */
#include "case.h"

static LONG is_ending;

struct at_end {
    bool is_used = false;
    ~at_end()
    {
        if (!is_used)
            return;
        raise_flag(&is_ending);
        for (;;)
            pause();
    }
};

static thread_local at_end mark;

static DWORD run(LPVOID)
{
    mark.is_used = true;
    return 0;
}

int main()
{
    IS(CreateThread(nullptr, 0, run, nullptr, 0, nullptr) != nullptr, 1);
    await(&is_ending);
    ExitProcess((UINT)counted());
}
