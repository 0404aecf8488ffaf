// Two threads count without a lock.
#include <atomic>
#include <cstdlib>
#include <thread>

#ifdef FIX
static std::atomic<int> count;
#else
static int count;
#endif

int main()
{
    std::thread first([] { count++; }), second([] { count++; });
    first.join();
    second.join();
    if (count != 2)
        std::exit(1);
    return 0;
}
