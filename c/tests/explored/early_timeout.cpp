// A wait with a timeout that ends by it is taken for one that ended well.
#include <chrono>
#include <condition_variable>
#include <cstdlib>
#include <mutex>
#include <thread>

static std::mutex mutex;
static std::condition_variable is_done;
static bool done;
static int result;

static void work()
{
    std::this_thread::sleep_for(std::chrono::milliseconds(5));
    std::lock_guard<std::mutex> lock(mutex);
    result = 42;
    done = true;
    is_done.notify_one();
}

int main()
{
    std::thread thread(work);
    {
        std::unique_lock<std::mutex> lock(mutex);
#ifdef FIX
        while (!done)
            is_done.wait_for(lock, std::chrono::milliseconds(20));
#else
        is_done.wait_for(lock, std::chrono::milliseconds(20), [] { return done; });
#endif
        if (result != 42)
            std::exit(1);
    }
    thread.join();
    return 0;
}
