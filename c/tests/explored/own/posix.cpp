// Each call of POSIX that the scheduler stands in for answers as it does without one, and an hour of sleep takes no time.
#undef NDEBUG
#include <windows.h>
#include <atomic>
#include <cassert>
#include <cerrno>
#include <chrono>
#include <condition_variable>
#include <ctime>
#include <fcntl.h>
#include <future>
#include <limits>
#include <linux/futex.h>
#include <mutex>
#include <poll.h>
#include <pthread.h>
#include <semaphore.h>
#include <shared_mutex>
#include <stdexcept>
#include <sys/select.h>
#include <sys/syscall.h>
#include <sys/time.h>
#include <thread>
#include <unistd.h>

static timespec in_ms(clockid_t clock, long ms)
{
    timespec time;
    clock_gettime(clock, &time);
    time.tv_sec += ms / 1000;
    time.tv_nsec += ms % 1000 * 1000000;
    time.tv_sec += time.tv_nsec / 1000000000;
    time.tv_nsec %= 1000000000;
    return time;
}

static void *sleeps_an_hour(void *at)
{
    sleep(3600);
    return at;
}

static void joins()
{
    pthread_t thread;
    void *value = nullptr;
    int place = 0;
    const timespec before = in_ms(CLOCK_MONOTONIC, 0);
    assert(pthread_create(&thread, nullptr, sleeps_an_hour, &place) == 0);
    assert(pthread_tryjoin_np(thread, &value) == EBUSY);
    const timespec soon = in_ms(CLOCK_REALTIME, 1000);
    assert(pthread_timedjoin_np(thread, &value, &soon) == ETIMEDOUT);
    assert(pthread_join(thread, &value) == 0 && value == &place);
    assert(in_ms(CLOCK_MONOTONIC, 0).tv_sec - before.tv_sec >= 3600);
    assert(pthread_join(pthread_self(), nullptr) == EDEADLK);
}

static void mutexes()
{
    pthread_mutexattr_t kind;
    pthread_mutex_t it;
    pthread_mutexattr_init(&kind);
    pthread_mutexattr_settype(&kind, PTHREAD_MUTEX_ERRORCHECK);
    pthread_mutex_init(&it, &kind);
    assert(pthread_mutex_unlock(&it) == EPERM && pthread_mutex_lock(&it) == 0 && pthread_mutex_lock(&it) == EDEADLK);
    std::thread other([&it] {
        const timespec soon = in_ms(CLOCK_REALTIME, 50);
        assert(pthread_mutex_trylock(&it) == EBUSY && pthread_mutex_timedlock(&it, &soon) == ETIMEDOUT && pthread_mutex_unlock(&it) == EPERM);
        assert(in_ms(CLOCK_REALTIME, 0).tv_sec >= soon.tv_sec);
    });
    other.join();
    assert(pthread_mutex_unlock(&it) == 0 && pthread_mutex_destroy(&it) == 0);
    std::recursive_mutex deep;
    std::lock_guard<std::recursive_mutex> once(deep), twice(deep);
}

static void readers_and_writers()
{
    pthread_rwlock_t lock = PTHREAD_RWLOCK_INITIALIZER;
    assert(pthread_rwlock_rdlock(&lock) == 0 && pthread_rwlock_tryrdlock(&lock) == 0 && pthread_rwlock_trywrlock(&lock) == EBUSY);
    assert(pthread_rwlock_unlock(&lock) == 0 && pthread_rwlock_unlock(&lock) == 0);
    assert(pthread_rwlock_wrlock(&lock) == 0 && pthread_rwlock_rdlock(&lock) == EDEADLK && pthread_rwlock_unlock(&lock) == 0);
    std::shared_timed_mutex shared;
    int value = 0;
    std::thread writer([&] {
        std::unique_lock<std::shared_timed_mutex> own(shared);
        value = 1;
    });
    {
        std::shared_lock<std::shared_timed_mutex> own(shared, std::chrono::seconds(1));
        assert(own.owns_lock() && (value == 0 || value == 1));
    }
    writer.join();
    pthread_spinlock_t spin;
    pthread_spin_init(&spin, 0);
    assert(pthread_spin_lock(&spin) == 0 && pthread_spin_trylock(&spin) == EBUSY && pthread_spin_unlock(&spin) == 0);
}

static void semaphores()
{
    sem_t it;
    int count;
    const timespec soon = in_ms(CLOCK_REALTIME, 30);
    sem_init(&it, 0, 1);
    assert(sem_wait(&it) == 0 && sem_trywait(&it) == -1 && errno == EAGAIN && sem_timedwait(&it, &soon) == -1 && errno == ETIMEDOUT);
    std::thread poster([&it] { assert(sem_post(&it) == 0); });
    assert(sem_wait(&it) == 0);
    poster.join();
    assert(sem_getvalue(&it, &count) == 0 && count == 0 && sem_destroy(&it) == 0);
}

static void conditions()
{
    std::mutex mutex;
    std::condition_variable condition;
    int turn = 0;
    std::thread other([&] {
        for (int i = 0; i < 3; i++) {
            std::unique_lock<std::mutex> lock(mutex);
            condition.wait(lock, [&] { return turn % 2 == 1; });
            turn++;
            condition.notify_all();
        }
    });
    for (int i = 0; i < 3; i++) {
        std::unique_lock<std::mutex> lock(mutex);
        turn++;
        condition.notify_all();
        condition.wait(lock, [&] { return turn % 2 == 0; });
    }
    other.join();
    std::unique_lock<std::mutex> lock(mutex);
    assert(condition.wait_for(lock, std::chrono::milliseconds(5)) == std::cv_status::timeout);
    assert(condition.wait_until(lock, std::chrono::system_clock::now() + std::chrono::milliseconds(5)) == std::cv_status::timeout);
}

static std::once_flag flag;
static std::atomic<int> tries, done;

static void initialize()
{
    std::this_thread::yield();
    if (++tries == 1)
        throw std::runtime_error("not yet");
    ++done;
}

static void initializes()
{
    try {
        std::call_once(flag, initialize);
    } catch (const std::runtime_error &) {
        std::call_once(flag, initialize);
    }
    assert(done == 1);
}

static void once()
{
    std::thread others[3];
    for (std::thread &it : others)
        it = std::thread(initializes);
    for (std::thread &it : others)
        it.join();
    assert(tries == 2 && done == 1);
}

static void barriers()
{
    pthread_barrier_t it;
    std::atomic<int> serials{ 0 }, before{ 0 };
    pthread_barrier_init(&it, nullptr, 3);
    std::thread others[3];
    for (std::thread &other : others)
        other = std::thread([&] {
            for (int round = 1; round <= 2; round++) {
                ++before;
                serials += pthread_barrier_wait(&it) == PTHREAD_BARRIER_SERIAL_THREAD;
                assert(before >= 3 * round);
            }
        });
    for (std::thread &other : others)
        other.join();
    assert(serials == 2 && pthread_barrier_destroy(&it) == 0);
}

static void descriptors()
{
    int ends[2];
    char byte = 0;
    assert(pipe(ends) == 0);
    pollfd one = { ends[0], POLLIN, 0 };
    timeval time = { 7, 0 };
    fd_set set;
    FD_ZERO(&set);
    FD_SET(ends[0], &set);
    assert(poll(&one, 1, 0) == 0 && poll(&one, 1, 1000) == 0 && select(ends[0] + 1, &set, nullptr, nullptr, &time) == 0);
    std::thread writer([&] { assert(write(ends[1], "x", 1) == 1); });
    assert(poll(&one, 1, -1) == 1 && (one.revents & POLLIN) != 0 && read(ends[0], &byte, 1) == 1 && byte == 'x');
    writer.join();
    std::thread second([&] { assert(write(ends[1], "y", 1) == 1); });
    assert(read(ends[0], &byte, 1) == 1 && byte == 'y');
    second.join();
    time = { std::numeric_limits<time_t>::max(), 0 };
    FD_SET(ends[0], &set);
    std::thread third([&] { assert(usleep(1000) == 0 && write(ends[1], "z", 1) == 1); });
    assert(select(ends[0] + 1, &set, nullptr, nullptr, &time) == 1);
    third.join();
    close(ends[0]);
    close(ends[1]);
}

// Of two that wait for one descriptor the other waits on, where one has taken what came.
static void two_readers()
{
    int ends[2];
    std::atomic<int> sum{ 0 };
    assert(pipe(ends) == 0);
    auto reads = [&] {
        char byte = 0;
        assert(read(ends[0], &byte, 1) == 1);
        sum += byte;
    };
    std::thread one(reads), other(reads);
    assert(usleep(1000) == 0 && write(ends[1], "x", 1) == 1 && usleep(1000) == 0 && write(ends[1], "y", 1) == 1);
    one.join();
    other.join();
    assert(sum == 'x' + 'y');
    close(ends[0]);
    close(ends[1]);
}

// The fourth number of a call is no time but in a wait on a word.
static void system_calls()
{
    const long file = syscall(SYS_openat, AT_FDCWD, "/dev/null", O_RDONLY, 0644L);
    assert(file >= 0 && syscall(SYS_close, file, 0L, 0L, 1L) == 0);
}

static long futex(int *word, int operation, long count, int *other, unsigned bits)
{
    return syscall(SYS_futex, word, operation | FUTEX_PRIVATE_FLAG, count, operation == FUTEX_CMP_REQUEUE ? 1L : 0L, other, bits);
}

// Those who sleep on a word are woken by the bits that they wait with, and by who moves them to another word.
static void words()
{
    static int word, other;
    std::atomic<int> gone{ 0 };
    const unsigned bits[2] = { 1, 2 };
    auto sleeps = [&](unsigned mine) {
        assert(futex(&word, FUTEX_WAIT_BITSET, 0, nullptr, mine) == 0);
        gone += (int)mine;
    };
    std::thread one(sleeps, bits[0]), two(sleeps, bits[1]);
    usleep(1000);
    assert(futex(&word, FUTEX_WAKE_BITSET, 1, nullptr, 4) == 0 && futex(&word, FUTEX_WAKE_BITSET, 1, nullptr, 2) == 1);
    two.join();
    assert(gone == 2 && futex(&word, FUTEX_WAKE, 1, nullptr, 0) == 1);
    one.join();
    assert(futex(&word, FUTEX_WAKE_BITSET, 1, nullptr, 0) == -1 && errno == EINVAL);
    std::thread moved(sleeps, bits[0]);
    usleep(1000);
    assert(futex(&word, FUTEX_CMP_REQUEUE, 0, &other, 1) == -1 && errno == EAGAIN);
    assert(futex(&word, FUTEX_CMP_REQUEUE, 0, &other, 0) >= 0);
    futex(&other, FUTEX_WAKE, 1, nullptr, 0);
    moved.join();
    assert(gone == 4);
}

static void clocks()
{
    timeval day;
    timespec first, later;
    assert(gettimeofday(&day, nullptr) == 0 && clock_gettime(CLOCK_REALTIME, &first) == 0 && time(nullptr) >= day.tv_sec);
    assert(first.tv_sec >= day.tv_sec);
    const timespec hour = { 3600, 0 };
    assert(nanosleep(&hour, nullptr) == 0 && usleep(1000) == 0 && clock_gettime(CLOCK_REALTIME, &later) == 0);
    assert(later.tv_sec - first.tv_sec >= 3600 && later.tv_sec - first.tv_sec < 3700);
    const timespec until = in_ms(CLOCK_MONOTONIC, 60000);
    assert(clock_nanosleep(CLOCK_MONOTONIC, TIMER_ABSTIME, &until, nullptr) == 0);
    const timespec now = in_ms(CLOCK_MONOTONIC, 0);
    assert(now.tv_sec > until.tv_sec || (now.tv_sec == until.tv_sec && now.tv_nsec >= until.tv_nsec));
    // (Both kinds of names tell the same time.)
    const ULONGLONG ticks = GetTickCount64();
    std::this_thread::sleep_for(std::chrono::seconds(10));
    assert(GetTickCount64() - ticks >= 10000);
}

static int answer_of()
{
    HANDLE event = CreateEventA(nullptr, TRUE, FALSE, nullptr);
    std::thread setter([event] { SetEvent(event); });
    assert(WaitForSingleObject(event, INFINITE) == WAIT_OBJECT_0);
    setter.join();
    CloseHandle(event);
    static thread_local struct counted {
        int value = 42;
        ~counted() { value = 0; }
    } mine;
    return mine.value;
}

int main()
{
    void (*const all[])() = { joins, mutexes, readers_and_writers, semaphores, conditions, once, barriers, descriptors, two_readers,
                                 system_calls, words, clocks };
    for (void (*one)() : all)
        one();
    assert(std::async(std::launch::async, answer_of).get() == 42);
    return 0;
}
