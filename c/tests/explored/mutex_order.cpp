// Each transfer locks the account from which the money comes first.
#include <condition_variable>
#include <cstdio>
#include <cstdlib>
#include <mutex>
#include <thread>
#include <vector>

struct account {
    std::mutex lock;
    int money = 10;
};

static account accounts[3];

static void transfer(int from, int to)
{
#ifdef FIX
    std::scoped_lock both(accounts[from].lock, accounts[to].lock);
#else
    std::lock_guard<std::mutex> first(accounts[from].lock);
    std::lock_guard<std::mutex> second(accounts[to].lock);
#endif
    accounts[from].money--;
    accounts[to].money++;
}

int main()
{
    std::vector<std::thread> threads;
    for (int i = 0; i < 3; i++)
        threads.emplace_back([i] { transfer(i, (i + 1) % 3); });
    for (std::thread &thread : threads)
        thread.join();
    for (const account &it : accounts)
        if (it.money != 10)
            std::exit(1);
    return 0;
}
