/* The same by c/nt.hpp. */
#include "nt.hpp"

#include <cstdlib>

int main(int count, char **words)
{
    const long rounds = count > 1 ? std::atol(words[1]) : 1;
    nt::dispatcher nt(2);
    const nt::thread first{ 0 }, second{ 1 };
    const nt::event event = nt.create_event(first).value();
    for (long i = 0; i < rounds; i++)
        if (!nt.set_event(first, event) || !nt.wait(second, event, 0).value())
            return 1;
    return 0;
}
