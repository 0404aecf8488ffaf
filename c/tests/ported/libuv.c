/* What of libuv's tests of threads stands in files that ask for more. */
#include <windows.h>

void uv_sleep(unsigned ms)
{
    Sleep(ms);
}

uint64_t uv_hrtime(void)
{
    LARGE_INTEGER now, second;
    QueryPerformanceCounter(&now);
    QueryPerformanceFrequency(&second);
    return (uint64_t)now.QuadPart * (1000000000 / (uint64_t)second.QuadPart);
}
