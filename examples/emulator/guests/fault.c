/* Reads where there is no memory. */
#include "say.h"

void start(void)
{
    say("read ", *(volatile unsigned *)(size_t)8);
    ExitProcess(0);
}
