/* Imports a call that the emulator does not know. */
#include "say.h"

void start(void)
{
    say("before ", 1);
    Beep(440, 100);
    say("after ", 2);
    ExitProcess(0);
}
