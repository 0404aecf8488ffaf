/* A sleep without end is reported only if asked: who calls it knows that. */
#include "hang.h"

int main(void)
{
    ntwin_name(GetCurrentThread(), "main");
    Sleep(INFINITE);
    return 0;
}
