/* What WinPR's tests ask of its logs: there are none. */
#include <stddef.h>

void *WLog_GetRoot(void)
{
    return NULL;
}
