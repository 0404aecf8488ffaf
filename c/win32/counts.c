/* SPDX-License-Identifier: MIT OR Apache-2.0 */
/* ---- Counts of 64 bits, which programs for Windows pass where a `long` has 32. */
#include "../ntwin/internal.h"

BOOL ntwin_release_semaphore(HANDLE semaphore, LONGLONG count, LPLONG previous)
{
    if (count <= INT32_MAX)
        return ReleaseSemaphore(semaphore, count < 0 ? -1 : (LONG)count, previous);
    /* (By none it is refused in any case: for the handle first, as any other count.) */
    ReleaseSemaphore(semaphore, 0, NULL);
    return own.last_error == ERROR_INVALID_PARAMETER ? ntw_fail(ERROR_TOO_MANY_POSTS) : FALSE;
}
