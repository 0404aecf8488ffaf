/* SPDX-License-Identifier: MIT OR Apache-2.0 */
/* ---- What a handle answers. */
#include "../ntwin/internal.h"

/* Of each number the handle of the program that is marked to be inherited, under the lock: it is no other's once the number is given again. */
static uint32_t inherited[NT_MAXIMUM_HANDLES];

/* Whether the handle names something, under the lock: 0, or why not. `number` is NO_HANDLE where it is a pseudo handle. */
static uint32_t look_at_handle(HANDLE handle, uint32_t *number)
{
    struct nt_opened opened;
    *number = listed_number_of(handle);
    return handle == CURRENT_PROCESS || handle == CURRENT_THREAD ? 0 : nt_opened(&waiting.dispatcher, *number, &opened);
}

BOOL GetHandleInformation(HANDLE handle, LPDWORD flags)
{
    uint32_t number;
    struct seat *seat = ntw_begin();
    if (seat == NULL)
        return FALSE;
    const uint32_t refused = look_at_handle(handle, &number);
    const bool is_inherited = refused == 0 && number != NO_HANDLE && inherited[number] == waiting.given[number];
    if (!end_look(seat, refused))
        return FALSE;
    *flags = is_inherited ? HANDLE_FLAG_INHERIT : 0;
    return TRUE;
}

BOOL SetHandleInformation(HANDLE handle, DWORD mask, DWORD flags)
{
    const bool protects = (mask & flags & HANDLE_FLAG_PROTECT_FROM_CLOSE) != 0;
    uint32_t number;
    if ((mask & ~(HANDLE_FLAG_INHERIT | HANDLE_FLAG_PROTECT_FROM_CLOSE)) != 0)
        return ntw_fail(ERROR_INVALID_PARAMETER);
    struct seat *seat = ntw_begin();
    if (seat == NULL)
        return FALSE;
    uint32_t refused = look_at_handle(handle, &number);
    if (refused == 0 && protects)
        refused = ERROR_NOT_SUPPORTED;
    if (refused == 0 && number != NO_HANDLE && (mask & HANDLE_FLAG_INHERIT) != 0)
        inherited[number] = (flags & HANDLE_FLAG_INHERIT) != 0 ? waiting.given[number] : 0;
    return end_look(seat, refused);
}
