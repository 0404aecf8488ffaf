/* SPDX-License-Identifier: MIT OR Apache-2.0 */
/* ---- Calls on files and their operations. There are no files: a program completes its operations itself. */
#include "../ntwin/internal.h"
#include "../win/winternl.h"

BOOL SetFileCompletionNotificationModes(HANDLE file, UCHAR flags)
{
    (void)file;
    if ((flags & ~(FILE_SKIP_COMPLETION_PORT_ON_SUCCESS | FILE_SKIP_SET_EVENT_ON_HANDLE)) != 0)
        return ntw_fail(ERROR_INVALID_PARAMETER);
    return ntw_fail(ERROR_INVALID_HANDLE);
}

BOOL BindIoCompletionCallback(HANDLE file, LPOVERLAPPED_COMPLETION_ROUTINE routine, ULONG flags)
{
    (void)file;
    return ntw_fail(routine == NULL || flags != 0 ? ERROR_INVALID_PARAMETER : ERROR_INVALID_HANDLE);
}

BOOL CancelIo(HANDLE file)
{
    (void)file;
    return ntw_fail(ERROR_INVALID_HANDLE);
}

BOOL CancelIoEx(HANDLE file, LPOVERLAPPED overlapped)
{
    (void)overlapped;
    return CancelIo(file);
}

/* The state that the program has put there. */
static NTSTATUS state_of_operation(LPOVERLAPPED overlapped)
{
    return (NTSTATUS)(DWORD)__atomic_load_n(&overlapped->Internal, __ATOMIC_ACQUIRE);
}

BOOL GetOverlappedResult(HANDLE file, LPOVERLAPPED overlapped, LPDWORD bytes, BOOL waits)
{
    /* (The lowest bit of an event keeps a packet from a port.) */
    HANDLE event = (HANDLE)((ULONG_PTR)overlapped->hEvent & ~(ULONG_PTR)1);
    if (state_of_operation(overlapped) == STATUS_PENDING) {
        if (!waits)
            return ntw_fail(ERROR_IO_INCOMPLETE);
        if (WaitForSingleObject(event != NULL ? event : file, INFINITE) == WAIT_FAILED)
            return FALSE;
    }
    const NTSTATUS status = state_of_operation(overlapped);
    if (status == STATUS_PENDING)
        return ntw_fail(ERROR_IO_INCOMPLETE);
    *bytes = (DWORD)overlapped->InternalHigh;
    return NT_SUCCESS(status) || ntw_fail(RtlNtStatusToDosError(status));
}
