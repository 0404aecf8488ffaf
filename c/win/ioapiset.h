/* SPDX-License-Identifier: MIT OR Apache-2.0 */
/* Completion ports for packets that a program posts itself, and operations that it completes itself: no files here. */
#ifndef NTWIN_IOAPISET_H
#define NTWIN_IOAPISET_H

#include "winnt.h"

#ifdef __cplusplus
extern "C" {
#endif

typedef struct _OVERLAPPED {
    ULONG_PTR Internal;
    ULONG_PTR InternalHigh;
    __extension__ union {
        __extension__ struct {
            DWORD Offset;
            DWORD OffsetHigh;
        };
        PVOID Pointer;
    };
    HANDLE hEvent;
} OVERLAPPED, *LPOVERLAPPED;

typedef struct _OVERLAPPED_ENTRY {
    ULONG_PTR lpCompletionKey;
    LPOVERLAPPED lpOverlapped;
    ULONG_PTR Internal;
    DWORD dwNumberOfBytesTransferred;
} OVERLAPPED_ENTRY, *LPOVERLAPPED_ENTRY;

/* A new port: `file` is INVALID_HANDLE_VALUE, and `port` null. No thread gets a packet while `threads` run that have one, 0 for as many as there are
 * processors. A thread has its packet until it asks for the next, and does not run while it waits in a call of these headers. */
HANDLE CreateIoCompletionPort(HANDLE file, HANDLE port, ULONG_PTR key, DWORD threads);
BOOL PostQueuedCompletionStatus(HANDLE port, DWORD bytes, ULONG_PTR key, LPOVERLAPPED overlapped);
/* The packet that was posted first goes to the thread that came last. FALSE and WAIT_TIMEOUT after `ms`; FALSE and ERROR_ABANDONED_WAIT_0 once
 * the port is closed. `overlapped` is null then. */
BOOL GetQueuedCompletionStatus(HANDLE port, LPDWORD bytes, PULONG_PTR key, LPOVERLAPPED *overlapped, DWORD ms);
/* The same for up to `count` packets, of which it waits for one. An alertable wait ends with WAIT_IO_COMPLETION where an APC is queued. */
BOOL GetQueuedCompletionStatusEx(HANDLE port, LPOVERLAPPED_ENTRY entries, ULONG count, PULONG removed, DWORD ms, BOOL alertable);

/* Whether the program has put another state than STATUS_PENDING there. */
#define HasOverlappedIoCompleted(overlapped) ((DWORD)(overlapped)->Internal != STATUS_PENDING)
/* What it has put there: FALSE and ERROR_IO_INCOMPLETE while that is STATUS_PENDING, or a wait for the operation's event. The file is not looked at,
 * but waited for where there is no event. */
BOOL GetOverlappedResult(HANDLE file, LPOVERLAPPED overlapped, LPDWORD bytes, BOOL waits);
/* No handle is a file's: ERROR_INVALID_HANDLE. */
BOOL CancelIo(HANDLE file);
BOOL CancelIoEx(HANDLE file, LPOVERLAPPED overlapped);

#ifdef __cplusplus
}
#endif

#endif
