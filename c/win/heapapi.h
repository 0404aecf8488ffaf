/* SPDX-License-Identifier: MIT OR Apache-2.0 */
/* The heap of the process, which is the C library's. */
#ifndef NTWIN_HEAPAPI_H
#define NTWIN_HEAPAPI_H

#include "winerror.h"
#include "winnt.h"

#ifdef __cplusplus
extern "C" {
#endif

#define HEAP_NO_SERIALIZE 0x1u
#define HEAP_GENERATE_EXCEPTIONS 0x4u
#define HEAP_ZERO_MEMORY 0x8u
#define HEAP_REALLOC_IN_PLACE_ONLY 0x10u

HANDLE GetProcessHeap(void);
/* Null where memory is refused, or the heap is another: no exception is raised. */
LPVOID HeapAlloc(HANDLE heap, DWORD flags, SIZE_T size);
/* What is added is null with HEAP_ZERO_MEMORY. In place only what becomes no larger stays. */
LPVOID HeapReAlloc(HANDLE heap, DWORD flags, LPVOID memory, SIZE_T size);
BOOL HeapFree(HANDLE heap, DWORD flags, LPVOID memory);
SIZE_T HeapSize(HANDLE heap, DWORD flags, LPCVOID memory);

#define LMEM_FIXED 0x0u
#define LMEM_ZEROINIT 0x40u
#define LPTR (LMEM_FIXED | LMEM_ZEROINIT)

/* Null, with ERROR_INVALID_PARAMETER, for memory that moves. */
HLOCAL LocalAlloc(UINT flags, SIZE_T size);
/* Frees what LocalAlloc, FormatMessage and GetThreadDescription have allocated. Answers null. */
HLOCAL LocalFree(HLOCAL memory);

#ifdef __cplusplus
}
#endif

#endif
