/* SPDX-License-Identifier: MIT OR Apache-2.0 */
/* ---- The heap of the process: each piece of memory has its size before it. */
#include "../ntwin/internal.h"

struct piece {
    size_t size;
    _Alignas(16) unsigned char memory[];
};

static struct piece *piece_of(LPCVOID memory)
{
    return (struct piece *)(void *)((uintptr_t)memory - offsetof(struct piece, memory));
}

HANDLE GetProcessHeap(void)
{
    return &waiting;
}

/* (But for HeapFree, no call says by the last error why it fails.) */
static bool is_heap(HANDLE heap)
{
    return heap == GetProcessHeap();
}

LPVOID HeapAlloc(HANDLE heap, DWORD flags, SIZE_T size)
{
    if (!is_heap(heap))
        return NULL;
    struct piece *piece = size > SIZE_MAX - sizeof *piece ? NULL
        : (flags & HEAP_ZERO_MEMORY) != 0                 ? calloc(1, sizeof *piece + size)
                                                          : malloc(sizeof *piece + size);
    if (piece == NULL)
        return NULL;
    piece->size = size;
    return piece->memory;
}

LPVOID HeapReAlloc(HANDLE heap, DWORD flags, LPVOID memory, SIZE_T size)
{
    if (!is_heap(heap) || memory == NULL)
        return NULL;
    const size_t before = piece_of(memory)->size;
    const bool moves = (flags & HEAP_REALLOC_IN_PLACE_ONLY) == 0;
    struct piece *piece = !moves && size <= before          ? piece_of(memory)
        : !moves || size > SIZE_MAX - sizeof(struct piece) ? NULL
                                                           : realloc(piece_of(memory), sizeof(struct piece) + size);
    if (piece == NULL)
        return NULL;
    piece->size = size;
    if ((flags & HEAP_ZERO_MEMORY) != 0 && size > before)
        memset(piece->memory + before, 0, size - before);
    return piece->memory;
}

BOOL HeapFree(HANDLE heap, DWORD flags, LPVOID memory)
{
    (void)flags;
    if (!is_heap(heap))
        return ntw_fail(ERROR_INVALID_HANDLE);
    if (memory != NULL)
        free(piece_of(memory));
    return TRUE;
}

SIZE_T HeapSize(HANDLE heap, DWORD flags, LPCVOID memory)
{
    (void)flags;
    return is_heap(heap) && memory != NULL ? piece_of(memory)->size : SIZE_MAX;
}

HLOCAL LocalAlloc(UINT flags, SIZE_T size)
{
    if ((flags & ~LPTR) != 0) {
        ntw_fail(ERROR_INVALID_PARAMETER);
        return NULL;
    }
    void *memory = (flags & LMEM_ZEROINIT) != 0 ? calloc(1, size > 0 ? size : 1) : malloc(size > 0 ? size : 1);
    if (memory == NULL)
        ntw_fail(ERROR_NOT_ENOUGH_MEMORY);
    return memory;
}

HLOCAL LocalFree(HLOCAL memory)
{
    free(memory);
    return NULL;
}
