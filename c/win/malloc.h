/* SPDX-License-Identifier: MIT OR Apache-2.0 */
/* The C library's own header, and memory that is aligned as one asks. */
#pragma GCC system_header
#include_next <malloc.h>
#ifndef NTWIN_MALLOC_H
#define NTWIN_MALLOC_H

#include <errno.h>
#include <stdlib.h>

#ifdef __cplusplus
extern "C" int posix_memalign(void **, size_t, size_t);
#else
extern int posix_memalign(void **, size_t, size_t);
#endif

/* Null, with errno, where `alignment` is no power of two or the size is 0 (EINVAL), or memory is refused (ENOMEM). */
static __inline__ __attribute__((__unused__)) void *_aligned_malloc(size_t size, size_t alignment)
{
    void *memory;
    if (size == 0 || alignment == 0 || (alignment & (alignment - 1)) != 0)
        errno = EINVAL;
    else if (posix_memalign(&memory, alignment < sizeof(void *) ? sizeof(void *) : alignment, size) != 0)
        errno = ENOMEM;
    else
        return memory;
    return NULL;
}

static __inline__ __attribute__((__unused__)) void _aligned_free(void *memory)
{
    free(memory);
}

#define _alloca(size) __builtin_alloca(size)

#endif
