/* SPDX-License-Identifier: MIT OR Apache-2.0 */
/* Intrinsics of Microsoft's compilers that come with threads. */
#ifndef NTWIN_INTRIN_H
#define NTWIN_INTRIN_H

#include "interlocked.h"
#include "windef.h"

#if defined __x86_64__ || defined __i386__
#include <x86intrin.h>
#endif

/* Whether a bit is set; the place gets the number of the lowest, or of the highest. It is a DWORD's, or an `unsigned long`'s, which Microsoft's pages
 * have there. */
#ifdef __cplusplus
#define NTWIN_OF_ULONG(name) name
#else
#define NTWIN_OF_ULONG(name) ntwin_ulong##name
#endif
#define NTWIN_SCAN_TO(inlined, name, place, type, number) \
    inlined BYTE name(place *at, type bits) \
    { \
        if (bits != 0) \
            *at = (place)(number); \
        return bits != 0; \
    }
#define NTWIN_SCAN(name, type, number) \
    NTWIN_SCAN_TO(NTWIN_INLINE, name, DWORD, type, number) \
    NTWIN_SCAN_TO(NTWIN_INLINE __attribute__((__always_inline__)), NTWIN_OF_ULONG(name), unsigned long, type, number)

NTWIN_SCAN(_BitScanForward, DWORD, __builtin_ctz(bits))
NTWIN_SCAN(_BitScanForward64, ULONG64, __builtin_ctzl(bits))
NTWIN_SCAN(_BitScanReverse, DWORD, 31 - __builtin_clz(bits))
NTWIN_SCAN(_BitScanReverse64, ULONG64, 63 - __builtin_clzl(bits))

#ifndef __cplusplus
#define NTWIN_BY_PLACE(name, at) (__extension__ _Generic((at), unsigned long *: NTWIN_OF_ULONG(name), default: name))
#define _BitScanForward(at, bits) NTWIN_BY_PLACE(_BitScanForward, at)(at, bits)
#define _BitScanForward64(at, bits) NTWIN_BY_PLACE(_BitScanForward64, at)(at, bits)
#define _BitScanReverse(at, bits) NTWIN_BY_PLACE(_BitScanReverse, at)(at, bits)
#define _BitScanReverse64(at, bits) NTWIN_BY_PLACE(_BitScanReverse64, at)(at, bits)
#endif

#define BitScanForward _BitScanForward
#define BitScanForward64 _BitScanForward64
#define BitScanReverse _BitScanReverse
#define BitScanReverse64 _BitScanReverse64
#define __popcnt(bits) ((UINT)__builtin_popcount(bits))
#define __popcnt64(bits) ((ULONG64)__builtin_popcountl(bits))
#define _byteswap_ushort(value) __builtin_bswap16(value)
#define _byteswap_ulong(value) __builtin_bswap32(value)
#define _byteswap_uint64(value) __builtin_bswap64(value)
#define __debugbreak() __builtin_trap()
#define __nop() __asm__ __volatile__("nop")
#define _ReturnAddress() __builtin_return_address(0)
/* (It lies above the frame that the compiler knows by its lowest word.) */
#define _AddressOfReturnAddress() ((void *)((void **)__builtin_frame_address(0) + 1))

#endif
