/* SPDX-License-Identifier: MIT OR Apache-2.0 */
/* Which Windows a program runs on: what is here is what Windows 10 has. */
#ifndef NTWIN_VERSIONHELPERS_H
#define NTWIN_VERSIONHELPERS_H

#include "windef.h"

#define VERSIONHELPERAPI static __inline__ __attribute__((__unused__)) BOOL

VERSIONHELPERAPI IsWindowsVersionOrGreater(WORD major, WORD minor, WORD service_pack)
{
    return major < 10 || (major == 10 && minor == 0 && service_pack == 0);
}

#define IsWindowsXPOrGreater() IsWindowsVersionOrGreater(5, 1, 0)
#define IsWindowsXPSP1OrGreater() IsWindowsVersionOrGreater(5, 1, 1)
#define IsWindowsXPSP2OrGreater() IsWindowsVersionOrGreater(5, 1, 2)
#define IsWindowsXPSP3OrGreater() IsWindowsVersionOrGreater(5, 1, 3)
#define IsWindowsVistaOrGreater() IsWindowsVersionOrGreater(6, 0, 0)
#define IsWindowsVistaSP1OrGreater() IsWindowsVersionOrGreater(6, 0, 1)
#define IsWindowsVistaSP2OrGreater() IsWindowsVersionOrGreater(6, 0, 2)
#define IsWindows7OrGreater() IsWindowsVersionOrGreater(6, 1, 0)
#define IsWindows7SP1OrGreater() IsWindowsVersionOrGreater(6, 1, 1)
#define IsWindows8OrGreater() IsWindowsVersionOrGreater(6, 2, 0)
#define IsWindows8Point1OrGreater() IsWindowsVersionOrGreater(6, 3, 0)
#define IsWindows10OrGreater() IsWindowsVersionOrGreater(10, 0, 0)
#define IsWindowsServer() FALSE

#endif
