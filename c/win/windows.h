/* SPDX-License-Identifier: MIT OR Apache-2.0 */
/* For sources that include <windows.h> for its waitable objects, waits and threads, and for what goes with these. */
#ifndef NTWIN_WINDOWS_H
#define NTWIN_WINDOWS_H

#include "windef.h"
#include "winnt.h"
#include "winerror.h"
#include "winbase.h"
#include "mmsystem.h"

#endif
