/* SPDX-License-Identifier: MIT OR Apache-2.0 */
/* For sources that spell it so. */
#ifndef NTWIN_WINDOWS_CAPITAL_H
#define NTWIN_WINDOWS_CAPITAL_H

#include "windows.h"

#endif
