/* SPDX-License-Identifier: MIT OR Apache-2.0 */
/* For sources that spell it so. */
#ifndef NTWIN_VERSIONHELPERS_CAPITALS_H
#define NTWIN_VERSIONHELPERS_CAPITALS_H

#include "versionhelpers.h"

#endif
