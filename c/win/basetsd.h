/* SPDX-License-Identifier: MIT OR Apache-2.0 */
/* Its names stand in the header that this one includes. */
#ifndef NTWIN_BASETSD_H
#define NTWIN_BASETSD_H

#include "windef.h"

#endif
