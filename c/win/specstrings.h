/* SPDX-License-Identifier: MIT OR Apache-2.0 */
/* Its names stand in the header that this one includes. */
#ifndef NTWIN_SPECSTRINGS_H
#define NTWIN_SPECSTRINGS_H

#include "sal.h"

#endif
