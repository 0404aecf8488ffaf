/* SPDX-License-Identifier: MIT OR Apache-2.0 */
/* Its names stand in the header that this one includes. */
#ifndef NTWIN_MINWINDEF_H
#define NTWIN_MINWINDEF_H

#include "windef.h"

#endif
