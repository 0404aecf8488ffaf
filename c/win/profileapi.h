/* SPDX-License-Identifier: MIT OR Apache-2.0 */
/* Its names stand in the header that this one includes. */
#ifndef NTWIN_PROFILEAPI_H
#define NTWIN_PROFILEAPI_H

#include "winnt.h"

#endif
