/* SPDX-License-Identifier: MIT OR Apache-2.0 */
/* Its names stand in the header that this one includes. */
#ifndef NTWIN_INTERLOCKEDAPI_H
#define NTWIN_INTERLOCKEDAPI_H

#include "slist.h"

#endif
