/* SPDX-License-Identifier: MIT OR Apache-2.0 */
/* (As bits/pthreadtypes.h.) */
#pragma GCC system_header
#if defined _WIN32 && !defined NTWIN_GIVES_THREADS
#include "../host_names.h"
#include_next <bits/types/sigevent_t.h>
#include "../host_names_end.h"
#else
#include_next <bits/types/sigevent_t.h>
#endif
