/* SPDX-License-Identifier: MIT OR Apache-2.0 */
/* (As bits/pthreadtypes.h: these calls come with <pthread.h> too.) */
#pragma GCC system_header
#if !defined _WIN32 || defined NTWIN_GIVES_THREADS
#include_next <bits/sigthread.h>
#endif
