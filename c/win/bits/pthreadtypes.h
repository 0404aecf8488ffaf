/* SPDX-License-Identifier: MIT OR Apache-2.0 */
/* With _WIN32 the C library's types of threads do not come with <stdlib.h> and its like, as on Windows, but with <pthread.h> alone: a source
 * may have its own of these names. */
#pragma GCC system_header
#if defined _WIN32 && !defined NTWIN_GIVES_THREADS
#include "host_names.h"
#include_next <bits/pthreadtypes.h>
#include "host_names_end.h"
#else
#include_next <bits/pthreadtypes.h>
#endif
