/* SPDX-License-Identifier: MIT OR Apache-2.0 */
/* ---- What is kept (inside.h has it). */
#include "inside.h"

#ifndef own
NTW_INTERNAL _Thread_local struct own own __attribute__((tls_model("initial-exec")));
#endif
NTW_INTERNAL struct process process = { .opening = PTHREAD_MUTEX_INITIALIZER };
NTW_INTERNAL struct waiting waiting;
