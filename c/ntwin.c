/* SPDX-License-Identifier: MIT OR Apache-2.0 */
/* Win32's names over the proved dispatcher (nt.h).
 *
 * One lock is held round each call of the dispatcher, and no longer. Each thread has a seat: its number in the dispatcher, and a word
 * that tells it, without the lock, whether its wait has ended. It looks at the word for a moment, and then sleeps on it, to its own
 * deadline at the longest. Who makes a call writes under the lock into the words of those whose waits it ended, gives the lock back, and
 * wakes those of them that sleep. One of the threads that wait for timers keeps the time for them all.
 *
 * Its parts are one file for the compiler: so no inner name meets one of a program's, and the short ones are written in line. Each also compiles by
 * itself (c/tests/alone). What crosses them is in ntwin/internal.h, which is the file to read first. */
#define _GNU_SOURCE
#define NTWIN_ONE_UNIT
#include "ntwin/globals.c"

#ifdef CHECKS_WAITING
#include "ntwin/check.c"
#endif

#include "ntwin/words.c"

#include "ntwin/times.c"

#include "ntwin/journal.c"

#include "ntwin/knots.c"

#include "ntwin/noted.c"

#include "schedule/calls.c"

#include "ntwin/looked.c"

#include "ntwin/lock.c"

#include "ntwin/dues.c"

#include "ntwin/waiting.c"

#include "win32/life.c"

#include "ntwin/threads.c"

#include "win32/names.c"

#include "win32/port_handles.c"

#include "ntwin/calls.c"

#include "ntwin/objects.c"

#include "ntwin/waits.c"

#include "ntwin/process.c"

#include "win32/counts.c"

#include "win32/latch.c"

#include "win32/slist.c"

#include "win32/sleepers.c"

#include "win32/critical_section.c"

#include "win32/srw_lock.c"

#include "win32/parking.c"

#include "win32/condition_variable.c"

#include "win32/init_once.c"

#include "win32/barrier.c"

#include "win32/storage.c"

#include "win32/open.c"

#include "win32/threads.c"

#include "win32/handles.c"

#include "win32/native.c"

#include "win32/files.c"

#include "win32/process.c"

#include "win32/processors.c"

#include "win32/topology.c"

#include "win32/fibers.c"

#include "win32/system.c"

#include "win32/heap.c"

#include "win32/pool.c"

#include "win32/callbacks.c"

#include "win32/pool_calls.c"

#include "win32/watch.c"

#include "win32/timers.c"

#include "win32/media_timers.c"

#include "win32/ports.c"

#include "win32/forked.c"

#include "win32/text.c"

#include "win32/messages.c"

#include "win32/modules.c"

#include "win32/utf16.c"

#include "ntwin/report.c"

#include "win32/told.c"

#include "ntwin/symbols.c"

#include "ntwin/stacks.c"

#include "ntwin/marks.c"

#include "ntwin/deeds.c"

#include "ntwin/why.c"

#include "ntwin/lines.c"

#include "ntwin/places.c"

#include "ntwin/looking.c"

#if !defined STRANDS_H && !defined HAS_NO_SCHEDULER
#include "schedule/run.c"

#include "schedule/told.c"

#include "schedule/turns.c"

#include "schedule/sleep_sets.c"

#include "schedule/strategies.c"

#include "schedule/points.c"

#include "schedule/posix.c"

#include "schedule/posix_times.c"

#include "schedule/posix_threads.c"

#include "schedule/posix_locks.c"

#include "schedule/posix_files.c"

#include "schedule/posix_told.c"

#include "schedule/memory.c"

#include "schedule/stand_in.c"

#include "schedule/decisions.c"

#include "schedule/runs.c"

#include "schedule/progress.c"

#include "schedule/failure.c"

#include "schedule/tree.c"

#include "schedule/asked.c"
#endif
