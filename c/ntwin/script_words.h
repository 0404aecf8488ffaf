/* SPDX-License-Identifier: MIT OR Apache-2.0 */
/* The words of scripts (docs/SCRIPTS.md). Journals are written with them, and the players of scripts in c/tests read them. docs/check_names compares
   them with the grammar's. */
#ifndef NTWIN_SCRIPT_WORDS_H
#define NTWIN_SCRIPT_WORDS_H

#define WORD_THREADS "threads"
#define WORD_TICK "tick"
#define WORD_EVENT "event"
#define WORD_SEMAPHORE "semaphore"
#define WORD_MUTEX "mutex"
#define WORD_TIMER "timer"
#define WORD_DUP "dup"
#define WORD_SET "set"
#define WORD_RESET "reset"
#define WORD_PULSE "pulse"
#define WORD_RELEASE "release"
#define WORD_UNLOCK "unlock"
#define WORD_ARM "arm"
#define WORD_CANCEL "cancel"
#define WORD_APC "apc"
#define WORD_CLOSE "close"
#define WORD_ANY "any"
#define WORD_ALL "all"
#define WORD_SLEEP "sleep"
#define WORD_SWAP "swap"
#define WORD_NEXT "next"
#define WORD_EXIT "exit"
#define WORD_INF "inf"
#define WORD_PLAIN "plain"
#define WORD_ALERTABLE "alertable"
#define WORD_MANUAL "manual"
#define WORD_OWNED "owned"

#endif
