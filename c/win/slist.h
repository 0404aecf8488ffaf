/* SPDX-License-Identifier: MIT OR Apache-2.0 */
/* Lists that many threads push to and pop from, the last that came first. An entry that was popped may be freed at once. */
#ifndef NTWIN_SLIST_H
#define NTWIN_SLIST_H

#include "winnt.h"

#ifdef __cplusplus
extern "C" {
#endif

void InitializeSListHead(PSLIST_HEADER head);
/* Answers the entry that was first before; null where there was none. */
PSLIST_ENTRY InterlockedPushEntrySList(PSLIST_HEADER head, PSLIST_ENTRY entry);
/* Pushes the entries from `first` to `last`, which are linked and `count` many. */
PSLIST_ENTRY InterlockedPushListSListEx(PSLIST_HEADER head, PSLIST_ENTRY first, PSLIST_ENTRY last, ULONG count);
/* Takes the first entry; null where there is none. */
PSLIST_ENTRY InterlockedPopEntrySList(PSLIST_HEADER head);
/* Takes all entries, linked. */
PSLIST_ENTRY InterlockedFlushSList(PSLIST_HEADER head);
/* How many there are, modulo 65,536. */
USHORT QueryDepthSList(PSLIST_HEADER head);
/* (Not a step with others: the entry may be popped meanwhile.) */
PSLIST_ENTRY RtlFirstEntrySList(const SLIST_HEADER *head);
#define FirstEntrySList RtlFirstEntrySList
#define InterlockedPushListSList InterlockedPushListSListEx
#define RtlInitializeSListHead InitializeSListHead
#define RtlQueryDepthSList QueryDepthSList

#ifdef __cplusplus
}
#endif

#endif
