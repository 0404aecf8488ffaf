/* SPDX-License-Identifier: MIT OR Apache-2.0 */
/* ---- Singly linked lists. A latch in the header makes each call one step, so that an entry which one thread has popped, and perhaps freed, is
 * read by no other. */
#include "internal.h"

struct list {
    PSLIST_ENTRY first;
    _Atomic uint32_t latch;
    uint32_t depth;
};
_Static_assert(sizeof(struct list) == sizeof(SLIST_HEADER), "a list is a header");

static struct list *list_of(PSLIST_HEADER head)
{
    return (struct list *)(void *)head;
}

void InitializeSListHead(PSLIST_HEADER head)
{
    struct list *list = list_of(head);
    list->first = NULL;
    list->depth = 0;
    atomic_init(&list->latch, FREE);
}

PSLIST_ENTRY InterlockedPushListSListEx(PSLIST_HEADER head, PSLIST_ENTRY first, PSLIST_ENTRY last, ULONG count)
{
    struct list *list = list_of(head);
    take_latch(&list->latch);
    PSLIST_ENTRY before = list->first;
    last->Next = before;
    list->first = first;
    list->depth += count;
    give_latch(&list->latch);
    return before;
}

PSLIST_ENTRY InterlockedPushEntrySList(PSLIST_HEADER head, PSLIST_ENTRY entry)
{
    return InterlockedPushListSListEx(head, entry, entry, 1);
}

PSLIST_ENTRY InterlockedPopEntrySList(PSLIST_HEADER head)
{
    struct list *list = list_of(head);
    take_latch(&list->latch);
    PSLIST_ENTRY first = list->first;
    if (first != NULL) {
        list->first = first->Next;
        list->depth--;
    }
    give_latch(&list->latch);
    return first;
}

PSLIST_ENTRY InterlockedFlushSList(PSLIST_HEADER head)
{
    struct list *list = list_of(head);
    take_latch(&list->latch);
    PSLIST_ENTRY first = list->first;
    list->first = NULL;
    list->depth = 0;
    give_latch(&list->latch);
    return first;
}

USHORT QueryDepthSList(PSLIST_HEADER head)
{
    struct list *list = list_of(head);
    take_latch(&list->latch);
    const uint32_t depth = list->depth;
    give_latch(&list->latch);
    return (USHORT)depth;
}

PSLIST_ENTRY RtlFirstEntrySList(const SLIST_HEADER *head)
{
    return __atomic_load_n(&((const struct list *)(const void *)head)->first, __ATOMIC_ACQUIRE);
}
