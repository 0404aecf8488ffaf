/* SPDX-License-Identifier: MIT OR Apache-2.0 */
/* ---- Slots with a value for each thread: those of TlsAlloc, and those of FlsAlloc, which have a callback. A slot counts how often it was taken
 * and given back; a thread's value counts only if it is of the slot's present count. So a new slot is null in each thread. */
#include "internal.h"

struct slot {
    _Atomic uint32_t turn; /* odd while it is taken */
    PFLS_CALLBACK_FUNCTION callback;
};

NTW_INTERNAL _Thread_local struct storage *storage __attribute__((tls_model("initial-exec")));
/* Where the thread runs a fiber, what that has in the slots of FlsAlloc; else null, and the thread has it (fibers.c). */
NTW_INTERNAL _Thread_local struct storage *storage_of_fiber __attribute__((tls_model("initial-exec")));

static struct slot tls_slots[TLS_SLOTS], fls_slots[FLS_SLOTS];
/* (No FLS slot has index 0.) */
static const struct {
    struct slot *slots;
    uint32_t first, count;
} slots_of[] = { [TLS] = { tls_slots, 0, TLS_SLOTS }, [FLS] = { fls_slots, 1, FLS_SLOTS } };

NTW_INTERNAL struct storages storages;

static bool is_slot(enum slot_kind kind, DWORD index)
{
    return index >= slots_of[kind].first && index < slots_of[kind].count;
}

static void end_storage(void *of_thread);

/* What the caller has in slots of this kind; null where it has none yet. */
static inline struct storage *storage_of(enum slot_kind kind)
{
    return kind == FLS && storage_of_fiber != NULL ? storage_of_fiber : storage;
}

/* Those whose values are handed back where a slot is freed, under the latch. */
NTW_INTERNAL void list_storage(struct storage *made)
{
    made->earlier = NULL;
    made->later = storages.threads;
    if (made->later != NULL)
        made->later->earlier = made;
    storages.threads = made;
}

static void unlist_storage(struct storage *it)
{
    if (it->earlier != NULL)
        it->earlier->later = it->later;
    else
        storages.threads = it->later;
    if (it->later != NULL)
        it->later->earlier = it->earlier;
}

/* The caller's storage, which it gets now. Null where memory is refused. */
NTW_INTERNAL struct storage *make_storage(void)
{
    struct storage *made = calloc(1, sizeof *made);
    if (made == NULL)
        return NULL;
    take_latch(&storages.latch);
    if (!storages.has_key)
        storages.has_key = pthread_key_create(&storages.leaving, end_storage) == 0;
    const bool is_kept = storages.has_key && pthread_setspecific(storages.leaving, made) == 0;
    if (is_kept)
        list_storage(made);
    give_latch(&storages.latch);
    if (!is_kept) {
        free(made);
        return NULL;
    }
    return storage = made;
}

/* The place of a thread's value; null where it has none yet. */
static inline struct value *value_in(struct storage *of_thread, enum slot_kind kind, DWORD index)
{
    struct value *block = atomic_load_explicit(&of_thread->blocks[kind][index / SLOTS_OF_A_BLOCK], memory_order_acquire);
    return block != NULL ? &block[index % SLOTS_OF_A_BLOCK] : NULL;
}

/* The place of the caller's value, which it gets now; null where memory is refused. */
__attribute__((noinline, cold)) static struct value *make_value(enum slot_kind kind, DWORD index)
{
    struct storage *mine = storage_of(kind);
    if (mine == NULL && (mine = make_storage()) == NULL)
        return NULL;
    atomic_store_explicit(&mine->blocks[kind][index / SLOTS_OF_A_BLOCK], calloc(SLOTS_OF_A_BLOCK, sizeof(struct value)), memory_order_release);
    return value_in(mine, kind, index);
}

/* Takes a thread's value out of a slot; null where it has none. */
static PVOID take_value(struct storage *of_thread, enum slot_kind kind, DWORD index)
{
    struct value *value = value_in(of_thread, kind, index);
    const uint32_t turn = atomic_load_explicit(&slots_of[kind].slots[index].turn, memory_order_relaxed);
    if (value == NULL || atomic_load_explicit(&value->turn, memory_order_relaxed) != turn)
        return NULL;
    return atomic_exchange_explicit(&value->value, NULL, memory_order_acq_rel);
}

/* The first value in an FLS slot from this index on that has a callback, which is taken out; null where there is none left. */
static PVOID next_fls_value(struct storage *of_thread, DWORD *index, PFLS_CALLBACK_FUNCTION *callback)
{
    PVOID value = NULL;
    take_latch(&storages.latch);
    for (; value == NULL && *index < FLS_SLOTS; ++*index) {
        *callback = fls_slots[*index].callback;
        if (*callback != NULL)
            value = take_value(of_thread, FLS, *index);
    }
    give_latch(&storages.latch);
    return value;
}

/* Calls the callbacks with a thread's values. Answers whether there was one. */
NTW_INTERNAL bool hand_back_values(struct storage *of_thread)
{
    PFLS_CALLBACK_FUNCTION callback;
    PVOID value;
    bool is_any = false;
    for (DWORD index = slots_of[FLS].first; (value = next_fls_value(of_thread, &index, &callback)) != NULL; is_any = true)
        callback(value);
    return is_any;
}

/* The callbacks get all values, those too that callbacks set, as often as destructors are called; and there is none left. */
NTW_INTERNAL void empty_storage(struct storage *it)
{
    for (int round = 0; round < PTHREAD_DESTRUCTOR_ITERATIONS && hand_back_values(it); round++)
        continue;
    take_latch(&storages.latch);
    unlist_storage(it);
    if (it == storage)
        storage = NULL;
    give_latch(&storages.latch);
    for (int block = 0; block < SLOT_KINDS * BLOCKS; block++)
        free(atomic_load_explicit(&it->blocks[block / BLOCKS][block % BLOCKS], memory_order_relaxed));
}

/* The thread ends, and the fiber with it that it runs. */
static void end_storage(void *of_thread)
{
    struct storage *mine = of_thread;
    end_fiber_of_thread();
    empty_storage(mine);
    free(mine);
}

/* As the process ends, the thread that ends it does. */
__attribute__((destructor)) static void end_last_storage(void)
{
    if (storage == NULL)
        return;
    pthread_setspecific(storages.leaving, NULL);
    end_storage(storage);
}

static DWORD take_slot(enum slot_kind kind, PFLS_CALLBACK_FUNCTION callback)
{
    DWORD index = slots_of[kind].first;
    struct slot *slots = slots_of[kind].slots;
    take_latch(&storages.latch);
    while (index < slots_of[kind].count && atomic_load_explicit(&slots[index].turn, memory_order_relaxed) % 2 == 1)
        index++;
    const bool is_found = index < slots_of[kind].count;
    if (is_found) {
        slots[index].callback = callback;
        atomic_fetch_add_explicit(&slots[index].turn, 1, memory_order_relaxed);
    }
    give_latch(&storages.latch);
    if (is_found)
        return index;
    ntw_fail(ERROR_NO_MORE_ITEMS);
    return TLS_OUT_OF_INDEXES;
}

/* A value that some thread has in this slot, with its callback, which is taken out; null, and the slot is free, where there is none. */
static PVOID next_value_of_slot(enum slot_kind kind, DWORD index, PFLS_CALLBACK_FUNCTION *callback)
{
    struct slot *slot = &slots_of[kind].slots[index];
    PVOID value = NULL;
    take_latch(&storages.latch);
    *callback = slot->callback;
    if (slot->callback != NULL)
        for (struct storage *at = storages.threads; at != NULL && value == NULL; at = at->later)
            value = take_value(at, kind, index);
    if (value == NULL) {
        slot->callback = NULL;
        atomic_fetch_add_explicit(&slot->turn, 1, memory_order_relaxed);
    }
    give_latch(&storages.latch);
    return value;
}

static BOOL give_slot(enum slot_kind kind, DWORD index)
{
    PFLS_CALLBACK_FUNCTION callback;
    PVOID value;
    if (!is_slot(kind, index) || atomic_load_explicit(&slots_of[kind].slots[index].turn, memory_order_relaxed) % 2 == 0)
        return ntw_fail(ERROR_INVALID_PARAMETER);
    while ((value = next_value_of_slot(kind, index, &callback)) != NULL)
        callback(value);
    return TRUE;
}

static inline PVOID get_value(enum slot_kind kind, DWORD index)
{
    if (!is_slot(kind, index)) {
        ntw_fail(ERROR_INVALID_PARAMETER);
        return NULL;
    }
    own.last_error = ERROR_SUCCESS;
    struct storage *mine = storage_of(kind);
    struct value *value = mine != NULL ? value_in(mine, kind, index) : NULL;
    if (value == NULL
        || atomic_load_explicit(&value->turn, memory_order_relaxed)
            != atomic_load_explicit(&slots_of[kind].slots[index].turn, memory_order_relaxed))
        return NULL;
    return atomic_load_explicit(&value->value, memory_order_relaxed);
}

static inline BOOL set_value(enum slot_kind kind, DWORD index, PVOID new_value)
{
    if (!is_slot(kind, index))
        return ntw_fail(ERROR_INVALID_PARAMETER);
    struct storage *mine = storage_of(kind);
    struct value *value = mine != NULL ? value_in(mine, kind, index) : NULL;
    if (value == NULL && (value = make_value(kind, index)) == NULL)
        return ntw_fail(ERROR_NOT_ENOUGH_MEMORY);
    atomic_store_explicit(&value->value, new_value, memory_order_release);
    atomic_store_explicit(&value->turn, atomic_load_explicit(&slots_of[kind].slots[index].turn, memory_order_relaxed),
                          memory_order_relaxed);
    return TRUE;
}

DWORD TlsAlloc(void)
{
    return take_slot(TLS, NULL);
}

BOOL TlsFree(DWORD index)
{
    return give_slot(TLS, index);
}

LPVOID TlsGetValue(DWORD index)
{
    return get_value(TLS, index);
}

BOOL TlsSetValue(DWORD index, LPVOID value)
{
    return set_value(TLS, index, value);
}

DWORD FlsAlloc(PFLS_CALLBACK_FUNCTION callback)
{
    return take_slot(FLS, callback);
}

BOOL FlsFree(DWORD index)
{
    return give_slot(FLS, index);
}

PVOID FlsGetValue(DWORD index)
{
    return get_value(FLS, index);
}

BOOL FlsSetValue(DWORD index, PVOID value)
{
    return set_value(FLS, index, value);
}
