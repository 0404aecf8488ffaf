/* A lock that goes to threads in the order in which they came, as a good C program has it: an MCS queue. Who waits looks at a word of its own, and
   then sleeps on it (futex); who gives the lock back hands it to the next, and makes a call of the system only where that one sleeps. */
#ifndef FIFO_LOCK_H
#define FIFO_LOCK_H

#include <linux/futex.h>
#include <stdatomic.h>
#include <stdbool.h>
#include <stddef.h>
#include <stdint.h>
#include <sys/syscall.h>
#include <unistd.h>

enum { MOST_LOOKS = 1000, WAITS_A_TRY = 64 };
enum { LOOKS, SLEEPS, HAS_IT };

/* How often a thread looks at a word before it sleeps on it. Who looked in vain looks half as often the next time, and tries again after 64 waits. */
struct looks {
    uint32_t most, waits;
};

/* Looks whether that has come into the word. */
static inline bool look_for(struct looks *mine, _Atomic uint32_t *word, uint32_t wanted)
{
    const uint32_t looks = mine->waits++ % WAITS_A_TRY == 0 ? MOST_LOOKS : mine->most;
    for (uint32_t i = 0; i < looks; i++) {
        if (atomic_load_explicit(word, memory_order_acquire) == wanted) {
            mine->most = MOST_LOOKS;
            return true;
        }
        __builtin_ia32_pause();
    }
    mine->most = looks / 2;
    return false;
}

/* A thread's place in the queue. Each lies in a line of the cache of its own. */
struct fifo_place {
    _Alignas(64) _Atomic(struct fifo_place *) next;
    _Atomic uint32_t state;
    struct looks looks;
};

struct fifo_lock {
    _Alignas(64) _Atomic(struct fifo_place *) last;
};

static inline void fifo_take(struct fifo_lock *lock, struct fifo_place *mine)
{
    atomic_store_explicit(&mine->next, NULL, memory_order_relaxed);
    atomic_store_explicit(&mine->state, LOOKS, memory_order_relaxed);
    struct fifo_place *before = atomic_exchange_explicit(&lock->last, mine, memory_order_acq_rel);
    if (before == NULL)
        return;
    atomic_store_explicit(&before->next, mine, memory_order_release);
    if (look_for(&mine->looks, &mine->state, HAS_IT))
        return;
    uint32_t seen = LOOKS;
    if (!atomic_compare_exchange_strong_explicit(&mine->state, &seen, SLEEPS, memory_order_acquire, memory_order_acquire))
        return;
    while (atomic_load_explicit(&mine->state, memory_order_acquire) == SLEEPS)
        syscall(SYS_futex, &mine->state, FUTEX_WAIT_PRIVATE, SLEEPS, NULL, NULL, 0);
}

static inline void fifo_give(struct fifo_lock *lock, struct fifo_place *mine)
{
    struct fifo_place *next = atomic_load_explicit(&mine->next, memory_order_acquire), *last = mine;
    if (next == NULL) {
        if (atomic_compare_exchange_strong_explicit(&lock->last, &last, NULL, memory_order_release, memory_order_relaxed))
            return;
        while ((next = atomic_load_explicit(&mine->next, memory_order_acquire)) == NULL)
            __builtin_ia32_pause();
    }
    if (atomic_exchange_explicit(&next->state, HAS_IT, memory_order_release) == SLEEPS)
        syscall(SYS_futex, &next->state, FUTEX_WAKE_PRIVATE, 1, NULL, NULL, 0);
}

#endif
