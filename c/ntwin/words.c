/* SPDX-License-Identifier: MIT OR Apache-2.0 */
#include "../schedule/internal.h"

/* ---- What a program's ThreadSanitizer or scheduler learns of words (words_inl.h). */

#ifdef TELLS_SCHEDULER
NTW_INTERNAL void (*observer)(void *word) = __tsan_acquire;

__attribute__((noinline, cold)) NTW_INTERNAL void tell_word_taken(_Atomic uint32_t *word)
{
    touch_word((void *)word);
    if (__tsan_acquire != NULL)
        __tsan_acquire((void *)word);
}

__attribute__((noinline, cold)) NTW_INTERNAL void tell_word_given(_Atomic uint32_t *word)
{
    touch_word((void *)word);
    if (__tsan_release != NULL)
        __tsan_release((void *)word);
}
#endif

/* ---- Words that threads sleep on. */

/* Sleeps while the word is `seen`, to this time of the monotonic clock at the longest where one is given, among the sleepers of these bits. It may
 * return sooner. */
NTW_INTERNAL void sleep_among(_Atomic uint32_t *word, uint32_t seen, const struct timespec *until, uint32_t bits)
{
    if (slept_by_schedule(word, seen, until, bits))
        return;
    const int error = errno;
    syscall(SYS_futex, word, FUTEX_WAIT_BITSET_PRIVATE, seen, until, NULL, bits);
    errno = error;
}

/* The same among all. */
NTW_INTERNAL void sleep_on(_Atomic uint32_t *word, uint32_t seen, const struct timespec *until)
{
    sleep_among(word, seen, until, FUTEX_BITSET_MATCH_ANY);
}

/* Wakes one thread that sleeps on the word. */
__attribute__((noinline)) NTW_INTERNAL void wake_one(_Atomic uint32_t *word)
{
    if (woke_by_schedule(word, 1, FUTEX_BITSET_MATCH_ANY))
        return;
    const int error = errno;
    syscall(SYS_futex, word, FUTEX_WAKE_PRIVATE, 1, NULL, NULL, 0);
    errno = error;
}
