/* SPDX-License-Identifier: MIT OR Apache-2.0 */
/* ---- What a program's ThreadSanitizer learns, where it has one (ntwin.c need not be compiled for it), or its helgrind: that what was done
 * before one thread gave the lock back, or wrote another's grant, came before what is done after. */

#ifndef NTWIN_WORDS_INL_H
#define NTWIN_WORDS_INL_H

#include "inside.h"
#include "../schedule/hooks.h"

#if defined NTWIN_HELGRIND
#include <valgrind/helgrind.h>
#define comes_after(word) ANNOTATE_HAPPENS_AFTER(word)
#define comes_before(word) ANNOTATE_HAPPENS_BEFORE(word)
#define has_sanitizer() true
#define is_told() true
#define knows_barriers() false
#elif defined __SANITIZE_THREAD__
#define comes_after(word) ((void)(word))
#define comes_before(word) ((void)(word))
#define has_sanitizer() false
#define is_told() false
#define knows_barriers() false
#else
extern void __tsan_acquire(void *) __attribute__((weak));
extern void __tsan_release(void *) __attribute__((weak));

/* Not null where somebody listens: a sanitizer, or a scheduler (schedule/sleep_sets.c). (A call looks at this one word.) */
#define TELLS_SCHEDULER
NTW_VARIABLE void (*observer)(void *word);

NTW_INTERNAL void tell_word_taken(_Atomic uint32_t *word);
NTW_INTERNAL void tell_word_given(_Atomic uint32_t *word);

static inline bool is_told(void)
{
    return observer != NULL;
}

static inline void comes_after(_Atomic uint32_t *word)
{
    if (is_told())
        tell_word_taken(word);
}

static inline void comes_before(_Atomic uint32_t *word)
{
    if (is_told())
        tell_word_given(word);
}

/* Whether there is one that has to learn of it. */
static inline bool has_sanitizer(void)
{
    return __tsan_acquire != NULL;
}

/* Whether what looks for races, if there is one, knows a barrier that one thread makes another pass: none does. */
#define knows_barriers() (!has_sanitizer())
#endif

/* Between two looks at a word. */
static inline void rest(void)
{
#if defined __x86_64__ || defined __i386__
    __builtin_ia32_pause();
#endif
}

#endif
