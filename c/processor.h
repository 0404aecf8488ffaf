/* SPDX-License-Identifier: MIT OR Apache-2.0 */
/* The kit makes code for processors with x86-64-v2, as all are since 2013. On an earlier one that is said as a program begins, so that it does not end
 * by an illegal instruction later. */
#ifndef PROCESSOR_H
#define PROCESSOR_H

#include <stdbool.h>
#include <stddef.h>
#include <stdint.h>
#include <string.h>
#include <unistd.h>

/* What a shell answers for a program that is there and cannot be run. */
enum { CANNOT_RUN = 126 };

#ifdef __x86_64__

/* SSE3, SSSE3, CMPXCHG16B, SSE4.1, SSE4.2 and POPCNT among the features of leaf 1; LAHF among those of the other. */
enum { BASIC = 1, V2_OF_BASIC = 1 << 0 | 1 << 9 | 1 << 13 | 1 << 19 | 1 << 20 | 1 << 23, V2_OF_EXTENDED = 1 << 0 };
#define EXTENDED 0x80000001u

/* The third word that the processor answers of this leaf. */
static inline uint32_t features(uint32_t leaf)
{
    uint32_t second, third = 0, fourth;
    __asm__("cpuid" : "+a"(leaf), "=b"(second), "+c"(third), "=d"(fourth));
    return third;
}

static inline bool has_v2(void)
{
    return (features(BASIC) & V2_OF_BASIC) == V2_OF_BASIC && (features(EXTENDED) & V2_OF_EXTENDED) == V2_OF_EXTENDED;
}

#else

static inline bool has_v2(void)
{
    return true;
}

#endif

static inline void say_of_processor(const char *text)
{
    if (write(STDERR_FILENO, text, strlen(text)) < 0)
        _exit(CANNOT_RUN);
}

/* Ends the process where the processor lacks x86-64-v2, and says so by this name. */
static inline void end_without_v2(const char *who)
{
    if (has_v2())
        return;
    say_of_processor(who);
    say_of_processor(": this processor lacks x86-64-v2 (SSE4.2, POPCNT), for which this was built\n");
    _exit(CANNOT_RUN);
}

#endif
