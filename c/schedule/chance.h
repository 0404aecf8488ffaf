/* SPDX-License-Identifier: MIT OR Apache-2.0 */
/* ---- Chance by a seed (xorshift128+): for the scheduler of programs, and for that of tests (tests/schedules/strands.h). */
#ifndef NTWIN_SCHEDULE_CHANCE_H
#define NTWIN_SCHEDULE_CHANCE_H

#include <stdint.h>

static uint64_t next_of_chance(uint64_t state[2])
{
    uint64_t a = state[0];
    const uint64_t b = state[1];
    state[0] = b;
    a ^= a << 23;
    state[1] = a ^ b ^ (a >> 17) ^ (b >> 26);
    return state[1] + b;
}

static void begin_chance(uint64_t state[2], uint64_t seed)
{
    state[0] = seed * UINT64_C(0x9E3779B97F4A7C15) + 1;
    state[1] = seed ^ UINT64_C(0xD1B54A32D192ED03);
    for (int i = 0; i < 10; i++)
        next_of_chance(state);
}

#endif
