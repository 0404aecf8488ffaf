/* The trace is written once a run has ended, and how often each step was made once all have. */
#ifndef WRITING_H
#define WRITING_H

#include "trace.h"

static void write_number(uint32_t number)
{
    char digits[10];
    size_t at = sizeof digits;
    do
        digits[--at] = (char)('0' + number % 10);
    while ((number /= 10) != 0);
    putc_unlocked(' ', trace.file);
    while (at < sizeof digits)
        putc_unlocked(digits[at++], trace.file);
}

/* (Much of a run's time goes into this, and so no format is read.) */
static void write_step_as(const struct told_step *told, enum step step)
{
    trace.counts[told->protocol][step]++;
    for (const char *name = step_names[told->protocol][step]; *name != 0; name++)
        putc_unlocked(*name, trace.file);
    write_number(told->thread);
    if (step > LAST_ALONE)
        write_number(told->other);
    putc_unlocked('\n', trace.file);
}

static void write_step(const struct told_step *told)
{
    static const enum step two[STEPS][2] = {
        [SeesUnparked] = { FallsAsleep, Reads },
        [FinishesAndGives] = { Finishes, GivesToWake },
        [FinishesAllAndGives] = { FinishesAll, GivesToWake },
    };
    const enum step *both = two[told->step];
    write_step_as(told, both[0] != NO_STEP ? both[0] : told->step);
    if (both[1] != NO_STEP)
        write_step_as(told, both[1]);
}

static void write_steps(enum protocol protocol, uint32_t address)
{
    fprintf(trace.file, "opening %s %d\n", protocol_names[protocol], threads_told[protocol]);
    for (size_t i = 0; i < trace.count; i++)
        if (trace.steps[i].step != NO_STEP && trace.steps[i].protocol == protocol
            && (protocol != park_protocol || trace.steps[i].address == address))
            write_step(&trace.steps[i]);
}

static void write_trace(void)
{
    if (trace.file == NULL)
        return;
    write_steps(lock_protocol, 0);
    write_steps(word_protocol, 0);
    for (uint32_t address = 0; address < ADDRESSES; address++)
        write_steps(park_protocol, address);
    trace.count = 0;
    fflush(trace.file);
}

/* How often each step was made. */
static void tell_counts(void)
{
    if (trace.file == NULL)
        return;
    for (int protocol = 0; protocol < PROTOCOLS; protocol++)
        for (int step = 0; step < STEPS; step++)
            if (step_names[protocol][step] != NULL)
                printf("%s %llu, ", step_names[protocol][step], trace.counts[protocol][step]);
    printf("as the trace has them\n");
}

#endif
