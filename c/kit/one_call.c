/* The C part of the program that c/kit/unproved makes of nt_c: its main makes the call that nt_first answers, and hands it to nt_last. In the
   library, where that main is nt_unproved_main, each call of c/nt.h has it make that one call, on the caller's stack. */
#include "asked.h"

#pragma GCC visibility push(hidden)
static _Thread_local struct asked *call;

/* (Where the program is tried, by itself, there is no call.) */
struct asked nt_first(void)
{
    const struct asked none = { .which = UINT32_MAX };
    return call != NULL ? *call : none;
}

void nt_last(struct asked *it)
{
    if (call != NULL)
        *call = *it;
}

#ifdef IN_LIBRARY
/* ntwin_is_proved (ntwin.h) looks whether it is there. */
__attribute__((visibility("default"))) const char nt_unproved = 1;

int nt_unproved_main(int count, char **words);

/* Stands for what a program does of signals as it begins. */
void *nt_unproved___sysv_signal(int number, void *handler)
{
    (void)number, (void)handler;
    return NULL;
}

void nt_ask(struct asked *it)
{
    call = it;
    nt_unproved_main(0, NULL);
}
#endif
