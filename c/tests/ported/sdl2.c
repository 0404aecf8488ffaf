/* What SDL2's tests of threads ask of the rest of SDL: nothing but to write what they say, and to end where an assertion fails. And what SDL asks of
 * Windows for its hints: no variable of the environment is set. */
#include <stdarg.h>
#include <stdio.h>
#include <stdlib.h>
#include <string.h>

#include "SDL.h"

size_t strlcpy(char *to, const char *from, size_t room)
{
    if (room > 0)
        snprintf(to, room, "%s", from);
    return strlen(from);
}

unsigned GetEnvironmentVariableA(const char *name, char *value, unsigned room)
{
    (void)name, (void)value, (void)room;
    return 0;
}

int SDL_Init(Uint32 flags)
{
    (void)flags;
    return 0;
}

void SDL_Quit(void)
{
}

void SDL_Log(const char *format, ...)
{
    va_list values;
    va_start(values, format);
    vprintf(format, values);
    va_end(values);
    putchar('\n');
}

void SDL_LogError(int category, const char *format, ...)
{
    va_list values;
    (void)category;
    va_start(values, format);
    vprintf(format, values);
    va_end(values);
    putchar('\n');
}

void SDL_LogDebug(int category, const char *format, ...)
{
    (void)category, (void)format;
}

SDL_LogPriority SDL_LogGetPriority(int category)
{
    (void)category;
    return SDL_LOG_PRIORITY_CRITICAL;
}

void SDL_LogSetPriority(int category, SDL_LogPriority priority)
{
    (void)category, (void)priority;
}

SDL_AssertState SDL_ReportAssertion(SDL_AssertData *what, const char *function, const char *file, int line)
{
    fprintf(stderr, "%s:%d: %s: %s\n", file, line, function, what->condition);
    abort();
}

int WIN_SetError(const char *prefix)
{
    return SDL_SetError("%s", prefix);
}
