/* What guests share: a line of output, with no C library. */
#ifndef SAY_H
#define SAY_H

#include <windows.h>

/* Writes the text, the number and the end of the line. */
static inline void say(const char *text, unsigned number)
{
    char line[120], digits[12];
    int length = 0, count = 0;
    DWORD written;
    while (text[length] != '\0') {
        line[length] = text[length];
        length++;
    }
    do
        digits[count++] = (char)('0' + number % 10);
    while ((number /= 10) != 0);
    while (count > 0)
        line[length++] = digits[--count];
    line[length++] = '\n';
    WriteFile(GetStdHandle(STD_OUTPUT_HANDLE), line, (DWORD)length, &written, NULL);
}

/* Some instructions of the guest's own. */
static inline void work(int rounds)
{
    for (volatile int i = 0; i < rounds; i++) {
    }
}

#endif
