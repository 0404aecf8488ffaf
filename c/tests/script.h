/* What the players of scripts share: a script's lines, words and names (docs/SCRIPTS.md). */
#ifndef SCRIPT_H
#define SCRIPT_H

#include "../nt.h"
#include "../ntwin/script_words.h"

#include <stdio.h>
#include <stdlib.h>
#include <string.h>

enum { MOST_WORDS = 80, LONGEST = 4200 };

static uint32_t THREADS;

/* The names of objects, in the order in which they were given. */
static struct {
    char name[33];
    uint32_t handle;
} NAMES[NT_MAXIMUM_HANDLES];
static size_t NAMED;

/* The line that is carried out. */
static unsigned long NUMBER;
static char *WORDS[MOST_WORDS];
static int COUNT;

/* Ends the program at a line that it can't carry out. */
static void stop(void)
{
    fflush(stdout);
    fprintf(stderr, "<stdin>:%lu: this line can't be carried out\n", NUMBER);
    exit(2);
}

static const char *word(int at)
{
    if (at >= COUNT)
        stop();
    return WORDS[at];
}

static uint64_t number(int at)
{
    return strtoull(word(at), NULL, 10);
}

static int64_t signed_number(int at)
{
    return strtoll(word(at), NULL, 10);
}

static uint32_t timeout(int at)
{
    return strcmp(word(at), WORD_INF) == 0 ? NT_INFINITE : (uint32_t)number(at);
}

static bool alertable(int at)
{
    return strcmp(word(at), WORD_ALERTABLE) == 0;
}

static uint32_t handle(int at)
{
    const char *text = word(at);
    if (text[0] >= '0' && text[0] <= '9')
        return (uint32_t)number(at);
    /* (A name may begin as a thread does: t1_.) */
    if (text[0] == 't' && text[1] != 0 && text[1 + strspn(text + 1, "0123456789")] == 0 && strtoul(text + 1, NULL, 10) < THREADS)
        return (uint32_t)strtoul(text + 1, NULL, 10);
    for (size_t i = 0; i < NAMED; i++)
        if (strcmp(NAMES[i].name, text) == 0)
            return NAMES[i].handle;
    stop();
    return 0;
}

/* Whether one of the words after the name is this one. */
static bool has(const char *flag)
{
    for (int at = 3; at < COUNT; at++)
        if (strcmp(WORDS[at], flag) == 0)
            return true;
    return false;
}

/* Gives the line's third word to this handle. */
static void give_name(uint32_t number)
{
    snprintf(NAMES[NAMED].name, sizeof NAMES[NAMED].name, "%s", word(2));
    NAMES[NAMED++].handle = number;
}

static bool read_line(void)
{
    static char line[LONGEST];
    do {
        if (fgets(line, sizeof line, stdin) == NULL)
            return false;
        NUMBER++;
        line[strcspn(line, ";\r\n")] = 0;
        COUNT = 0;
        for (char *next = strtok(line, " \t"); next != NULL && COUNT < MOST_WORDS; next = strtok(NULL, " \t"))
            WORDS[COUNT++] = next;
    } while (COUNT == 0);
    return true;
}

#endif
