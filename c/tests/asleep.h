/* Whether a thread of the process sleeps, as the system says. So a test waits for that, and not for a time in which a thread that is held up comes to
 * nothing. */
#ifndef ASLEEP_H
#define ASLEEP_H

#include <fcntl.h>
#include <stdbool.h>
#include <stdio.h>
#include <string.h>
#include <unistd.h>

/* Whether this thread sleeps in the system, or is gone. (0 is one that has not begun.) */
static inline bool is_asleep(pid_t task)
{
    char path[64], text[64] = "";
    snprintf(path, sizeof path, "/proc/self/task/%d/stat", (int)task);
    if (task == 0)
        return false;
    const int file = open(path, O_RDONLY | O_CLOEXEC);
    if (file < 0)
        return true;
    const bool is_read = read(file, text, sizeof text - 1) > 0;
    close(file);
    const char *state = strrchr(text, ')');
    return is_read && state != NULL && state[1] != '\0' && state[2] == 'S';
}

/* Waits until it sleeps. (It may sleep for a moment before it comes to what it waits for: so it is looked at twice, some ms apart.) */
static inline void wait_until_asleep(pid_t task)
{
    for (int look = 0; look < 2; look++) {
        usleep(5000);
        while (!is_asleep(task))
            usleep(1000);
    }
}

#endif
