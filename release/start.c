/* SPDX-License-Identifier: MIT OR Apache-2.0 */
/* How a program of a release begins: it looks at the processor, and then becomes ../libexec/ntwin/NAME beside its own folder, where NAME is its own
 * name. `-` among the words is standard input, and `--version` alone tells the version. */
#define _GNU_SOURCE
#include "nt.h"
#include "processor.h"

#include <limits.h>
#include <stdio.h>
#include <unistd.h>

/* Parts the path of this program into its folder and its name, which it returns. */
static const char *parted(char *path, size_t size)
{
    const ssize_t length = readlink("/proc/self/exe", path, size - 1);
    path[length < 0 ? 0 : length] = '\0';
    char *const slash = strrchr(path, '/');
    if (slash == NULL)
        return NULL;
    *slash = '\0';
    return slash + 1;
}

int main(int count, char **words)
{
    static char input[] = "/dev/stdin";
    char path[PATH_MAX], program[PATH_MAX + NAME_MAX + 32];
    const char *const name = parted(path, sizeof path);
    if (name == NULL) {
        say_of_processor("ntwin: /proc/self/exe does not say where this program is\n");
        return CANNOT_RUN;
    }
    end_without_v2(name);
    if (count == 2 && strcmp(words[1], "--version") == 0)
        return printf("%s %s\n", name, NT_VERSION) < 0 || fflush(stdout) != 0;
    for (int i = 1; i < count; i++)
        if (strcmp(words[i], "-") == 0)
            words[i] = input;
    snprintf(program, sizeof program, "%s/../libexec/ntwin/%s", path, name);
    execv(program, words);
    perror(program);
    return CANNOT_RUN;
}
