/* SPDX-License-Identifier: MIT OR Apache-2.0 */
/* How a program of a release begins, by the linker's --wrap. A glibc before 2.34 calls a program's constructors by the function that it is given here
 * alone, which what the compiler links programs with no longer has; a later one calls that function in the place of them. */
typedef int begins(int, char **, char **);
typedef void constructor(int, char **, char **);

int __real___libc_start_main(begins *, int, char **, constructor *, void (*)(void), void (*)(void), void *);
int __wrap___libc_start_main(begins *, int, char **, constructor *, void (*)(void), void (*)(void), void *);

extern constructor *const __init_array_start[] __attribute__((visibility("hidden")));
extern constructor *const __init_array_end[] __attribute__((visibility("hidden")));

static void construct(int count, char **words, char **environment)
{
    for (constructor *const *it = __init_array_start; it != __init_array_end; it++)
        (*it)(count, words, environment);
}

int __wrap___libc_start_main(begins *run, int count, char **words, constructor *first, void (*last)(void), void (*unload)(void), void *stack)
{
    return __real___libc_start_main(run, count, words, first != 0 ? first : construct, last, unload, stack);
}
