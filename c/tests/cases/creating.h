/* For cases that stand between the library and pthread_create: this program's own function is called in the system's place, also by a
 * library that it is linked with. */
#ifndef CREATING_H
#define CREATING_H

#include "case.h"

#include <dlfcn.h>

typedef int creation(pthread_t *thread, const pthread_attr_t *attributes, void *(*start)(void *), void *argument);

/* A sanitizer's, where that is a part of the program. */
extern creation __interceptor_pthread_create __attribute__((weak));

/* The system's pthread_create. */
static int create_by_system(pthread_t *thread, const pthread_attr_t *attributes, void *(*start)(void *), void *argument)
{
    creation *real = __interceptor_pthread_create;
    if (real == NULL)
        *(void **)&real = dlsym(RTLD_NEXT, "pthread_create");
    return real(thread, attributes, start, argument);
}

#endif
