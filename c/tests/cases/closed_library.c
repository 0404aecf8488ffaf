/* Within 10 s, not linked: 3 passed, 0 failed.
 *
 * A program opens the shared library, a thread calls it, the program closes it, and then the thread ends. */
#include "case.h"

#include <dlfcn.h>

typedef HANDLE event_creation(LPSECURITY_ATTRIBUTES attributes, BOOL manual, BOOL set, LPCSTR name);

static event_creation *create_event;
static LONG has_called, is_closed_now;

static void *run(void *unused)
{
    (void)unused;
    IS(create_event(NULL, FALSE, FALSE, NULL) != NULL, 1);
    raise_flag(&has_called);
    await(&is_closed_now);
    return NULL;
}

int main(int count, char **words)
{
    pthread_t thread;
    must(count == 2);
    void *library = dlopen(words[1], RTLD_NOW | RTLD_LOCAL);
    must(library != NULL);
    *(void **)&create_event = dlsym(library, "CreateEventA");
    must(create_event != NULL);
    must(pthread_create(&thread, NULL, run, NULL) == 0);
    await(&has_called);
    IS(dlclose(library), 0);
    raise_flag(&is_closed_now);
    IS(pthread_join(thread, NULL), 0);
    return counted();
}
