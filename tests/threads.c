/* Counts the threads that a program starts: each writes a byte to descriptor 9. Preloaded by tests/threads. */
/* The C library, declared here, so that a machine without its headers can compile this. */
extern void *dlsym(void *, const char *);
extern long write(int, const void *, unsigned long);

typedef int starter(void *, const void *, void *(*)(void *), void *);

#define NEXT_LIBRARY ((void *)-1L)

int pthread_create(void *thread, const void *attributes, void *(*routine)(void *), void *argument)
{
    starter *start = (starter *)dlsym(NEXT_LIBRARY, "pthread_create");
    if (write(9, "1", 1) != 1)
        return 11 /* EAGAIN */;
    return start(thread, attributes, routine, argument);
}
