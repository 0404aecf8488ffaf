/* Two or three threads make the calls that the words say: the first word is how the threads are made, and then there is one for each thread, main
 * first, with a letter and an object's number for each call. What a thread's calls answer stands in its own line, wherever the run ends. */
#define _GNU_SOURCE
#include "../explored.h"
#include <pthread.h>
#include <semaphore.h>
#include <stdbool.h>
#include <string.h>
#include <unistd.h>

enum { THREADS = 3, OBJECTS = 2, LINE = 24 };

static HANDLE events[OBJECTS], mutexes[OBJECTS], semaphore, threads[THREADS];
static CRITICAL_SECTION sections[OBJECTS];
static SRWLOCK lock = SRWLOCK_INIT;
static CONDITION_VARIABLE variable = CONDITION_VARIABLE_INIT;
static INIT_ONCE once = INIT_ONCE_STATIC_INIT;
static SLIST_HEADER list;
static SLIST_ENTRY entries[THREADS][LINE];
static pthread_mutex_t posix_mutexes[OBJECTS] = { PTHREAD_MUTEX_INITIALIZER, PTHREAD_MUTEX_INITIALIZER };
static pthread_cond_t condition = PTHREAD_COND_INITIALIZER;
static pthread_rwlock_t readers_lock = PTHREAD_RWLOCK_INITIALIZER;
static sem_t posix_semaphore;
static pthread_t posix_threads[THREADS];
static bool are_of_posix;
static int count;
static char **scripts;

/* What a thread has, and where it writes. */
static _Thread_local int who, written, sections_had[OBJECTS], posix_had[OBJECTS], has_lock, shares_lock, has_readers_lock;

static void answer(char letter)
{
    if (pwrite(1, &letter, 1, who * LINE + written++) != 1)
        abort();
}

/* One letter for each status of a wait. */
static char letter_of(DWORD status)
{
    if (status == WAIT_TIMEOUT || status == WAIT_IO_COMPLETION || status == WAIT_FAILED)
        return status == WAIT_TIMEOUT ? 't' : status == WAIT_FAILED ? 'f' : 'i';
    return (char)(status >= WAIT_ABANDONED_0 ? 'a' + (int)(status - WAIT_ABANDONED_0) : '0' + (int)status);
}

static void CALLBACK note_apc(ULONG_PTR from)
{
    answer((char)('A' + (int)from));
}

static BOOL CALLBACK make_once(PINIT_ONCE at, PVOID unused, PVOID *context)
{
    UNUSED(at);
    UNUSED(unused);
    SetEvent(events[1]);
    *context = (PVOID)(intptr_t)(who * 4 + 4);
    return TRUE;
}

/* The thread of this number, or main: the handle of one that is made later may not be there yet, and that no call would order. */
static HANDLE thread_at(int number)
{
    if (number == who)
        return GetCurrentThread();
    return threads[who == 0 || number < who ? number : 0];
}

static void call_on_objects(char letter, int it)
{
    const HANDLE all[] = { events[0], semaphore }, any[] = { events[it], mutexes[0], semaphore };
    LONG before = 9;
    switch (letter) {
    case 's': SetEvent(events[it]); break;
    case 'r': ResetEvent(events[it]); break;
    case 'p': PulseEvent(events[it]); break;
    case 'w': answer(letter_of(WaitForSingleObject(events[it], INFINITE))); break;
    case 't': answer(letter_of(WaitForSingleObject(events[it], 0))); break;
    case 'T': answer(letter_of(WaitForSingleObject(events[it], 5))); break;
    case 'b': answer(letter_of(WaitForSingleObjectEx(events[it], INFINITE, TRUE))); break;
    case 'm': answer(letter_of(WaitForSingleObject(mutexes[it], INFINITE))); break;
    case 'M': answer(letter_of(WaitForSingleObject(mutexes[it], 0))); break;
    case 'u': answer(ReleaseMutex(mutexes[it]) ? 'y' : 'n'); break;
    case 'x': answer(ReleaseSemaphore(semaphore, 1, &before) ? (char)('0' + before) : 'n'); break;
    case 'y': answer(letter_of(WaitForSingleObject(semaphore, it == 0 ? 0 : INFINITE))); break;
    case 'a': answer(letter_of(WaitForMultipleObjects(3, any, FALSE, INFINITE))); break;
    case 'A': answer(letter_of(WaitForMultipleObjects(2, all, TRUE, it == 0 ? INFINITE : 3))); break;
    case 'z': answer(letter_of(SignalObjectAndWait(events[it], events[1 - it], INFINITE, FALSE))); break;
    case 'n': answer(QueueUserAPC(note_apc, thread_at((who + 1 + it) % count), (ULONG_PTR)who) != 0 ? 'y' : 'n'); break;
    case 'N': answer(letter_of(SleepEx(it == 0 ? 0 : 2, TRUE))); break;
    default: break;
    }
}

static void call_on_locks(char letter, int it)
{
    PVOID context = NULL;
    switch (letter) {
    case 'c': EnterCriticalSection(&sections[it]); sections_had[it]++; break;
    case 'C': answer(TryEnterCriticalSection(&sections[it]) ? (sections_had[it]++, 'y') : 'n'); break;
    case 'l': if (sections_had[it] > 0) (sections_had[it]--, LeaveCriticalSection(&sections[it])); break;
    case 'v': if (sections_had[0] == 1) answer(SleepConditionVariableCS(&variable, &sections[0], it == 0 ? INFINITE : 4) ? 'y' : 'n'); break;
    case 'V': (it == 0 ? WakeConditionVariable : WakeAllConditionVariable)(&variable); break;
    case 'h': if (!has_lock && !shares_lock) (AcquireSRWLockShared(&lock), shares_lock = 1); break;
    case 'H': if (!has_lock && !shares_lock) (AcquireSRWLockExclusive(&lock), has_lock = 1); break;
    case 'j': if (!has_lock && !shares_lock) answer(TryAcquireSRWLockExclusive(&lock) ? (has_lock = 1, 'y') : 'n'); break;
    case 'J':
        if (has_lock || shares_lock)
            (has_lock ? ReleaseSRWLockExclusive : ReleaseSRWLockShared)(&lock);
        has_lock = shares_lock = 0;
        break;
    case 'I': InitOnceExecuteOnce(&once, make_once, NULL, &context); answer((char)('0' + (intptr_t)context / 4)); break;
    case 'i': InterlockedPushEntrySList(&list, &entries[who][written]); answer((char)('0' + QueryDepthSList(&list))); break;
    default: break;
    }
}

static void call_posix(char letter, int it)
{
    switch (letter) {
    case 'q': if (!posix_had[it]) posix_had[it] = pthread_mutex_lock(&posix_mutexes[it]) == 0; break;
    case 'Q': if (!posix_had[it]) answer((posix_had[it] = pthread_mutex_trylock(&posix_mutexes[it]) == 0) ? 'y' : 'n'); break;
    case 'k': if (posix_had[it]) posix_had[it] = pthread_mutex_unlock(&posix_mutexes[it]); break;
    case 'd': if (posix_had[0]) answer(pthread_cond_wait(&condition, &posix_mutexes[0]) == 0 ? 'y' : 'n'); break;
    case 'D': (it == 0 ? pthread_cond_signal : pthread_cond_broadcast)(&condition); break;
    case 'o': sem_post(&posix_semaphore); break;
    case 'O': answer(sem_trywait(&posix_semaphore) == 0 ? 'y' : 'n'); break;
    case 'P': sem_wait(&posix_semaphore); break;
    case 'R': if (!has_readers_lock) has_readers_lock = (it == 0 ? pthread_rwlock_rdlock : pthread_rwlock_wrlock)(&readers_lock) == 0; break;
    case 'L': if (has_readers_lock) has_readers_lock = pthread_rwlock_unlock(&readers_lock); break;
    case 'S': usleep(3); break;
    case 'Y': SwitchToThread(); break;
    default: break;
    }
}

static void call_all(int number)
{
    who = number;
    for (const char *at = scripts[number]; at[0] != 0; at += 2) {
        const int it = at[1] - '0';
        DWORD code = 0;
        call_on_objects(at[0], it);
        call_on_locks(at[0], it);
        call_posix(at[0], it);
        if (at[0] == 'K')
            answer((char)('a' + (int)((uintptr_t)CreateEventA(NULL, FALSE, FALSE, NULL) >> 2) % 26));
        if (at[0] == 'U')
            answer(GetExitCodeThread(thread_at((number + 1) % count), &code) && code == STILL_ACTIVE ? 'y' : 'n');
        if (at[0] == 'X')
            exit(3);
    }
    answer('.');
}

static DWORD WINAPI run(LPVOID number)
{
    call_all((int)(intptr_t)number);
    return 0;
}

static void *run_of_posix(void *number)
{
    call_all((int)(intptr_t)number);
    return NULL;
}

static void begin_all(void)
{
    DuplicateHandle(GetCurrentProcess(), GetCurrentThread(), GetCurrentProcess(), &threads[0], 0, FALSE, DUPLICATE_SAME_ACCESS);
    for (int i = 1; i < count; i++) {
        if (are_of_posix)
            pthread_create(&posix_threads[i], NULL, run_of_posix, (void *)(intptr_t)i);
        else
            threads[i] = begin(run, (LPVOID)(intptr_t)i);
    }
}

static void end_all(void)
{
    for (int i = 1; i < count && are_of_posix; i++)
        pthread_join(posix_threads[i], NULL);
    if (!are_of_posix)
        await_all(threads + 1, (DWORD)count - 1);
    for (int i = 0; i < OBJECTS; i++) {
        answer(letter_of(WaitForSingleObject(events[i], 0)));
        answer(letter_of(WaitForSingleObject(mutexes[i], 0)));
    }
    while (WaitForSingleObject(semaphore, 0) == WAIT_OBJECT_0)
        answer('+');
}

int main(int words, char **at)
{
    char empty[THREADS * LINE];
    memset(empty, ' ', sizeof empty);
    for (int i = 1; i <= THREADS; i++)
        empty[i * LINE - 1] = '\n';
    if (pwrite(1, empty, sizeof empty, 0) != (ssize_t)sizeof empty)
        abort();
    are_of_posix = words > 1 && strcmp(at[1], "posix") == 0;
    count = words - 2 <= THREADS ? words - 2 : THREADS;
    scripts = at + 2;
    sem_init(&posix_semaphore, 0, 0);
    InitializeSListHead(&list);
    semaphore = CreateSemaphoreA(NULL, 0, 2, NULL);
    for (int i = 0; i < OBJECTS; i++) {
        events[i] = CreateEventA(NULL, i == 1, FALSE, NULL);
        mutexes[i] = CreateMutexA(NULL, FALSE, NULL);
        InitializeCriticalSection(&sections[i]);
    }
    begin_all();
    call_all(0);
    end_all();
    return 0;
}
