/* Programs with a fault in what they call of POSIX. The main function of the program NAME is main_of_NAME. */
#define _GNU_SOURCE
#include "explored.h"

#include <pthread.h>
#include <semaphore.h>
#include <stdatomic.h>
#include <stdbool.h>
#include <unistd.h>

static pthread_mutex_t mutex = PTHREAD_MUTEX_INITIALIZER;

/* join_under_lock: Who joins a thread has the lock that the thread takes at its end. */

static pthread_rwlock_t lock = PTHREAD_RWLOCK_INITIALIZER;
static int rows;

static void *add_row(void *nothing)
{
    pthread_rwlock_wrlock(&lock);
    rows++;
    pthread_rwlock_unlock(&lock);
    return nothing;
}

int main_of_join_under_lock(void)
{
    pthread_t thread;
    pthread_create(&thread, NULL, add_row, NULL);
    pthread_rwlock_rdlock(&lock);
    const int seen = rows;
#ifdef FIX
    pthread_rwlock_unlock(&lock);
    pthread_join(thread, NULL);
#else
    pthread_join(thread, NULL);
    pthread_rwlock_unlock(&lock);
#endif
    EXPECT(seen == 0 || seen == 1);
    return 0;
}

/* lost_signal: A signal of a condition that nobody waits for yet is lost: who waits later looks at nothing first, and waits for good. */

static pthread_cond_t is_ready = PTHREAD_COND_INITIALIZER;
static bool ready;

static void *prepare(void *nothing)
{
    pthread_mutex_lock(&mutex);
    ready = true;
    pthread_cond_signal(&is_ready);
    pthread_mutex_unlock(&mutex);
    return nothing;
}

int main_of_lost_signal(void)
{
    pthread_t thread;
    pthread_create(&thread, NULL, prepare, NULL);
    pthread_mutex_lock(&mutex);
#ifdef FIX
    while (!ready)
#endif
        pthread_cond_wait(&is_ready, &mutex);
    EXPECT(ready);
    pthread_mutex_unlock(&mutex);
    pthread_join(thread, NULL);
    return 0;
}

/* one_post_short: Of three threads that meet, each posts for the two others: one that sees that it is the last posts for one alone. */

enum { THREADS = 3 };

static sem_t others;
static int come;

static void *meet(void *nothing)
{
    usleep(10);
    pthread_mutex_lock(&mutex);
    const int mine = ++come;
    pthread_mutex_unlock(&mutex);
    if (mine < THREADS) {
        sem_wait(&others);
    } else {
#ifdef FIX
        sem_post(&others);
#endif
        sem_post(&others);
    }
    return nothing;
}

int main_of_one_post_short(void)
{
    pthread_t threads[THREADS];
    sem_init(&others, 0, 0);
    for (int i = 0; i < THREADS; i++)
        pthread_create(&threads[i], NULL, meet, NULL);
    for (int i = 0; i < THREADS; i++)
        pthread_join(threads[i], NULL);
    EXPECT(sem_destroy(&others) == 0);
    return 0;
}
