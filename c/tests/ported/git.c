/* Git's threads, mutexes, condition variables and keys: workers take numbers from a queue, as those of git grep do. */
#include "git-compat-util.h"
#include "thread-utils.h"

/* (That of compat/mingw.c stands among files and processes.) */
int err_win_to_posix(DWORD error)
{
    return error != 0 ? EAGAIN : 0;
}

enum { WORKERS = 8, NUMBERS = 100000, ROOM = 128 };

static pthread_mutex_t mutex;
static pthread_cond_t added, taken;
static pthread_key_t key;
static int queue[ROOM], first, count, is_over;

static void *work(void *unused)
{
    int64_t *sum = calloc(1, sizeof *sum);
    pthread_setspecific(key, sum);
    pthread_mutex_lock(&mutex);
    for (;;) {
        while (count == 0 && !is_over)
            pthread_cond_wait(&added, &mutex);
        if (count == 0)
            break;
        *(int64_t *)pthread_getspecific(key) += queue[first];
        first = (first + 1) % ROOM;
        count--;
        pthread_cond_signal(&taken);
    }
    pthread_mutex_unlock(&mutex);
    (void)unused;
    return pthread_getspecific(key);
}

int main(void)
{
    pthread_t workers[WORKERS];
    int64_t all = 0;
    pthread_mutex_init(&mutex, NULL);
    pthread_cond_init(&added, NULL);
    pthread_cond_init(&taken, NULL);
    pthread_key_create(&key, NULL);
    for (int i = 0; i < WORKERS; i++)
        if (pthread_create(&workers[i], NULL, work, NULL) != 0)
            return 1;
    pthread_mutex_lock(&mutex);
    for (int i = 0; i < NUMBERS; i++) {
        while (count == ROOM)
            pthread_cond_wait(&taken, &mutex);
        queue[(first + count++) % ROOM] = i;
        pthread_cond_signal(&added);
    }
    is_over = 1;
    pthread_cond_broadcast(&added);
    pthread_mutex_unlock(&mutex);
    for (int i = 0; i < WORKERS; i++) {
        void *sum = NULL;
        if (pthread_join(workers[i], &sum) != 0)
            return 1;
        all += *(int64_t *)sum;
    }
    printf("%d passed, %d failed\n", all == (int64_t)NUMBERS * (NUMBERS - 1) / 2, all != (int64_t)NUMBERS * (NUMBERS - 1) / 2);
    return 0;
}
