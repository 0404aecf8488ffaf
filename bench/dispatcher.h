/* A dispatcher written by hand in plain C, as a peer for the front and for the library for C programs: real threads, one lock, hand-over
   in order, a word for each thread on which it sleeps, and a journal. It has what a call needs to be judged: callers, kinds, counts,
   owners, no object named twice.

   It has events, semaphores, mutexes, timers and thread objects, waits for any or for all of up to 64 of them without a timeout or with
   0, ticks, and exits that abandon mutexes. It lacks handles with rights, closing, APCs, deadlines, swap and pulse, and proves nothing.
   Objects are named by number: those of the threads come first. */
#ifndef DISPATCHER_H
#define DISPATCHER_H
#include <stdbool.h>
#include <stddef.h>
#include <stdint.h>

enum { MOST_HANDLES = 64 };
enum { DONE = 0, TIMEOUT = 0x102, PENDED = -1, REFUSED = -2, FULL = -3, MEMORY = -4 };
#define INFINITE UINT32_MAX

enum call { CREATE, SET, RESET, RELEASE, UNLOCK, ARM, WAIT, EXIT, TICK, GRANT };

/* One row of the journal: what was called, or which wait was granted, and the answer. A wait for several objects has their numbers in
   the rows after it, so many a row. `object` is what the call names; of a creation the kind, and of a wait for several, their count. */
struct row {
    uint8_t call;
    bool all, several;
    uint16_t who;
    uint32_t object;
    int32_t count, answer;
    uint64_t moment;
};
enum { HANDLES_A_ROW = sizeof(struct row) / sizeof(uint32_t), MOST_ROWS = 1 + (MOST_HANDLES + HANDLES_A_ROW - 1) / HANDLES_A_ROW };

struct dispatcher;

/* A dispatcher of n threads; without a journal where it has room for 0 rows, without a lock where it is for one caller. */
struct dispatcher *open_dispatcher(uint32_t threads, size_t rows, bool locked);
void close_dispatcher(struct dispatcher *d);

/* How many releases of semaphores the journal has that were accepted. */
uint64_t count_releases(const struct dispatcher *d);

int create_event(struct dispatcher *d, uint32_t who, bool manual);
int create_semaphore(struct dispatcher *d, uint32_t who, int32_t count, int32_t maximum);
int create_mutex(struct dispatcher *d, uint32_t who);
int create_timer(struct dispatcher *d, uint32_t who, bool manual);
int set_event(struct dispatcher *d, uint32_t who, uint32_t event);
int reset_event(struct dispatcher *d, uint32_t who, uint32_t event);
int release_semaphore(struct dispatcher *d, uint32_t who, uint32_t semaphore, int32_t count);
int release_mutex(struct dispatcher *d, uint32_t who, uint32_t mutex);
int arm_timer(struct dispatcher *d, uint32_t who, uint32_t timer, uint64_t due, uint64_t period);
int exit_thread(struct dispatcher *d, uint32_t who);
int tick(struct dispatcher *d, uint32_t who, uint64_t moment);

/* A wait answers its status, or PENDED where it pends and the caller does not sleep; then a poll tells whether it was granted. */
int wait_objects(struct dispatcher *d, uint32_t who, const uint32_t *handles, uint32_t count, bool all, uint32_t ms, bool sleeps);
int poll_wait(struct dispatcher *d, uint32_t who);
#endif
