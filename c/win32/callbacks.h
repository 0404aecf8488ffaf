/* SPDX-License-Identifier: MIT OR Apache-2.0 */
/* What crosses files of the thread pool, and of what calls back in it: a part of internal.h. */
#ifndef NTWIN_WIN32_CALLBACKS_H
#define NTWIN_WIN32_CALLBACKS_H

/* ---- pool.c */

/* How long who waits for a thread that was refused lets pass until the next try. A test may set less. */
#ifndef RETRY_MS
#define RETRY_MS 20
#endif

enum { USUAL_MAXIMUM = 64, WATCHES = 160, IDLE_MS = 60000, SIGNALED = 0, TIMED_OUT, OUTCOMES };

struct _TP_POOL {
    struct task *first, *last;   /* the queue */
    uint32_t waiting_callbacks;  /* of all tasks in it */
    uint32_t threads, idle, most, least;
    bool has_called;             /* an idle one was called, and has yet to come: it calls the next */
    uint32_t starting;           /* how many of the threads have who starts them still at it */
    uint32_t working;            /* how many have begun, and have not left */
    int32_t expected;            /* how many the system gave, less how many have ever begun: which may come first */
    uint32_t lacking;            /* how many it refused that the pool still wants */
    uint32_t tasks;              /* how many are there */
    _Atomic uint32_t calls;      /* how often a thread was called for: the word that idle ones sleep on */
    bool is_closed;
    PTP_POOL next;               /* among all pools */
};

/* What the program asks for that is done when a callback has returned. */
struct _TP_CALLBACK_INSTANCE {
    struct task *task;
    PTP_POOL pool;
    bool is_apart;               /* nobody waits for this callback any longer */
    HANDLE event, mutex, semaphore;
    DWORD count;
    PCRITICAL_SECTION section;
};

struct task {
    void (*call)(struct task *task, PTP_CALLBACK_INSTANCE instance, uint32_t outcome); /* calls the program's callback */
    void (*after)(struct task *task);  /* what the library does once a callback has ended, however it did; null for nothing */
    void (*end)(struct task *task);    /* frees it */
    PVOID context;
    PTP_POOL pool;
    struct task *next;           /* in the queue */
    uint32_t waiting[OUTCOMES];  /* how many callbacks are to come, by how it came to them */
    uint32_t running;
    bool is_queued, is_closed;
    uint32_t holders;            /* how many close it, and have it until its callbacks have ended */
    bool is_canceled;            /* callbacks of it were dropped as its group was closed */
    bool is_awaited;             /* its group has it until those of all have ended */
    _Atomic uint32_t ends;       /* how often it came to have none of either: the word that others sleep on */
    HANDLE done;                 /* an event that is set once it has none of either; null where there is none */
    PTP_CLEANUP_GROUP group;
    struct task *earlier, *later; /* in the group */
    PTP_CLEANUP_GROUP_CANCEL_CALLBACK cancel;
    void (*stop)(struct task *task); /* no callback comes any longer by itself, under the latch; null where none does */
    struct watch *watch;         /* what waits for its object; null where nothing does */
};

/* A thread that is called for: an idle one, or a new one, which is counted. That is decided under the latch, and done once the latch is given
 * back: the pool may be gone then, but where the thread is new. */
struct call {
    PTP_POOL pool;
    PVOID calls; /* the address of its word, where an idle one is to be woken; else null */
    bool is_new;
};

NTW_VARIABLE _Atomic uint32_t pools_latch;
NTW_VARIABLE struct _TP_POOL watching_pool;
NTW_VARIABLE struct _TP_POOL usual_pool;
NTW_VARIABLE PTP_POOL pools;
NTW_VARIABLE _Atomic uint32_t keeper_calls;
NTW_VARIABLE _Thread_local bool is_to_exit __attribute__((tls_model("initial-exec")));

NTW_INTERNAL uint32_t to_come(const struct task *task);
NTW_INTERNAL bool leave_pools(PTP_POOL pool);
NTW_INTERNAL uint32_t known_threads(const struct _TP_POOL *pool);
NTW_INTERNAL void count_new_thread(PTP_POOL pool);
NTW_INTERNAL bool start_in_pool(PTP_POOL pool);
NTW_INTERNAL PVOID call_idle_thread(PTP_POOL pool);
NTW_INTERNAL void wake_called(PVOID calls);
NTW_INTERNAL struct call call_for_thread(PTP_POOL pool);
NTW_INTERNAL bool bring_thread(struct call call);
NTW_INTERNAL bool bring_lacking(PTP_POOL pool);

/* ---- callbacks.c */

struct _TP_CLEANUP_GROUP {
    struct task *first;
    bool is_deleted;  /* it is a queue, and has no further timer; */
    bool is_closed;   /* it is gone once its last task has left it, */
    uint32_t awaited; /* or once none of so many has a callback any longer: then all of them are, too; */
    HANDLE done;      /* and then this event is set; null where there is none */
};

NTW_INTERNAL void submit(struct task *task);
NTW_INTERNAL struct task *take_members(PTP_CLEANUP_GROUP group);
NTW_INTERNAL bool is_without_callback(const struct task *task);
NTW_INTERNAL void settle_task(struct task *task);
NTW_INTERNAL void call_back(struct task *task, uint32_t outcome, bool in_thread);
NTW_INTERNAL bool try_to_submit(struct task *task);
NTW_INTERNAL DWORD WINAPI work_in_pool(LPVOID at);
NTW_INTERNAL bool is_ending(const struct task *task);
NTW_INTERNAL void hold_task(struct task *task);
NTW_INTERNAL void let_go_of_members(struct task *members);
NTW_INTERNAL bool cancel_callbacks(struct task *task);
NTW_INTERNAL void wait_for_task(struct task *task);
NTW_INTERNAL bool close_task(struct task *task, HANDLE done);
NTW_INTERNAL BOOL end_task(struct task *task, HANDLE event);

/* ---- pool_calls.c */

NTW_INTERNAL void *new_task(bool has_callback, size_t size);
NTW_INTERNAL bool open_task(struct task *task, PVOID context, PTP_CALLBACK_ENVIRON environment);
NTW_INTERNAL void free_task(struct task *task);
NTW_INTERNAL void end_group(PTP_CLEANUP_GROUP group);

/* ---- watch.c */

/* A wait for an object. It is a task of the pool of those that watch, and gone once it has ended. */
struct watch {
    struct task task;
    struct task *told;     /* whose callbacks come of it */
    HANDLE object;
    HANDLE stop;           /* an event: set once it is stopped */
    DWORD ms;
    uint64_t moment;       /* to which it waits at the longest, or NEVER */
    bool is_once, in_thread;
    bool has_told;         /* a callback came of it */
    bool is_stopped;       /* `told` is no longer touched */
};

NTW_INTERNAL DWORD ms_to(uint64_t moment);
NTW_INTERNAL uint64_t moment_of_time(const FILETIME *time);

/* ---- timers.c */

struct _TP_TIMER {
    struct task task;
    PTP_TIMER_CALLBACK callback;         /* one of the two */
    WAITORTIMERCALLBACK queue_callback;
    uint64_t due;
    DWORD period;                        /* in ms; 0 for none */
    size_t place;                        /* in the heap, from 1 on; 0 where it is not set */
    bool in_thread, is_over;
};

NTW_INTERNAL uint32_t keep_time(void);
NTW_INTERNAL void set_pool_timer(PTP_TIMER timer, uint64_t due, DWORD period);
NTW_INTERNAL PTP_TIMER make_timer(struct _TP_TIMER what, PVOID context, PTP_CALLBACK_ENVIRON environment);

#endif
