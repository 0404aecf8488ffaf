/* SPDX-License-Identifier: MIT OR Apache-2.0 */
/* What the parts of ntwin.c share: a thread's seat, and all that is kept, with what always holds of it. */
#ifndef NTWIN_INSIDE_H
#define NTWIN_INSIDE_H

#ifndef _GNU_SOURCE
#define _GNU_SOURCE
#endif

/* What crosses files and is no call of the library. In the one unit that ntwin.c makes of all files it is static: so no inner name meets one of a
 * program's, and the short ones are written in line. A file by itself compiles, too, for whatever reads one at a time: there it is a hidden name. */
#ifdef NTWIN_ONE_UNIT
#define NTW_INTERNAL static
#define NTW_VARIABLE static /* (in a header: a variable that some file defines) */
#define NTW_INLINE static inline
#define NTW_ALWAYS_INLINE __attribute__((always_inline)) static inline
#else
#define NTW_INTERNAL __attribute__((visibility("hidden")))
#define NTW_VARIABLE extern NTW_INTERNAL
#define NTW_INLINE NTW_INTERNAL
#define NTW_ALWAYS_INLINE NTW_INTERNAL
#endif

#include "../ntwin.h"
#include "../nt.h"
#include "../win/windows.h"
#include "../win/process.h"
#include "script_words.h"

/* (The calls themselves, and not what a program makes of them by win/counts.h.) */
#undef CreateSemaphoreA
#undef CreateSemaphoreW
#undef CreateSemaphoreExA
#undef CreateSemaphoreExW
#undef ReleaseSemaphore

#include <dlfcn.h>
#include <errno.h>
#include <fcntl.h>
#include <limits.h>
#include <link.h>
#include <linux/futex.h>
#include <linux/membarrier.h>
#include <poll.h>
#include <pthread.h>
#include <sched.h>
#include <setjmp.h>
#include <signal.h>
#include <stdarg.h>
#include <stdatomic.h>
#include <stdio.h>
#include <stdlib.h>
#include <string.h>
#include <strings.h>
#include <sys/file.h>
#include <sys/mman.h>
#include <sys/resource.h>
#include <sys/stat.h>
#include <sys/syscall.h>
#include <sys/sysinfo.h>
#include <sys/uio.h>
#include <sys/wait.h>
#include <time.h>
#include <unistd.h>
#include <wchar.h>

#if defined __has_include
#if __has_include(<sys/single_threaded.h>)
#include <sys/single_threaded.h>
#ifdef NTWIN_FOR_OLDER_GLIBC /* (of which one before 2.32 lacks it: release/make) */
#pragma weak __libc_single_threaded
#define TELLS_WHETHER_ALONE (&__libc_single_threaded != NULL)
#else
#define TELLS_WHETHER_ALONE true
#endif
#endif
#endif

/* The steps of the protocols of `nt_protocols`, by name. A test tells them as a trace (tests/schedules/trace.h); else these are nothing at all. */
#ifndef STEP
#define STEP(protocol, word, ...) ((void)0)               /* the thread's last step on this word; null: it does nothing on any */
#define STEP_OF(seat, protocol, word, ...) ((void)0)      /* the same, the first of what this seat's thread does */
#define STEP_OF_LEAVER(protocol, word, ...) ((void)0)     /* the same of a thread that ends: its seat may be another's before its last step */
#define STEP_NEXT(seat) ((void)0)                         /* this seat's thread is to take the lock */
#define STEP_AS(protocol, name, other) ((void)0)          /* the thread's next step of this name is that other one */
#define STEP_BEYOND(protocol, ...) ((void)0)              /* another thread has passed a barrier: no step if it is the same thread */
#define STEP_ON(address, protocol, word, ...) ((void)0)   /* the same, the first of what the thread does for this address */
#define TO_SLEEP(protocol, word, ...) ((void)0)           /* the names of what may become of the thread's next sleep on this word */
#define TO_WAKE(protocol, word, ...) ((void)0)            /* and of its next wake-up: that it wakes one, or nobody */
#endif

/* How often a thread looks before it sleeps. A test may set less. */
#ifndef LOOKS_AT_LOCK
#define LOOKS_AT_LOCK 40   /* at the lock: about as long as falling asleep and waking take */
#define LOOKS_AT_WORD 1000 /* at its own word: longer than a thread that sleeps takes to wake */
#define WAITS_PER_TRY 4096 /* of this number of waits, of all threads together, 2 try again whether looks help */
#endif

/* How often in a row a thread takes the lock before that favours it, at the least and at the most, and how often it takes it then so that this pays
 * (lock.c). A test may set less. */
#ifndef LEAST_PATIENCE
#define LEAST_PATIENCE 64
#define MOST_PATIENCE 65536
#define TURNS_THAT_PAY 8192
#endif

/* How many timers with a routine a thread minds by itself. A test may set less. */
#ifndef MINDED_AT_MOST
#define MINDED_AT_MOST 16
#endif

enum {
    TRIES = 2,
    MOMENTS_OF_LOOKS = 1000, /* what LOOKS_AT_WORD take at the most, in units of 100 ns */
    NO_HANDLE = 0xFFFFFF,    /* a number that no handle has */
    IS_CLOSED = 1,           /* of a handle that the program had: it names nothing */
    MOMENTS_PER_SECOND = 10000000,
    NANOSECONDS_PER_MOMENT = 100
};

#define CURRENT_PROCESS ((HANDLE)(intptr_t)-1)
#define CURRENT_THREAD ((HANDLE)(intptr_t)-2)
#define NEVER UINT64_MAX /* in the place of a moment */

/* The lock is free, taken, or taken and wanted by threads that may sleep on it; or it favours the thread of a seat, whose number is added (lock.c). */
enum { FREE, TAKEN, WANTED, FAVOURS };

/* How the wait of a thread stands. */
enum {
    IS_AWAKE,  /* the thread looks at its word */
    IS_ASLEEP, /* it sleeps on it */
    IS_CALLED, /* it is to look at the time */
    IS_GRANTED
};

/* Facts about a thread that have no effect on waiting. */
struct life {
    DWORD id;                /* as GetCurrentThreadId answers it */
    pid_t task;              /* the system's number of it */
    int priority;
    uint8_t boost;           /* whether waits raise its priority (win32/threads.c) */
    uint8_t ideal;           /* 1 more than the processor on which it is to run; 0 where it has none */
    WCHAR *description;      /* null where there is none */
    int64_t began, ended;    /* in UTC */
    uint64_t used[2];        /* how long it ran, once it has ended, in units of 100 ns: as the program, and in the system */
};

/* A thread of CreateThread, as the system has it. It may run on for a while once it has left its seat. */
struct runner {
    pthread_t thread;
    struct runner *next;     /* among those that have left */
};

/* Where a thread was in the program as its wait began to pend, with those registers by which its callers are found (stacks.c). */
struct registers {
    uintptr_t place, stack, saved[6]; /* saved: rbx, rbp, and r12 to r15 */
};

/* How many sleeping threads a call wakes once it has given the lock back. */
enum { WOKEN_LATER = 64 };

/* A thread's place in the dispatcher. Once the thread has left and no handle names it any longer, the seat is another thread's. */
struct seat {
    _Atomic uint32_t word;   /* how its wait stands: written by others under the lock */
    _Atomic uint32_t inside; /* not 0 while it has the lock as the one that this favours, or looks whether it has (lock.c) */
    uint32_t turns;          /* how often it has had it so in a row */
    _Atomic bool takes;      /* it takes the lock as all do, or has it so: a handler of signals that interrupted it must not wait for it */
    uint32_t status;         /* with which status it was granted */
    uint32_t number;         /* the thread's, which is also the seat's place among all */
    uint32_t handle;         /* the number of its own handle, which no program sees */
    struct nt_reply reply;   /* what its last call was answered */
    struct nt_told told;     /* the last of those that its last call named */
    uint64_t moment;         /* to which it sleeps by itself where its wait pends: NEVER until that is known; 0 where it was called */
    uint64_t timer_due;      /* when the first of the timers that it wakes for is due (dues.c): it sleeps no longer than to then; or NEVER */
    bool watches;            /* its wait pends, and a timer may end it for which it may not wake by itself */
    bool minds;              /* its wait pends, is alertable, and these timers with its routines may end it: */
    uint32_t minded;         /* how many */
    uint32_t timers[MINDED_AT_MOST];
    bool is_gone;            /* it was canceled as it waited, and never wakes */
    bool has_more_routines;  /* it has set more timers with a routine than it minds */
    LPTHREAD_START_ROUTINE start; /* null, but where CreateThread made the thread */
    LPVOID parameter;
    _Atomic uint32_t suspended; /* how often the thread, which has not begun, is suspended */
    bool has_left;           /* it has ended, with this exit code: */
    DWORD exit_code;
    struct life life;        /* what its handles answer (win32/threads.c) */
    struct runner *runner;   /* of a thread of CreateThread that has not left */
    struct seat *next;       /* among the spare seats */
    uint32_t looks;          /* how often it looks at its word before it sleeps: 0 where that was in vain of late */
    const void *waits_at;    /* where in the program its last wait that pended was called, */
    const void *calls_at;    /* and the call under way, where that is noted (noted.c); */
    struct registers registers; /* and its registers then */
    bool tells;              /* its call has tied a knot, of which it tells as it gives the lock back */
    uint32_t woken[WOKEN_LATER]; /* the first of the threads that its call found asleep and has to wake, by their numbers */
};

/* What is known of a thread that has ended, once its place is another's: its seat as it was, for the handles that still name the thread. */
struct past {
    struct seat seat;
    uint32_t handles; /* how many these are */
};

/* Kinds of objects, for what the dispatcher's handles do not tell: the rights that generic ones stand for, and which waits timers may end. */
enum kind { KIND_THREAD, KIND_EVENT, KIND_SEMAPHORE, KIND_MUTEX, KIND_TIMER, KIND_PROCESS, KIND_PORT };

/* What a thread finds of its own with no call, also where this is a shared library. (A test may have threads of its own making.) */
struct own {
    struct seat *seat; /* null before its first call, and once it has left */
    bool has_left;
    bool joins;        /* it takes its seat */
    DWORD last_error;
    DWORD id;          /* 0 until it was asked for */
    jmp_buf *end;      /* where ExitThread goes to, in a thread of CreateThread */
    struct port *port; /* the completion port whose packet it has; null before it got one, and once it asks for the next */
    bool rests;        /* it sleeps with that packet, and does not count among those that run */
    bool has_turn;     /* it forks, and nobody tells meanwhile why threads wait */
    DWORD mark;        /* its id once it has entered a critical section, by which it enters the next; 0 where a sanitizer learns of each */
    volatile uint32_t latches; /* how many latches it has, or waits for, which its handlers of signals read (win32/latch.c) */
    volatile uint32_t calls;   /* how many threads of pools it has called, and has yet to wake; its handlers read that, too (win32/pool.c) */
};
#ifndef own
NTW_VARIABLE _Thread_local struct own own __attribute__((tls_model("initial-exec")));
#endif

/* What is written as the dispatcher is opened, by one thread at a time, and as the process forks. */
struct process {
    pthread_mutex_t opening;
    bool is_open;
    bool has_key;
    pthread_key_t leaving;  /* its value in a thread: at which round of its destructors the thread is */
    pid_t id;
    bool looks;             /* threads look at a word before they sleep on it: there are several processors */
    bool has_barriers;      /* a thread can make each other pass a barrier, so the lock may favour one (lock.c). Written under the lock, once several run */
    DWORD kept;             /* in a child that was forked the id of who forked, which has that still, or 0 */
    bool is_forked;         /* this is a child of a process with threads that are not here, */
    struct runner *lost;    /* these among them */
    uint64_t start;         /* the dispatcher's moment 0, on the monotonic clock */
};
NTW_VARIABLE struct process process;

/* What is kept under the lock. Whenever that is given back, this holds (check.c):
 *   - as many waits pend in the dispatcher as `pending` says, and the word of none of their threads is IS_GRANTED;
 *   - each of their threads sleeps by itself no longer than to its own deadline, but one that was canceled as it waited;
 *   - the watchers are threads whose waits pend, and as many as `watchers` says;
 *   - where there are watchers, some thread sleeps no longer than to the next moment at which anything is due;
 *   - who minds timers sleeps no longer than to the first of them, and some thread no longer than to `kept_to`;
 *   - no timer is due before `timers_due`;
 *   - nobody is left to be woken: `wakes` is 0. */
struct waiting {
    _Atomic uint32_t lock;
    uint32_t turn;           /* the seat whose thread took the lock last, but not as the favoured one, */
    uint32_t turns_left;     /* how often more it has to take it, with no other between, until the lock favours it, */
    uint32_t patience;       /* and how often that is from the first time on */
    uint32_t pending;
    uint32_t wakes;          /* how many threads who has the lock wakes once it has given that back: they stand in its seat */
    uint64_t timers_due;     /* NEVER where no timer is set */
    uint64_t kept_to;        /* to which moment a thread sleeps that minds timers, or NEVER: nothing is overdue before it looks at the time */
    uint32_t watchers;       /* how many of them a timer may end, for which their threads may not wake by themselves */
    uint32_t begun;          /* how many waits have begun to pend */
    uint32_t seated;         /* how many seats were ever taken */
    uint32_t alive;          /* how many of their threads have not left */
    uint32_t ended;          /* how many have left, and a handle or a wait named them when that was looked at last */
    struct seat *spare;      /* seats that are free again */
    uint32_t tried;          /* which seat was looked at last for a place to give again */
    struct runner *left;     /* threads of CreateThread that have left and are not joined */
    uint32_t process_handle; /* the number of an event that is never set, which stands for the process; NO_HANDLE before that is waited for */
    struct nt dispatcher;
    bool gives_once;         /* the dispatcher gives each number once, since a journal is kept, or was until the numbers ran out */
    uint32_t places;         /* how many threads the dispatcher has */
    struct seat seats[NT_MANY_THREADS];
    uint32_t given[NT_MAXIMUM_HANDLES]; /* by number the program's handle, or that which was closed last, marked so (calls.c); */
    uint8_t kinds[NT_MAXIMUM_HANDLES]; /* of what each number names, or named last; */
    uint16_t threads[NT_MAXIMUM_HANDLES]; /* where that is a thread, which one; */
    struct past *pasts[NT_MAXIMUM_HANDLES]; /* where its place is another's, what is known of it; else null; */
    struct named *named[NT_MAXIMUM_HANDLES]; /* where it has a name, which; else null; */
    struct port *ports[NT_MAXIMUM_HANDLES]; /* where it is a completion port, which; else null */
    uint16_t minders[NT_MAXIMUM_HANDLES]; /* of a timer, by its own number: the seat, from 1 on, whose thread set it last, with a routine; or 0 */
    const void *made_at[NT_MAXIMUM_HANDLES]; /* of an object, by its own number: where in the program it was created, or null; */
    char *called[NT_MAXIMUM_HANDLES];  /* and how ntwin_name calls it, or null */
};
NTW_VARIABLE struct waiting waiting;

#endif
