/* SPDX-License-Identifier: MIT OR Apache-2.0 */
/* What crosses files: types, variables and functions of this folder, by the file that has them (../ntwin/internal.h). */
#ifndef NTWIN_WIN32_INTERNAL_H
#define NTWIN_WIN32_INTERNAL_H

#include "../ntwin/internal.h"

struct task;
struct watch;
struct packet;
struct getter;

/* ---- life.c */

struct ending {
    _Atomic uint32_t has_left, code;
};

NTW_VARIABLE struct ending endings[NT_MANY_THREADS];

NTW_INTERNAL void name_task(pid_t task, PCWSTR description);
NTW_INTERNAL void begin_life(struct seat *seat, DWORD id);
NTW_INTERNAL uint64_t moments_used(struct timeval time);
NTW_INTERNAL void end_life(struct seat *seat);
NTW_INTERNAL void tell_ending(const struct seat *seat);
NTW_INTERNAL void renew_ending(const struct seat *seat);
NTW_INTERNAL void wait_to_begin(struct seat *seat);

/* ---- names.c */

struct named {
    struct named *next;     /* among those of one list */
    enum kind kind;
    uint32_t number;        /* of the handle that is kept */
    uint32_t handles;       /* how many a program has */
    WCHAR name[];
};

/* A name as a call gives it: one of these three, or none; and where in the program that call is. */
struct given_name {
    LPCSTR narrow;
    LPCWSTR wide;
    const uint16_t *utf16;
    const void *place;
};

/* A name, read from what a program gives, which has no prefix Local\. */
struct name {
    WCHAR text[MAX_PATH + 1];
};

#define NARROW(name) ((struct given_name){ .narrow = (name), .place = __builtin_return_address(0) })
#define WIDE(name) ((struct given_name){ .wide = (name), .place = __builtin_return_address(0) })
#define UTF16(name) ((struct given_name){ .utf16 = (name), .place = __builtin_return_address(0) })

NTW_INTERNAL bool has_name(struct given_name given);
NTW_INTERNAL bool is_named(struct given_name given);
NTW_INTERNAL uint32_t read_utf16(const uint16_t **at, const uint16_t *end);
NTW_INTERNAL uint32_t read_name(struct given_name given, struct name *name);
NTW_INTERNAL struct named **list_of_name(const WCHAR *name);
NTW_INTERNAL struct named *find_named(const WCHAR *name);
NTW_INTERNAL struct named *make_named(const struct name *name);
NTW_INTERNAL void note_named(struct named *named, uint32_t number);
NTW_INTERNAL void forget_named(struct seat *caller, uint32_t number);
NTW_INTERNAL uint32_t open_named(struct seat *seat, struct named *named, DWORD rights, struct nt_reply *reply);

/* ---- port_handles.c */

NTW_INTERNAL void note_port(uint32_t number, uint32_t other);
NTW_INTERNAL struct port *forget_port(uint32_t number);

/* ---- latch.c */

NTW_INTERNAL bool is_at_latch(void);
NTW_INTERNAL bool try_latch(_Atomic uint32_t *latch);
NTW_INTERNAL void take_latch(_Atomic uint32_t *latch);
NTW_INTERNAL void give_latch(_Atomic uint32_t *latch);
NTW_INTERNAL void wake_among(_Atomic uint32_t *word, int count, uint32_t bits);

/* ---- sleepers.c */

struct sleeper {
    struct sleeper *earlier, *later;
    LPCRITICAL_SECTION section; /* one of these two */
    PSRWLOCK lock;
    bool shares;                /* it wants to share that lock */
    DWORD id;
};

struct sleepers {
    _Atomic uint32_t latch;
    struct sleeper *first;
};

NTW_VARIABLE struct sleepers sleepers;

NTW_INTERNAL DWORD id_of_caller(void);
NTW_INTERNAL void note_sleeper(struct sleeper *it);
NTW_INTERNAL void forget_sleeper(struct sleeper *it);

/* ---- srw_lock.c */

#define SHARER 1u
#define SHARERS 0xFFFFu          /* these bits: how many share it, */
#define ALONE SHARERS            /* or one has it alone */
#define ALONE_WAITER 0x10000u
#define ALONE_WAITERS 0x7FFF0000u /* how many wait that want it alone, until they have it */
#define SHARERS_WAIT 0x80000000u

struct srw {
    _Atomic uint32_t state;
    uint32_t unused;
};

NTW_INTERNAL struct srw *ntw_srw_of(PSRWLOCK lock);
NTW_INTERNAL uint32_t state_of(struct srw *srw);

/* ---- parking.c */

enum { PARKING_LISTS = 256, AWAKENED_AT_ONCE = 64, UNPARKED = 0, PARKED = 1, LEAST_PAUSE = 64, MOST_PAUSE = 4096 };

/* Why a thread waits: told.c says so of each but those that are the library's own. */
enum why { ON_ADDRESS, ON_VARIABLE, AT_BARRIER, FOR_ONCE, FOR_CALLBACKS, OF_LIBRARY };

/* A thread's place in a list. It has one, since it waits at one address at a time. */
struct parked {
    _Atomic uint32_t word;         /* PARKED while it stands in a list, or UNPARKED */
    const volatile void *address;
    struct parked *earlier, *later;
    enum why why;
    DWORD id;
    uint32_t looks;                /* how often it looks at its word before it sleeps; */
    uint32_t pause, left;          /* how many waits lie between two tries whether looks help, and are left until the next */
};

struct parking {
    _Atomic uint32_t latch;
    _Atomic uint32_t count;        /* how many wait in this list, or are about to */
    struct parked *first, *last;
};

#ifndef own_place /* (A test may have threads of its own making.) */
NTW_VARIABLE _Thread_local struct parked own_place __attribute__((tls_model("initial-exec")));
#endif
NTW_VARIABLE struct parking parkings[PARKING_LISTS];

NTW_INTERNAL struct parking *parking_of(const volatile void *address);
NTW_INTERNAL void park(struct parking *parking, const volatile void *address, enum why why);
NTW_INTERNAL uint64_t moment_after(DWORD ms);
NTW_INTERNAL bool sleep_parked(struct parking *parking, uint64_t moment);
NTW_INTERNAL void unpark(const volatile void *address, uint32_t most);
NTW_INTERNAL BOOL wait_on(volatile void *address, const void *compare, SIZE_T size, DWORD ms, enum why why);

/* ---- barrier.c */

struct barrier {
    _Atomic uint32_t threads; /* how many it is for */
    _Atomic uint32_t come;    /* how many of them have come in this round */
    _Atomic uint64_t rounds;
    uint64_t unused;
    uint32_t looks;           /* how often a thread looks before it sleeps */
    _Atomic uint32_t inside;
};

/* ---- storage.c */

enum slot_kind { TLS, FLS, SLOT_KINDS };

enum { TLS_SLOTS = 1088, FLS_SLOTS = FLS_MAXIMUM_AVAILABLE, SLOTS_OF_A_BLOCK = 64, BLOCKS = 64 };

struct value {
    _Atomic uint32_t turn;
    _Atomic(PVOID) value;
};

/* What one thread has in its slots. */
struct storage {
    _Atomic(struct value *) blocks[SLOT_KINDS][BLOCKS];
    struct storage *earlier, *later;
};

struct storages {
    _Atomic uint32_t latch;
    struct storage *threads; /* all that have some */
    bool has_key;
    pthread_key_t leaving;
};

NTW_VARIABLE struct storages storages;
NTW_VARIABLE _Thread_local struct storage *storage __attribute__((tls_model("initial-exec")));
NTW_VARIABLE _Thread_local struct storage *storage_of_fiber __attribute__((tls_model("initial-exec")));

NTW_INTERNAL void list_storage(struct storage *made);
NTW_INTERNAL struct storage *make_storage(void);
NTW_INTERNAL bool hand_back_values(struct storage *of_thread);
NTW_INTERNAL void empty_storage(struct storage *it);

/* ---- open.c */

NTW_INTERNAL HANDLE open_by_name(enum kind kind, struct given_name given, DWORD access);

/* ---- threads.c */

NTW_INTERNAL struct seat *begin_with_thread(HANDLE handle, struct seat **caller);
NTW_INTERNAL const char *read_state(const char *path, char line[1024]);
NTW_INTERNAL void set_file_time(LPFILETIME to, uint64_t moments);
NTW_INTERNAL BOOL is_process(HANDLE handle);

/* ---- process.c */

NTW_VARIABLE _Atomic uint32_t handlers_latch;

/* ---- processors.c */

NTW_INTERNAL DWORD_PTR mask_of(long processors);
NTW_INTERNAL DWORD_PTR processors_here(void);

/* ---- fibers.c */

NTW_INTERNAL void exit_by_own_stack(DWORD code);
NTW_INTERNAL void end_fiber_of_thread(void);

#include "callbacks.h"

/* ---- ports.c */

struct port {
    struct packet *first, *last;
    struct getter *top;           /* the thread that came last */
    uint32_t running, most;       /* how many threads have a packet of it and do not sleep, and how many may */
    uint32_t handles;             /* under the dispatcher's lock */
    uint32_t users;               /* how many calls are in it, and threads have its packets */
    bool is_closed;
};

NTW_VARIABLE _Atomic uint32_t ports_latch;

NTW_INTERNAL uint32_t *handles_of_port(struct port *port);
NTW_INTERNAL void rest_with_packet(void);
NTW_INTERNAL void rest_beside_wait(struct seat *caller);
NTW_INTERNAL void go_on_with_packet(void);
NTW_INTERNAL void close_port(struct port *port);

/* ---- forked.c */

NTW_INTERNAL void forget_other_threads(DWORD caller);

/* ---- text.c */

NTW_INTERNAL int counted(int64_t count, int size);

/* ---- messages.c */

NTW_INTERNAL DWORD format_message(DWORD flags, DWORD error, void *buffer, DWORD size, size_t bytes);

/* ---- modules.c */

NTW_INTERNAL bool read_path(HMODULE module, char path[PATH_MAX]);
NTW_INTERNAL DWORD give_text(void *to, DWORD room, const void *text, size_t length, size_t bytes);

/* ---- told.c */

enum { TOLD_AT_MOST = 512 };

/* A thread that waits, with what was seen of what it waits for. */
struct told {
    DWORD id, owner; /* of a critical section; 0 where it has none just now */
    int depth;       /* how deep that owns it */
    char what[128];
};

struct told_all {
    struct told of[TOLD_AT_MOST];
    uint32_t count;
    bool is_whole;   /* all could be looked at */
};

/* Writes which thread that is. */
typedef void thread_writer(struct report *to, DWORD id);

NTW_VARIABLE struct told_all told_all;
NTW_VARIABLE pthread_mutex_t telling;

NTW_INTERNAL void look_at_sleepers(void);
NTW_INTERNAL DWORD held_by(DWORD id);
NTW_INTERNAL bool begins_knot(DWORD first);
NTW_INTERNAL void write_id(struct report *to, DWORD id);
NTW_INTERNAL void write_told(struct report *to, const struct told *it, thread_writer *write_thread);
NTW_INTERNAL void write_waits(struct report *to, const char *none);

#endif
