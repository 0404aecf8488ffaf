/* SPDX-License-Identifier: MIT OR Apache-2.0 */
/* What crosses files: types, variables and functions of this folder, by the file that has them. A comment stands where a function is defined, and
 * what is kept under the lock in inside.h. ../win32/internal.h and ../schedule/internal.h are such lists, too. */
#ifndef NTWIN_INTERNAL_H
#define NTWIN_INTERNAL_H

#include "inside.h"
#include "../schedule/own.h"
#include "../schedule/hooks.h"
#include "words_inl.h"

struct port;
struct given_name;

/* ---- words.c */

NTW_INTERNAL void sleep_among(_Atomic uint32_t *word, uint32_t seen, const struct timespec *until, uint32_t bits);
NTW_INTERNAL void sleep_on(_Atomic uint32_t *word, uint32_t seen, const struct timespec *until);
NTW_INTERNAL void wake_one(_Atomic uint32_t *word);

/* ---- times.c */

NTW_VARIABLE const int64_t unix_epoch;

NTW_INTERNAL BOOL ntw_fail(uint32_t refused);
NTW_INTERNAL uint64_t in_moments(const struct timespec *time);
NTW_INTERNAL uint64_t monotonic(void);
NTW_INTERNAL uint64_t coarsely(void);
NTW_INTERNAL struct timespec in_timespec(uint64_t time);
NTW_INTERNAL int64_t universal(void);
NTW_INTERNAL uint64_t present(void);
NTW_INTERNAL int64_t moment_of(int64_t time);

/* ---- journal.c */

enum {
    JOURNAL_STEP = 1 << 20, /* the bytes by which the file grows */
    BLANK_LINE = 2048,      /* so long is a blank line (and one that is broken off goes on to its end, which a reader has to stand) */
    LONGEST_LINE = 1024,    /* the bytes that are left for a line, and for one more that ends the journal */
    LONGEST_NAME = 64
};

struct journal {
    char *text;          /* null where no journal is written, or no longer */
    size_t length, room; /* of the text, and of what is mapped */
    int file;
    dev_t device;        /* which file that is: a program may close what it did not open */
    ino_t node;
};

struct quiet {
    sigset_t signals, before, pended;
};

NTW_VARIABLE struct journal journal;

NTW_INTERNAL void begin_quiet(struct quiet *it);
NTW_INTERNAL void end_quiet(struct quiet *it);
NTW_INTERNAL int beyond_streams(int file);
NTW_INTERNAL char *put_text(char *at, const char *text);
NTW_INTERNAL char *put_number(char *at, uint64_t number);
NTW_INTERNAL char *put_signed(char *at, int64_t number);
NTW_INTERNAL void end_line(char *at, char first);
NTW_INTERNAL void close_journal(void);
NTW_INTERNAL bool give_numbers_again(const char *why);
NTW_INTERNAL char *begin_line(void);
NTW_INTERNAL char *begin_call(uint32_t refused, uint32_t who, const char *word);
NTW_INTERNAL void end_call(uint32_t refused, char *at);
NTW_INTERNAL char *put_wait(char *at, uint32_t ms, bool alertable, const uint32_t *handles, size_t count);
NTW_INTERNAL void write_name(uint32_t number, const char *name);
NTW_INTERNAL void write_description(uint32_t number, const WCHAR *description);
NTW_INTERNAL int open_journal(const char *path);

/* ---- knots.c */

NTW_VARIABLE bool tells_knots;

NTW_INTERNAL void mark_those_over(bool over[NT_MANY_THREADS]);
NTW_INTERNAL void look_for_knot(void);

/* ---- noted.c */

enum deed { NOTHING_DONE, WAS_SET, WAS_RESET, WAS_PULSED, WAS_RELEASED, WAS_TAKEN };

struct noted {
    const void *place; /* where in the program that was called, or null */
    uint64_t when;     /* by the coarse clock */
    int64_t began;     /* when the thread began that called it, */
    uint16_t thread;   /* and its number, which may be another's by now */
    uint8_t deed;
    bool was_awaited;  /* somebody waited for the object as it was called */
    uint32_t ended;    /* how many waits it ended */
    int32_t count;     /* of a release: by how many */
    uint32_t waiters;  /* how many waits that pend name the object */
};

NTW_VARIABLE struct noted *noted;

NTW_INTERNAL void begin_noting(void);
NTW_INTERNAL void note_call(struct seat *caller);
NTW_INTERNAL void note_registers(struct seat *caller);
NTW_INTERNAL void note_deed(uint32_t refused, uint32_t handle, enum deed deed, int32_t count);
NTW_INTERNAL void note_signal(uint32_t refused, uint32_t handle);
NTW_INTERNAL void note_creation(uint32_t handle);
NTW_INTERNAL void note_answer(uint32_t refused, uint32_t thread, const uint32_t *handles, size_t count, bool all, const struct nt_reply *reply);
NTW_INTERNAL void note_ends(void);

/* ---- looked.c */

typedef uint32_t call_by_caller(struct nt *nt, uint32_t who, struct nt_reply *reply);

typedef uint32_t call_by_handle(struct nt *nt, uint32_t who, uint32_t handle, struct nt_reply *reply);

struct calls {
    call_by_caller *exit, *next_apc;
    call_by_handle *create_event, *create_mutex, *create_timer; /* (by flags) */
    call_by_handle *set_event, *reset_event, *pulse_event, *release_mutex, *cancel_timer, *close_handle;
    uint32_t (*create_semaphore)(struct nt *nt, uint32_t who, int32_t initial, int32_t maximum, struct nt_reply *reply);
    uint32_t (*release_semaphore)(struct nt *nt, uint32_t who, uint32_t semaphore, int32_t count, struct nt_reply *reply);
    uint32_t (*set_timer)(struct nt *nt, uint32_t who, uint32_t timer, int64_t due, int32_t period, struct nt_reply *reply);
    uint32_t (*set_timer_apc)(struct nt *nt, uint32_t who, uint32_t timer, int64_t due, int32_t period, uint64_t routine, uint64_t argument,
                              struct nt_reply *reply);
    uint32_t (*queue_apc)(struct nt *nt, uint32_t who, uint32_t thread, uint64_t routine, uint64_t argument, struct nt_reply *reply);
    uint32_t (*duplicate)(struct nt *nt, uint32_t who, uint32_t handle, uint32_t access, struct nt_reply *reply);
    uint32_t (*wait_objects)(struct nt *nt, uint32_t who, const uint32_t *handles, size_t count, bool all, uint32_t ms, bool alertable,
                             struct nt_reply *reply);
    uint32_t (*wait_object)(struct nt *nt, uint32_t who, uint32_t handle, uint32_t ms, bool alertable, struct nt_reply *reply);
    uint32_t (*sleep)(struct nt *nt, uint32_t who, uint32_t ms, bool alertable, struct nt_reply *reply);
    uint32_t (*swap)(struct nt *nt, uint32_t who, uint32_t signal, uint32_t object, uint32_t ms, bool alertable, struct nt_reply *reply);
    uint32_t (*tick)(struct nt *nt, uint64_t moment);
};

NTW_VARIABLE const struct calls looked_calls;
NTW_VARIABLE struct calls made_by;


/* ---- lock.c */

NTW_INTERNAL bool is_alone(void);
NTW_INTERNAL void set_takes_lock(struct seat *seat, bool takes);
NTW_INTERNAL void ask_for_barriers(void);
NTW_INTERNAL void take_lock(void);
NTW_INTERNAL bool take_lock_for(struct seat *caller);
NTW_INTERNAL void give_lock(void);
NTW_INTERNAL void give_lock_for(struct seat *caller);
NTW_INTERNAL bool take_lock_beside_calls(void);
NTW_INTERNAL void give_lock_beside_calls(bool refused);
NTW_INTERNAL bool take_lock_at_last(bool *refused);
NTW_INTERNAL bool is_free_in_child(void);

/* ---- dues.c */

NTW_INTERNAL uint64_t ntw_due_of(uint32_t object);
NTW_INTERNAL uint64_t first_minded(struct seat *seat);
NTW_INTERNAL void note_routine(struct seat *seat, uint32_t timer, bool has_routine);

/* ---- waiting.c */

/* What timers have to do with a wait that pends (inside.h). */
struct dues {
    bool watches, minds;
    uint64_t first;
};

NTW_INTERNAL void look_for_timers(void);
NTW_INTERNAL void stop_watching(struct seat *seat);
NTW_INTERNAL void ntw_note(struct seat *caller);
NTW_INTERNAL uint64_t pass_time(struct seat *caller);
NTW_INTERNAL void catch_up(struct seat *caller);
NTW_INTERNAL void see_to_the_overdue(struct seat *caller);
NTW_INTERNAL bool lock(struct seat *caller);
NTW_INTERNAL void unlock_and_wake(struct seat *caller);
NTW_INTERNAL void unlock_and_leave(struct seat *seat);
NTW_INTERNAL void note_and_unlock(struct seat *caller);
NTW_INTERNAL void note_timer(uint64_t now, uint64_t due);
NTW_INTERNAL DWORD sleep_until_granted(struct seat *seat, struct dues dues);

/* ---- threads.c */

/* For each round of the destructors that a thread runs as it ends, a value of its key. In the last but one it ends for the dispatcher, so
 * that its other destructors may still call, and have run when its handle is signaled. (The last one is the sanitizers'.) */
enum { LEAVING_ROUNDS = PTHREAD_DESTRUCTOR_ITERATIONS - 1 };

NTW_VARIABLE char rounds[LEAVING_ROUNDS];

NTW_INTERNAL void name_thread(uint32_t number, const struct seat *seat);
NTW_INTERNAL void renew_seats_to(const struct seat *seat);
NTW_INTERNAL struct seat *take_seat(void);
NTW_INTERNAL void give_seat(struct seat *seat);
NTW_INTERNAL void leave(struct seat *seat);
NTW_INTERNAL struct seat *ntw_join(void);
NTW_INTERNAL struct runner *join_those_who_are_gone(void);

/* ---- calls.c */

/* A call of the dispatcher that makes an object by its flags. */
typedef uint32_t creation(struct nt *nt, uint32_t who, uint32_t flags, struct nt_reply *reply);

/* What a creation asks for. */
struct wanted {
    enum kind kind;
    creation *make;         /* null for a semaphore, which has these two: */
    LONG initial, maximum;
    DWORD flags, known_flags;
    DWORD access;
    const void *place;      /* where in the program it was called */
};

NTW_INTERNAL HANDLE give_handle(uint32_t number);
NTW_INTERNAL uint32_t listed_number_of(HANDLE handle);
NTW_INTERNAL uint32_t unlocked_number_of(HANDLE handle);
NTW_INTERNAL uint32_t number_of(const struct seat *caller, HANDLE handle);
NTW_INTERNAL uint16_t thread_of(uint32_t number);
NTW_INTERNAL struct seat *seat_of(uint32_t number);
NTW_INTERNAL void name_same_thread(uint32_t number, uint32_t other);
NTW_INTERNAL enum kind kind_of(uint32_t number);
NTW_INTERNAL uint32_t close_number(struct seat *caller, uint32_t number);
NTW_INTERNAL uint32_t close_programs_number(struct seat *caller, uint32_t number, struct port **port);
NTW_INTERNAL DWORD rights_of(enum kind kind, DWORD access);
NTW_INTERNAL struct seat *ntw_begin(void);
NTW_INTERNAL BOOL ntw_finish(struct seat *seat, uint32_t refused);
NTW_INTERNAL BOOL end_look(struct seat *seat, uint32_t refused);
NTW_INTERNAL DWORD rights_asked(enum kind kind, DWORD access);
NTW_INTERNAL void note_made(uint32_t number, const void *place);
NTW_INTERNAL HANDLE finish_creation(struct seat *seat, uint32_t refused, const struct nt_reply *reply, DWORD error);
NTW_INTERNAL HANDLE ntw_create(const struct wanted *wanted, struct given_name given);

/* ---- objects.c */

NTW_INTERNAL HANDLE create_event(struct given_name name, DWORD flags, DWORD access);
NTW_INTERNAL DWORD event_flags(BOOL manual, BOOL set);
NTW_INTERNAL HANDLE create_semaphore(struct given_name name, LONG initial, LONG maximum, DWORD flags, DWORD access);
NTW_INTERNAL HANDLE create_mutex(struct given_name name, DWORD flags, DWORD access);
NTW_INTERNAL HANDLE create_timer(struct given_name name, DWORD flags, DWORD access);

/* ---- waits.c */

NTW_INTERNAL void run_apcs(struct seat *seat);
NTW_INTERNAL uint32_t waited_number_of(struct seat *seat, HANDLE handle);
NTW_INTERNAL DWORD wait_before_apcs(HANDLE object, DWORD ms, BOOL alertable);

/* ---- report.c */

struct report {
    char *letters;       /* they end with a zero; null where there are none */
    size_t length, room;
    bool failed;         /* memory was refused */
};

__attribute__((format(printf, 2, 3))) NTW_INTERNAL void ntw_add(struct report *to, const char *format, ...);
NTW_INTERNAL void add_text(struct report *to, const char *text);
NTW_INTERNAL void add_letter(struct report *to, char letter);
NTW_INTERNAL char *text_written_by(void (*write)(struct report *to, const char *from), const char *from);

/* ---- symbols.c */

enum { LONGEST_SYMBOL = 128, LONGEST_FILE_AND_LINE = 128, LONGEST_FILE = 256, HEADERS_AT_MOST = 64, NOTES_AT_MOST = 1024, SYMBOLS_AT_ONCE = 128 };

/* A place in the program. */
struct place {
    uintptr_t address;
    bool is_loaded;      /* it is in a file that was loaded, */
    uintptr_t base;      /* from which its addresses count, */
    char file[LONGEST_FILE]; /* and which is called so */
    uint64_t symbol;     /* where in the table of names its function's stands, while that is looked for, */
    uintptr_t begin;     /* and where the function begins, from the same base; 0 where it is not known */
    char function[LONGEST_SYMBOL];
    char line[LONGEST_FILE_AND_LINE]; /* file and line (lines.c), or empty */
};

/* All places of a report, by their addresses. */
struct places {
    struct place *of;
    size_t count, room;
};

/* What was loaded from a file, as the loader has it. (It is copied while the loader's lock is held: it may be unloaded after that.) */
struct loaded {
    uintptr_t address;    /* a place in it, by which it is found */
    uintptr_t base;
    char name[PATH_MAX];  /* empty for the program itself */
    size_t count;
    ElfW(Phdr) headers[HEADERS_AT_MOST];
    size_t notes;         /* the bytes of the notes in it, one after the other */
    char note[NOTES_AT_MOST];
};

NTW_INTERNAL bool ntw_is_in(const struct dl_phdr_info *info, uintptr_t address);
NTW_INTERNAL int find_loaded(struct dl_phdr_info *info, size_t size, void *at);
NTW_INTERNAL int find_file(struct dl_phdr_info *info, size_t size, void *at);
NTW_INTERNAL size_t first_place_from(const struct places *places, uintptr_t address);
NTW_INTERNAL bool read_functions(const struct loaded *loaded, const char *path, struct places *places);
NTW_INTERNAL const void *address_in(ElfW(Addr) base, ElfW(Addr) address);
NTW_INTERNAL void ask_loader(const struct loaded *loaded, struct places *places);

/* ---- stacks.c */

enum { STACK_COPIED = 8192, STACKS_AT_MOST = 256, CALLERS_AT_MOST = 3, FRAMES_AT_MOST = 16, REGISTERS = 17, AT_RBP = 6, AT_RSP = 7, AT_RETURN = 16 };

/* A thread's stack where its wait was called, from its stack pointer on. */
struct stack {
    struct registers registers;
    const void *waits_at;
    LPTHREAD_START_ROUTINE start; /* with which the thread began; or null */
    size_t count;                 /* of bytes that were copied */
    unsigned char bytes[STACK_COPIED];
};

NTW_INTERNAL void take_stack(const struct seat *seat, struct stack *it);
NTW_INTERNAL size_t find_callers(const struct stack *stack, uintptr_t callers[CALLERS_AT_MOST]);

/* ---- marks.c */

enum {
    MARK = 1,          /* of the place that comes right after a call, */
    MARK_OF_NAME = 2,  /* of where a function begins: for its name, after a space, or for nothing; */
    MARK_OF_STACKS = 3, /* of the copies of stacks, at the text's begin, */
    MARK_OF_STACK = 4  /* and of one of them, by its number: for who called there */
};

NTW_INTERNAL void write_name_of(struct report *to, const char *name);
NTW_INTERNAL void write_wide_name(struct report *to, const WCHAR *name);
NTW_INTERNAL void write_mark(struct report *to, char mark, uintptr_t place);
NTW_INTERNAL void write_thread(struct report *to, uint32_t number);
NTW_INTERNAL struct seat *seat_of_id(DWORD id);
NTW_INTERNAL void write_thread_of_id(struct report *to, DWORD id);
NTW_INTERNAL void write_place(struct report *to, const char *before, const void *place);

/* ---- deeds.c */

NTW_INTERNAL void write_deed(struct report *to, uint32_t number, const struct nt_object *object);

/* ---- why.c */

NTW_INTERNAL void write_all(struct report *to);

/* ---- lines.c */

enum { ASKED_AT_ONCE = 128, ADDRESS_LENGTH = 24, CHILD_STACK = 1 << 16, MOST_SECONDS = 5 };

NTW_INTERNAL void keep_path(void);
NTW_INTERNAL bool find_command(char path[PATH_MAX]);
NTW_INTERNAL void ask_for_lines(const char *command, const char *path, uintptr_t base, struct places *places, uint64_t end);

/* ---- places.c */

NTW_INTERNAL void write_with_callers(struct report *to, const char *text);
NTW_INTERNAL void write_with_places(struct report *to, const char *text);

/* ---- looking.c */

NTW_INTERNAL char *text_of_why(void);
NTW_INTERNAL void ntw_say(const char *text);

/* Why threads wait, under the lock, and telling that on standard error, without it (looking.c). */
NTW_INTERNAL char *text_of_knot(void);
NTW_INTERNAL void tell_knot(struct seat *caller, char *text);

/* The process forks: nobody tells meanwhile why threads wait. A child that was forked goes on without a journal, and without a thread that takes
 * SIGQUIT. */
NTW_INTERNAL void rest_from_telling(void);
NTW_INTERNAL void go_on_telling(void);
NTW_INTERNAL void stop_looking(void);

/* ---- check.c */

#ifdef CHECKS_WAITING
NTW_INTERNAL void check_waiting(void);
NTW_INTERNAL void check_told_nobody(void);
NTW_INTERNAL void check_unnamed(const struct seat *seat);
#else
static inline void check_waiting(void)
{
}
static inline void check_told_nobody(void)
{
}
static inline void check_unnamed(const struct seat *seat)
{
    (void)seat;
}
#endif

#endif
