/* SPDX-License-Identifier: MIT OR Apache-2.0 */
/* What crosses files: types, variables and functions of this folder, by the file that has them (../ntwin/internal.h). What the other folders ask of
 * it is in hooks.h. */
#ifndef NTWIN_SCHEDULE_INTERNAL_H
#define NTWIN_SCHEDULE_INTERNAL_H

#include "../ntwin/internal.h"

struct blocked;

/* ---- calls.c */

NTW_INTERNAL void touch_object(uint32_t number);
NTW_INTERNAL void touch_numbers(void);
NTW_INTERNAL void touch_by_handle(uint32_t handle);
NTW_INTERNAL void touch_by_signal(uint32_t handle);
NTW_INTERNAL void touch_by_creation(void);
NTW_INTERNAL void touch_by_wait(uint32_t who, const uint32_t *handles, size_t count, bool alertable);
NTW_INTERNAL void touch_by_apc(uint32_t handle);
NTW_INTERNAL void touch_by_exit(uint32_t who);
NTW_INTERNAL void touch_by_tick(uint64_t moment);

#if !defined STRANDS_H && !defined HAS_NO_SCHEDULER

/* ---- run.c */

enum {
    MOST_SCHEDULED = 4096, /* threads in a run */
    NO_ONE = 0xFFFF,
    THE_CLOCK = 0xFFFE,    /* goes on: a deadline comes */
    MOST_DECISIONS = 1 << 18, /* of a run: which ends with the last of them, so that its file has all */
    DECISION_SLOTS = 1 << 19,
    MOST_CHANGES = 64,     /* of priorities, in a run */
    STEP_TAKES = 10,       /* in units of 100 ns */
    MOST_POINTS_IN_A_ROW = 2000,  /* points of one thread while others can go on, where chance or priorities decide */
    MOST_TOUCHED = 12      /* by a step: one that touches more is taken to touch all */
};

/* With which status the process ends. */
enum { WRONG_WORDS = 2, HAS_FAILED, BOUND_MET };

enum strategy { BY_CHANCE, BY_PRIORITY, BY_FILE, BY_TREE };

/* How a run ended. */
enum verdict { ENDED_WELL, HANGS, TIES_KNOT, NEVER_ENDS, STALLS, RACES, ENDS_BADLY, DOES_NOT_FIT, CANT_BE_EXPLORED, LEFT_OFF };

/* What a step touches (sleep_sets.c). */
struct touched {
    bool is_all;
    uint32_t count;
    uintptr_t what[MOST_TOUCHED];
};

/* A thread, as the scheduler knows it. */
struct scheduled {
    enum { CAN_GO_ON, IS_SLEEPING, IS_OVER } state;
    _Atomic uint32_t baton;       /* the word on which it waits for its turn */
    const _Atomic uint32_t *word; /* on which it sleeps, among these bits, */
    uint32_t bits;
    uint64_t until;               /* to this moment, or NEVER */
    uint64_t slept;               /* which sleep of all it is */
    uint64_t since;               /* when it could go on, and did not: the least of those that can has waited the longest */
    uint32_t number, seat;
    uint32_t ordinal;             /* how often it came to a point */
    uint32_t skips;               /* how many points to come are none */
    uint32_t idles;               /* how often it has yielded, or looked at the time, and did nothing else */
    int64_t priority;
    const volatile void *object;  /* for which it came to its last point, or null; */
    bool touches_all;             /* or it may touch anything from there on */
    bool rests;                   /* what it does next was tried, and touched this: */
    struct touched tried;
    bool is_choosing;             /* it is at a point: what a handler of signals calls then is none */
    bool was_woken;               /* its last sleep ended since another woke it, or what it waits for has come */
    const struct blocked *blocked; /* the call of POSIX in which it sleeps (posix.c), or null */
    pthread_t thread;
    int id;                       /* its number in the system */
    struct scheduled *next;       /* among those that come by themselves */
};

/* At its point of this ordinal, the thread has that one go on. */
struct decision {
    uint16_t thread, chosen;
    uint32_t ordinal;
};

/* What a run tells the process that makes it, and learns from it. */
struct shared_run {
    _Atomic uint64_t steps;
    uint32_t verdict, threads, preemptions;
    uint32_t made_count, wanted_count; /* decisions of the run, and those that it is to make */
    char text[1 << 16];                /* who waits for what, where that is the verdict */
    struct decision made[MOST_DECISIONS], wanted[MOST_DECISIONS];
};

/* A file that a run writes to, or of which the number is less than 0. (A program may close what it did not open, and have another file by that number.) */
struct output {
    int number;
    dev_t device;
    ino_t node;
};

struct schedule {
    enum strategy strategy;
    uint64_t seed, count;         /* of the first run, and how many runs; 0 where the process itself is the run */
    uint32_t depth, bound;
    uint64_t most_steps;
    double most_seconds;          /* without a step */
    uint64_t until;               /* when no further run begins, in ns; or NEVER */
    bool is_free;                 /* a deadline may come although threads could run */
    bool is_still;                /* a step takes no time, but where a thread yields or looks at it */
    bool leaves_off;              /* a search makes no run that differs from another in the order of steps alone that touch nothing in common */
    bool passes_races;            /* a race is no failure */
    char file[512];               /* of the decisions that are wanted, */
    char out[512], traced[512];   /* and to which decisions and steps are written; or empty */
    char progress[512];           /* and to which it is written how far the search is, */
    char ends[512];               /* and how each run of it ended */
    uint32_t part, parts;         /* of a search this part, and how many there are; or of 0, where it is the whole */
    struct shared_run *shared;
    bool has_maker, makes;        /* another process makes this run; this one makes runs */
    bool must_fit;                /* each decision that is wanted has to be possible, */
    uint32_t fitted;              /* and how many were made */
    uint32_t *wanted_at;          /* where each stands in `wanted`, from 1 on */
    uint64_t random[2];
    uint32_t habit;               /* how often chance leaves who calls */
    uint64_t changes[MOST_CHANGES], points;
    int64_t lowest;
    struct scheduled *made;       /* room for all, */
    _Atomic uint32_t made_count;
    struct scheduled **threads;   /* and those that take part */
    uint32_t threads_count, alive, in_a_row;
    uint32_t spent;               /* what its choices cost (tree.c) */
    struct touched touched, *step; /* by the step under way, and where the search keeps that; or null */
    bool is_unsaid;               /* the step is a call of the dispatcher, which has not said what it touches */
    uint64_t now, sleeps, turns;
    uint64_t ended;               /* when the process began to end, by the system's clock; or 0 */
    char turns_file[512];         /* to which it is written what a run does to its turns (told.c); or empty */
    struct output turns_told;     /* that file */
    struct output trace;          /* a file of its steps, from this one on */
    uint64_t trace_from;
    pthread_key_t ending;
};

NTW_VARIABLE struct schedule schedule;
NTW_VARIABLE _Thread_local struct scheduled *me __attribute__((tls_model("initial-exec")));
NTW_VARIABLE _Thread_local bool is_beyond __attribute__((tls_model("initial-exec")));

NTW_INTERNAL uint64_t any_number(void);
NTW_INTERNAL void seed_chance(uint64_t seed);
NTW_INTERNAL const char *words_of(uint32_t verdict);
NTW_INTERNAL void say_of_run(uint32_t verdict);
__attribute__((noreturn)) NTW_INTERNAL void end_run(enum verdict verdict, char *text);
__attribute__((noreturn, format(printf, 2, 3))) NTW_INTERNAL void end_run_saying(enum verdict verdict, const char *format, ...);

/* ---- told.c */

NTW_INTERNAL struct output open_output(const char *path, int flags);
NTW_INTERNAL void write_to(const struct output *it, const char *text, size_t length);
__attribute__((format(printf, 1, 2))) NTW_INTERNAL void tell_turns(const char *format, ...);
NTW_INTERNAL void tell_of_run(void);
NTW_INTERNAL void tell_of_sleep(const struct scheduled *it);
NTW_INTERNAL void tell_of_woken(const void *word, const struct scheduled *it, bool among_all);
NTW_INTERNAL void tell_of_turn(enum point point, uint32_t chosen, bool is_decided);

/* ---- turns.c */

/* Those whose beginning the scheduler did not see, in the order in which they came. */
struct arrivals {
    pthread_mutex_t turn;
    struct scheduled *first, **last;
    _Atomic uint32_t count;
};

/* How the threads stand: how many can go on, and the next deadline of one that sleeps. */
struct stand {
    uint32_t ready;
    uint64_t deadline;
};

NTW_VARIABLE struct arrivals arrivals;
NTW_VARIABLE char ending_rounds[PTHREAD_DESTRUCTOR_ITERATIONS];

NTW_INTERNAL void wait_for_baton(struct scheduled *it);
NTW_INTERNAL void hand_baton(struct scheduled *it);
NTW_INTERNAL void number_thread(struct scheduled *it);
NTW_INTERNAL void end_thread(struct scheduled *it);
NTW_INTERNAL struct scheduled *make_thread(void);
NTW_INTERNAL void admit_arrivals(void);
NTW_INTERNAL bool awaits_arrival(bool caller_has_ended);
NTW_INTERNAL void take_part(struct scheduled *it);
NTW_INTERNAL void come_by_itself(void);
NTW_INTERNAL bool can_go_on(uint32_t number);
NTW_INTERNAL void let_go_on(struct scheduled *it);
NTW_INTERNAL struct stand look_round(void);
NTW_INTERNAL uint32_t next_in_turn(void);
NTW_INTERNAL uint32_t usual_choice(enum point point, const struct stand *stand);

/* ---- sleep_sets.c */

NTW_INTERNAL void touch_own(void);
NTW_INTERNAL bool begin_leaving_off(void);
NTW_INTERNAL void end_step(enum point point);
NTW_INTERNAL void stop_resting(void);
NTW_INTERNAL void let_rest(uint32_t thread, const struct touched *touched);
NTW_INTERNAL bool does_rest(uint32_t thread);
__attribute__((noreturn)) NTW_INTERNAL void leave_run_off(void);

/* ---- strategies.c */

NTW_INTERNAL void list_wanted(void);
NTW_INTERNAL void put_decision(char text[48], const struct decision *it);
NTW_INTERNAL void look_whether_all_fitted(void);
NTW_INTERNAL uint32_t ntw_decide(enum point point, uint32_t usual, const struct stand *stand);

/* ---- points.c */

/* A place, and the file it is in. */
struct module {
    uintptr_t place, offset;
    const char *name;
};

NTW_INTERNAL int find_module(struct dl_phdr_info *info, size_t size, void *at);
NTW_INTERNAL void hand_on(enum point point);
NTW_INTERNAL bool is_apart(void);
NTW_INTERNAL uint64_t real_moment(void);
NTW_INTERNAL void end_scheduled(void *round);

/* ---- posix.c */

NTW_VARIABLE const uint64_t since_1970;

NTW_INTERNAL bool is_in_run(void);
NTW_INTERNAL bool comes_from_program(void);
NTW_INTERNAL bool comes_to(const volatile void *object);
NTW_INTERNAL bool has_come_for(const struct scheduled *it);
NTW_INTERNAL bool sleep_by_bits(const struct blocked *blocked, uint64_t until, uint32_t bits);
NTW_INTERNAL bool sleep_in(const struct blocked *blocked, uint64_t until);
NTW_INTERNAL bool has_points(void);
NTW_INTERNAL void tell_before(const void *object);
NTW_INTERNAL void tell_after(const void *object);
NTW_INTERNAL void wake_at(const void *object, int count);
NTW_INTERNAL bool is_time(const struct timespec *time);
NTW_INTERNAL bool is_clock_of_run(clockid_t clock);
NTW_INTERNAL bool is_since_1970(clockid_t clock);
NTW_INTERNAL uint64_t moment_by(clockid_t clock, const struct timespec *time);
NTW_INTERNAL uint64_t moment_in(const struct timespec *time);

/* ---- posix_files.c */

NTW_INTERNAL bool has_input(const void *at);
NTW_INTERNAL bool awaits_outside(void);

/* ---- posix_told.c */

NTW_INTERNAL void write_place_in(struct report *to, const void *place);
NTW_INTERNAL char *text_of_waits(void);

/* ---- memory.c */

NTW_INTERNAL bool follows_races(void);
NTW_INTERNAL void begin_in_memory(const struct scheduled *it);
NTW_INTERNAL void begin_memory(void);

/* ---- stand_in.c */

typedef void function(void);

NTW_INTERNAL void stand_in_for_all(void);

/* ---- decisions.c */

NTW_INTERNAL void say_unwritten(const char *path);
NTW_INTERNAL void write_decisions(const char *path);
__attribute__((noreturn, format(printf, 1, 2))) NTW_INTERNAL void ntw_refuse(const char *format, ...);
NTW_INTERNAL void read_decisions(const char *path);

/* ---- runs.c */

struct maker {
    int output;         /* a file in memory: what the last run wrote, */
    int status;         /* how it ended */
    sigset_t before;    /* signals that were blocked before runs were made */
    struct sigaction at_child;
    pid_t id;
};

NTW_VARIABLE struct maker maker;
NTW_VARIABLE jmp_buf program;

NTW_INTERNAL uint64_t real_ns(void);
NTW_INTERNAL double seconds_since(uint64_t ns);
NTW_INTERNAL void begin_run(void);
NTW_INTERNAL uint32_t make_run(bool is_last);
NTW_INTERNAL void begin_making(void);

/* ---- progress.c */

NTW_INTERNAL void begin_progress(void);
NTW_INTERNAL void tell_progress(uint64_t runs, uint64_t longest, double (*share)(void));
NTW_INTERNAL void end_progress(void);

/* ---- failure.c */

NTW_INTERNAL void write_end(int to);
NTW_INTERNAL void begin_trace(void);
__attribute__((noreturn)) NTW_INTERNAL void tell_failure(const char *name, uint64_t number, uint64_t began);

/* ---- tree.c */

/* The most threads to explore, with the clock; choices of a run; and steps that were tried at them. */
enum { IN_MASK = 62, MOST_NODES = 1 << 18, MOST_TRIED = 1 << 18, MOST_BOUND = 1 << 30 };

/* A choice. */
struct node {
    uint64_t ready;              /* who could go on: bit IN_MASK is the clock */
    uint64_t resting;            /* who of these rested */
    uint16_t came, usual, chosen;
    uint8_t point;
    uint32_t spent;              /* what the choices before it cost */
    struct touched touched;      /* by the step that was chosen: all, before that has ended */
};

/* A step that was tried at a choice of the path before the one that was chosen there, and what it touched. */
struct tried {
    uint32_t at;
    uint16_t thread;
    struct touched touched;
};

struct tree {
    uint32_t count, prefix;      /* how many choices the run had, and how many of them were asked for: */
    bool is_cut;                 /* it had more */
    uint32_t tried_count;        /* by the choices at which they were tried */
    uint16_t asked[MOST_NODES];
    struct node nodes[MOST_NODES];
    struct tried tried[MOST_TRIED];
};

NTW_VARIABLE struct tree *tree;

NTW_INTERNAL uint32_t by_tree(enum point point, uint32_t usual, bool may_jump);
__attribute__((noreturn)) NTW_INTERNAL void explore(uint32_t bound);

/* ---- asked.c */

NTW_INTERNAL void *reserve(size_t size, int how);

#endif

#endif
