/* SPDX-License-Identifier: MIT OR Apache-2.0 */
/* ---- Threads and the process. */
#include "by_pointer.h"
#include "../win32/internal.h"
#include "../schedule/internal.h"

/* The id of the thread of CreateThread that has this seat. */
static DWORD id_of(const struct seat *seat)
{
    return (seat->number + 1) * 4;
}

/* The caller has this seat from now on. (A handler of signals may have called before, and taken another: that is left.) */
static void come_to_seat(struct seat *seat)
{
    own.joins = true;
    atomic_signal_fence(memory_order_seq_cst);
    if (own.seat != NULL) {
        leave(own.seat);
        own.has_left = false;
    }
    own.seat = seat;
    atomic_signal_fence(memory_order_seq_cst);
    own.joins = false;
}

static void *run_thread(void *at)
{
    jmp_buf end;
    struct seat *seat = at;
    come_to_seat(seat);
    if (by_schedule())
        begin_scheduled(seat);
    const bool leaves_by_key = pthread_setspecific(process.leaving, rounds) == 0;
    own.id = id_of(seat);
    seat->runner->thread = pthread_self();
    take_lock_for(seat);
    begin_life(seat, own.id);
    give_lock_for(seat);
    own.end = &end;
    if (_setjmp(end) == 0) {
        wait_to_begin(seat);
        /* (Those that were queued before it began.) */
        run_apcs(seat);
        seat->exit_code = seat->start(seat->parameter);
    }
    own.end = NULL;
    if (!leaves_by_key)
        leave(own.seat);
    return NULL;
}

/* Starts the thread of this seat. A stack that is smaller than usual is as large as usual, but where its size is what is reserved: what is
 * committed of it is the system's. Answers 0, or what pthread_create does. */
static int start_thread(struct seat *seat, SIZE_T stack, bool is_reserved)
{
    enum { GRAIN = 0x10000 };
    pthread_attr_t attributes;
    pthread_t thread;
    size_t usual;
    if (stack > SIZE_MAX - GRAIN)
        return ENOMEM;
    if (stack > 0 && stack < (SIZE_T)PTHREAD_STACK_MIN)
        stack = (SIZE_T)PTHREAD_STACK_MIN;
    pthread_attr_init(&attributes);
    pthread_attr_getstacksize(&attributes, &usual);
    if (is_reserved ? stack > 0 : stack > usual)
        pthread_attr_setstacksize(&attributes, (stack + GRAIN - 1) & ~(SIZE_T)(GRAIN - 1));
    if (by_schedule())
        schedule_thread(seat);
    const int error = pthread_create(&thread, &attributes, run_thread, seat);
    if (by_schedule() && error != 0)
        unschedule_thread(seat);
    pthread_attr_destroy(&attributes);
    may_switch_at(NULL);
    return error;
}

/* Takes a seat for a new thread, under the lock: its handle, a duplicate, is in the reply. Answers 0, or why not. */
static uint32_t seat_thread(struct seat *caller, struct seat **seat, struct nt_reply *reply)
{
    *seat = take_seat();
    if (*seat == NULL)
        return ERROR_NO_SYSTEM_RESOURCES;
    const uint32_t refused = nt_duplicate(&waiting.dispatcher, caller->number, (*seat)->handle, SYNCHRONIZE | THREAD_SET_CONTEXT, reply);
    if (refused != 0) {
        give_seat(*seat);
        return refused;
    }
    name_thread(reply->number, *seat);
    (*seat)->life.id = id_of(*seat);
    return 0;
}

/* What the system's part of a new thread is known by, under the lock: that of one that is gone, where there is one. Null if memory is refused. */
static struct runner *take_runner(void)
{
    struct runner *runner = join_those_who_are_gone();
    return runner != NULL ? runner : calloc(1, sizeof *runner);
}

HANDLE CreateThread(LPSECURITY_ATTRIBUTES attributes, SIZE_T stack, LPTHREAD_START_ROUTINE start, LPVOID parameter, DWORD flags,
                    LPDWORD id)
{
    struct nt_reply reply;
    struct seat *seat = NULL;
    (void)attributes;
    if (start == NULL || (flags & ~(CREATE_SUSPENDED | STACK_SIZE_PARAM_IS_A_RESERVATION)) != 0) {
        ntw_fail(ERROR_INVALID_PARAMETER);
        return NULL;
    }
    struct seat *caller = ntw_begin();
    if (caller == NULL)
        return NULL;
    struct runner *runner = take_runner();
    const uint32_t refused = runner != NULL ? seat_thread(caller, &seat, &reply) : ERROR_NOT_ENOUGH_MEMORY;
    HANDLE made = refused == 0 ? give_handle(reply.number) : NULL;
    if (!ntw_finish(caller, refused)) {
        free(runner);
        return NULL;
    }
    seat->runner = runner;
    seat->start = start;
    seat->parameter = parameter;
    seat->suspended = (flags & CREATE_SUSPENDED) != 0;
    /* The new thread may end before this call does, and with it what `id` points to. */
    if (id != NULL)
        *id = id_of(seat);
    if (start_thread(seat, stack, (flags & STACK_SIZE_PARAM_IS_A_RESERVATION) != 0) != 0) {
        lock(caller);
        const uint32_t unclosed = close_number(caller, reply.number);
        give_seat(seat);
        ntw_finish(caller, unclosed);
        free(runner);
        ntw_fail(NT_ERROR_NOT_ENOUGH_MEMORY);
        return NULL;
    }
    return made;
}

/* Returns where the caller runs on the thread's own stack; else it exits there (win32/fibers.c). */

/* As on Windows no destructor is called on the way, and no memory is needed, where CreateThread made the thread. */
void ExitThread(DWORD code)
{
    exit_by_own_stack(code);
    if (own.seat != NULL)
        own.seat->exit_code = code;
    if (own.end != NULL)
        _longjmp(*own.end, 1);
    pthread_exit(NULL);
}

HANDLE GetCurrentThread(void)
{
    return CURRENT_THREAD;
}

/* That of a thread that CreateThread did not make: of its number in the system, and odd. (In a child that was forked the thread that has kept its id may
 * have had that number in the parent, whose number it is no longer: then it is even, and no multiple of 4.) */
static DWORD id_by_system(void)
{
    const DWORD number = (DWORD)gettid(), id = number * 2 + 1;
    return id != process.kept ? id : number * 4 + 2;
}

/* It takes no seat for it. */
DWORD GetCurrentThreadId(void)
{
    if (own.id == 0)
        own.id = own.seat != NULL && own.seat->start != NULL ? id_of(own.seat) : id_by_system();
    return own.id;
}

HANDLE GetCurrentProcess(void)
{
    return CURRENT_PROCESS;
}

DWORD GetCurrentProcessId(void)
{
    return (DWORD)getpid();
}

BOOL TerminateProcess(HANDLE process, UINT code)
{
    if (process != CURRENT_PROCESS)
        return ntw_fail(ERROR_INVALID_HANDLE);
    _exit((int)code);
}

void ExitProcess(UINT code)
{
    exit((int)code);
}

/* ---- Handles. */

/* One handle more with the most rights that this one has: of the sets of rights, the first that is not refused for lack of one. */
static uint32_t duplicate_same_access(uint32_t caller, uint32_t number, struct nt_reply *reply)
{
    static const uint32_t most_first[] = {
        SYNCHRONIZE | NT_MODIFY_STATE | THREAD_SET_CONTEXT,
        SYNCHRONIZE | NT_MODIFY_STATE,
        SYNCHRONIZE | THREAD_SET_CONTEXT,
        NT_MODIFY_STATE | THREAD_SET_CONTEXT,
        SYNCHRONIZE,
        NT_MODIFY_STATE,
        THREAD_SET_CONTEXT,
        0,
    };
    uint32_t refused = NT_ERROR_ACCESS_DENIED;
    for (size_t i = 0; i < sizeof most_first / sizeof *most_first && refused == NT_ERROR_ACCESS_DENIED; i++)
        refused = nt_duplicate(&waiting.dispatcher, caller, number, most_first[i], reply);
    return refused;
}

BOOL DuplicateHandle(HANDLE from, HANDLE handle, HANDLE to, LPHANDLE duplicate, DWORD access, BOOL inherit, DWORD options)
{
    struct nt_reply reply;
    struct port *port = NULL;
    const bool closes = (options & DUPLICATE_CLOSE_SOURCE) != 0;
    (void)inherit;
    /* With nowhere to go the handle is closed, where that is asked for. */
    if (from == CURRENT_PROCESS && to == NULL && closes)
        return CloseHandle(handle);
    if (from != CURRENT_PROCESS || to != CURRENT_PROCESS)
        return ntw_fail(ERROR_INVALID_HANDLE);
    struct seat *seat = ntw_begin();
    if (seat == NULL)
        return FALSE;
    HANDLE made = NULL;
    const uint32_t number = waited_number_of(seat, handle);
    const bool is_same = (options & DUPLICATE_SAME_ACCESS) != 0 || (access & MAXIMUM_ALLOWED) != 0;
    const uint32_t refused = is_same ? duplicate_same_access(seat->number, number, &reply)
                                     : nt_duplicate(&waiting.dispatcher, seat->number, number, rights_of(kind_of(number), access), &reply);
    if (refused == 0) {
        made = give_handle(reply.number);
        waiting.kinds[reply.number] = (uint8_t)kind_of(number);
        name_same_thread(reply.number, number);
        if (number < NT_MAXIMUM_HANDLES && waiting.named[number] != NULL)
            note_named(waiting.named[number], reply.number);
        note_port(number, reply.number);
    }
    /* (That a duplicate is refused keeps no source open.) */
    if (closes && handle != CURRENT_THREAD && handle != CURRENT_PROCESS)
        close_programs_number(seat, number, &port);
    const BOOL is_made = ntw_finish(seat, refused);
    if (port != NULL)
        close_port(port);
    if (!is_made)
        return FALSE;
    if (duplicate != NULL)
        *duplicate = made;
    return TRUE;
}

BOOL CloseHandle(HANDLE handle)
{
    if (handle == CURRENT_PROCESS || handle == CURRENT_THREAD)
        return TRUE;
    struct port *port;
    struct seat *seat = ntw_begin();
    if (seat == NULL || !ntw_finish(seat, close_programs_number(seat, number_of(seat, handle), &port)))
        return FALSE;
    if (port != NULL)
        close_port(port);
    return TRUE;
}
