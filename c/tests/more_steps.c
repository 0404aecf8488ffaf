/* Critical sections, initializations, barriers and completion ports in pairs (pairs.h): what a program has freed, by all that it may know, is not touched
 * again, nobody waits in vain, and each packet is gotten once. */
#define TEST "more_steps.c"
#include "shared_page.h"

/* ---- Critical sections, initializations and barriers. */

static void enter_and_leave(void)
{
    EnterCriticalSection(&shared->section);
    LeaveCriticalSection(&shared->section);
}

static act *const wants_section = enter_and_leave;

/* (It is left by another thread than has entered it, of which the section knows nothing.) */
static void section_entered(void)
{
    InitializeCriticalSection(&shared->section);
    EnterCriticalSection(&shared->section);
}

static void section_entered_and_wanted(void)
{
    section_entered();
    begin_waiter(&wants_section);
}

static void leave_section(void)
{
    LeaveCriticalSection(&shared->section);
}

static void enter_and_delete(void)
{
    enter_and_leave();
    DeleteCriticalSection(&shared->section);
    free_shared();
}

static void enter_and_delete_after_waiter(void)
{
    enter_and_leave();
    end_waiter();
    DeleteCriticalSection(&shared->section);
    free_shared();
}

static LONG initializations, has_failed;

static BOOL CALLBACK initialize(PINIT_ONCE once, PVOID parameter, PVOID *context)
{
    (void)once;
    *context = (PVOID)(uintptr_t)8;
    InterlockedIncrement(&initializations);
    return parameter == NULL || InterlockedExchange(&has_failed, 1) == 1;
}

static void not_initialized(void)
{
    initializations = has_failed = 0;
}

static void initialize_once(void)
{
    PVOID context = NULL;
    must(InitOnceExecuteOnce(&shared->once, initialize, NULL, &context) && context == (PVOID)(uintptr_t)8);
}

static void was_initialized_once(void)
{
    must(initializations == 1);
}

/* The first initialization fails, whose ever that is. */
static void initialize_after_failure(void)
{
    InitOnceExecuteOnce(&shared->once, initialize, &has_failed, NULL);
}

static void was_initialized_twice(void)
{
    must(initializations == 2 || (initialize_after_failure(), initializations == 2));
}

static void barrier_of_two(void)
{
    must(InitializeSynchronizationBarrier(&shared->barrier, 2, 0));
}

static void enter_barrier(void)
{
    EnterSynchronizationBarrier(&shared->barrier, 0);
}

static void enter_barrier_twice(void)
{
    enter_barrier();
    enter_barrier();
}

/* Another thread has come to the barrier, and looks all the time whether it opens; then it comes once more. */
static void enter_barrier_twice_and_look(void)
{
    for (int i = 0; i < 2; i++)
        EnterSynchronizationBarrier(&shared->barrier, SYNCHRONIZATION_BARRIER_FLAGS_SPIN_ONLY);
}

static void barrier_of_two_with_one_inside(void)
{
    static act *const comes = enter_barrier_twice_and_look;
    struct barrier *const it = (struct barrier *)(void *)&shared->barrier;
    barrier_of_two();
    must(pthread_create(&waiter, NULL, run_act, (void *)(uintptr_t)&comes) == 0);
    while (atomic_load(&it->come) == 0)
        sched_yield();
}

static void enter_barrier_and_delete(void)
{
    enter_barrier();
    DeleteSynchronizationBarrier(&shared->barrier);
    free_shared();
}

static void sections_and_others(void)
{
    try_pair("LeaveCriticalSection", section_entered, leave_section, enter_and_delete, nothing, 5);
    try_pair("LeaveCriticalSection, wanted", section_entered_and_wanted, leave_section, enter_and_delete_after_waiter, nothing, 10);
    try_pair("InitOnceExecuteOnce", not_initialized, initialize_once, initialize_once, was_initialized_once, 30);
    try_pair("InitOnceExecuteOnce, of which the first fails", not_initialized, initialize_after_failure, initialize_after_failure,
             was_initialized_twice, 30);
    try_pair("EnterSynchronizationBarrier, which is then deleted", barrier_of_two, enter_barrier, enter_barrier_and_delete, nothing, 30);
    try_pair("EnterSynchronizationBarrier, as the last", barrier_of_two_with_one_inside, enter_barrier_twice, nothing, end_waiter, 30);
    try_pair("EnterSynchronizationBarrier", barrier_of_two, enter_barrier_twice, enter_barrier_twice, nothing, 30);
}

/* ---- Completion ports: each packet is gotten once, and nobody stays in a port. */

static HANDLE port, stepped_thread;
static LONG gotten, apcs;

static BOOL get_packet(DWORD ms)
{
    DWORD bytes;
    ULONG_PTR key;
    LPOVERLAPPED overlapped;
    return GetQueuedCompletionStatus(port, &bytes, &key, &overlapped, ms);
}

static void open_port(void)
{
    must((port = CreateIoCompletionPort(INVALID_HANDLE_VALUE, NULL, 0, 1)) != NULL);
    gotten = apcs = 0;
}

static void post_packet(void)
{
    must(PostQueuedCompletionStatus(port, 0, 0, NULL));
}

/* The thread that is stepped has its event, and a handle. */
static void ask_first(void)
{
    must(!get_packet(0) && DuplicateHandle(CURRENT_PROCESS, CURRENT_THREAD, CURRENT_PROCESS, &stepped_thread, 0, FALSE, DUPLICATE_SAME_ACCESS));
}

static void get_within_a_ms(void)
{
    gotten = get_packet(1);
}

static void CALLBACK count_apc(ULONG_PTR none)
{
    (void)none;
    apcs++;
}

static void get_beside_apcs(void)
{
    OVERLAPPED_ENTRY entry;
    ULONG removed;
    while (!GetQueuedCompletionStatusEx(port, &entry, 1, &removed, INFINITE, TRUE))
        must(GetLastError() == WAIT_IO_COMPLETION);
    gotten = TRUE;
    SleepEx(0, TRUE);
}

static void queue_apc_and_post(void)
{
    must(QueueUserAPC(count_apc, stepped_thread, 0));
    post_packet();
}

/* The packet was gotten, or is there to be gotten; then nobody has one, and nobody is in the port. */
static void close_port_of_one_packet(void)
{
    must(get_packet(0) == !gotten && !get_packet(0));
    must(waiting.ports[listed_number_of(port)]->users == 0 && waiting.ports[listed_number_of(port)]->running == 0);
    must(CloseHandle(port) && CloseHandle(stepped_thread));
}

static void close_port_after_apc(void)
{
    must(apcs == 1);
    close_port_of_one_packet();
}

static void open_port_with_two_packets(void)
{
    open_port();
    post_packet();
    post_packet();
}

/* The thread has the first packet, and so nobody gets the second before it ends. */
static void get_first(void)
{
    must(get_packet(0));
    must(DuplicateHandle(CURRENT_PROCESS, CURRENT_THREAD, CURRENT_PROCESS, &stepped_thread, 0, FALSE, DUPLICATE_SAME_ACCESS));
}

static void get_second(void)
{
    gotten = get_packet(INFINITE);
}

static void ports(void)
{
    stepped.before = ask_first;
    try_pair("GetQueuedCompletionStatus, for 1 ms", open_port, get_within_a_ms, post_packet, close_port_of_one_packet, 50);
    try_pair("GetQueuedCompletionStatusEx, alertable", open_port, get_beside_apcs, queue_apc_and_post, close_port_after_apc, 50);
    stepped.before = get_first;
    stepped.to_the_end = true;
    try_pair("the end of a thread with a packet", open_port_with_two_packets, nothing, get_second, close_port_of_one_packet, 30);
    stepped.to_the_end = false;
    stepped.before = NULL;
}

/* ---- A thread's exit code, which is read without the lock. */

static HANDLE ended;
static struct seat *place;

static DWORD WINAPI end_with(LPVOID code)
{
    return (DWORD)(uintptr_t)code;
}

/* A thread has ended with 7, and its handle is open. */
static void seven_has_ended(void)
{
    ended = CreateThread(NULL, 0, end_with, (LPVOID)7, 0, NULL);
    must(ended != NULL && WaitForSingleObject(ended, INFINITE) == WAIT_OBJECT_0);
    place = seat_of(listed_number_of(ended));
}

/* Its place is given to another, which ends with 8. (The first may get that of the stepped thread, which leaves where its call has ended.) */
static void another_ends_there(void)
{
    struct past *past = calloc(1, sizeof *past);
    HANDLE next[2];
    int count = 0;
    must(ntw_join() != NULL && past != NULL);
    take_lock();
    must(set_aside(place, past));
    renew_seats();
    give_lock();
    do
        must(count < 2 && (next[count] = CreateThread(NULL, 0, end_with, (LPVOID)8, 0, NULL)) != NULL);
    while (seat_of(listed_number_of(next[count++])) != place);
    while (count-- > 0)
        must(WaitForSingleObject(next[count], INFINITE) == WAIT_OBJECT_0 && CloseHandle(next[count]));
}

static void read_seven(void)
{
    DWORD code = 0;
    must(GetExitCodeThread(ended, &code) && code == 7);
}

static void close_ended(void)
{
    must(CloseHandle(ended));
}

/* A thread ends while another waits for it: who learns of its end finds its code. */
static struct seat *_Atomic waits_for_end;

static DWORD WINAPI wait_for_end(LPVOID thread)
{
    waits_for_end = own.seat;
    must(WaitForSingleObject(thread, INFINITE) == WAIT_OBJECT_0);
    return 0;
}

static HANDLE who_waits, who_ends;

static void begin_to_be_waited_for(void)
{
    must(DuplicateHandle(GetCurrentProcess(), GetCurrentThread(), GetCurrentProcess(), &who_ends, 0, FALSE, DUPLICATE_SAME_ACCESS));
    place = own.seat;
    place->exit_code = 9;
    who_waits = CreateThread(NULL, 0, wait_for_end, who_ends, 0, NULL);
    must(who_waits != NULL);
    for (struct nt_pending_wait wait; waits_for_end == NULL || nt_waits_for(&waiting.dispatcher, waits_for_end->number, &wait) != 0;)
        doze();
}

static void find_code_where_end_is_known(void)
{
    const bool is_known = atomic_load(&waits_for_end->word) == IS_GRANTED;
    must(!is_known || (endings[place->number].has_left && endings[place->number].code == 9));
}

static void end_to_wait(void)
{
    must(WaitForSingleObject(who_waits, INFINITE) == WAIT_OBJECT_0 && CloseHandle(who_waits));
    waits_for_end = NULL;
}

static void end_to_be_waited_for(void)
{
    end_to_wait();
    must(CloseHandle(who_ends));
}

/* The last handle of who ends is closed, and another may have its place, before it has woken who waits for it. */
static void another_begins_there(void)
{
    must(CloseHandle(who_ends));
    HANDLE next = CreateThread(NULL, 0, end_with, (LPVOID)8, 0, NULL);
    must(next != NULL && WaitForSingleObject(next, INFINITE) == WAIT_OBJECT_0 && CloseHandle(next));
}

static void come_in_first(void)
{
    must(ntw_join() != NULL);
}

static void exit_codes(void)
{
    stepped.before = come_in_first;
    try_pair("GetExitCodeThread, and the place is another's", seven_has_ended, read_seven, another_ends_there, close_ended, 10);
    is_of_lock = stepped.to_the_end = true;
    stepped.before = begin_to_be_waited_for;
    try_pair("a thread ends, and is waited for", nothing, nothing, find_code_where_end_is_known, end_to_be_waited_for, 100);
    try_pair("a thread ends, and its place is another's", nothing, nothing, another_begins_there, end_to_wait, 100);
    is_of_lock = stepped.to_the_end = false;
    stepped.before = NULL;
}

/* ---- The place of a thread that has ended is looked for, which is a look at each, only once nothing names the thread. */

static DWORD WINAPI end_after(LPVOID event)
{
    return WaitForSingleObject(event, INFINITE);
}

/* How often it was looked for since then, once no other thread has the lock. */
static long sought_since(long before)
{
    take_lock();
    const long sought = places_sought - before;
    give_lock();
    return sought;
}

/* A handle names the thread as it ends. */
static void place_of_who_ends_first(void)
{
    const long before = places_sought;
    seven_has_ended();
    IS(sought_since(before), 0);
    close_ended();
    IS(sought_since(before), 1);
    IS(waiting.spare == place, true);
}

static bool has_left(const struct seat *seat)
{
    take_lock();
    const bool is_spare = waiting.spare == seat;
    give_lock();
    return is_spare;
}

/* None does. */
static void place_of_who_ends_last(void)
{
    const long before = places_sought;
    HANDLE event = CreateEvent(NULL, TRUE, FALSE, NULL), thread = CreateThread(NULL, 0, end_after, event, 0, NULL);
    must(event != NULL && thread != NULL);
    place = seat_of(listed_number_of(thread));
    must(CloseHandle(thread));
    IS(sought_since(before), 0);
    must(SetEvent(event));
    while (!has_left(place))
        doze();
    IS(sought_since(before), 1);
    must(CloseHandle(event));
}

int main(void)
{
    begin_pairs();
    sections_and_others();
    ports();
    exit_codes();
    must(ntw_join() != NULL);
    place_of_who_ends_first();
    place_of_who_ends_last();
    return counted_checks();
}
