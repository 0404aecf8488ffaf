/* A random program: what a thread may do next. It is a part of schedules.c. */

static void act(void);

/* An object, and whether a wait for it is short: as long as it takes, that would be for good. */
static HANDLE any_object(bool *is_short)
{
    const uint32_t which = below(12);
    *is_short |= which >= 6 && which <= 7;
    if (which < 4)
        return program.events[below(EVENTS)];
    if (which < 6)
        return program.semaphores[below(SEMAPHORES)];
    if (which < 8)
        return program.mutexes[below(MUTEXES)];
    if (which < 10 || program.made == 0)
        return program.timers[below(TIMERS)];
    *is_short = true;
    return program.threads[below(program.made)];
}

static DWORD any_time(bool is_short)
{
    const DWORD times[] = { 0, 1, 2, 2, below(6), below(200), is_short ? 3 : INFINITE, is_short ? 10 : below(3) != 0 ? INFINITE : INFINITE - 1 };
    return times[below(sizeof times / sizeof *times)];
}

static void run_apc_of_program(ULONG_PTR acts)
{
    const uint32_t me = own.seat->number;
    sums.apcs++;
    if (expected[me].apcs >= APC_DEPTH)
        return;
    expected[me].apcs++;
    for (; acts > 0; acts--)
        act();
    expected[me].apcs--;
}

static void run_timer_apc_of_program(LPVOID acts, DWORD low, DWORD high)
{
    (void)low;
    (void)high;
    run_apc_of_program((ULONG_PTR)acts);
}

static void set_event(void)
{
    SetEvent(program.events[below(EVENTS)]);
}

static void reset_event(void)
{
    ResetEvent(program.events[below(EVENTS)]);
}

static void pulse_event(void)
{
    PulseEvent(program.events[below(EVENTS)]);
}

static void release_semaphore(void)
{
    ReleaseSemaphore(program.semaphores[below(SEMAPHORES)], (LONG)below(3) + 1, NULL);
}

static void release_mutex(void)
{
    ReleaseMutex(program.mutexes[below(MUTEXES)]);
}

static void set_any_timer(void)
{
    LARGE_INTEGER due = { .QuadPart = -(LONGLONG)below(one_in(4) ? 1000 : 100000) };
    if (one_in(10))
        due.QuadPart = universal() + below(100000);
    SetWaitableTimer(program.timers[below(TIMERS)], &due, one_in(3) ? (LONG)below(8) : 0, one_in(2) ? run_timer_apc_of_program : NULL,
                     (LPVOID)(uintptr_t)below(3), FALSE);
}

static void cancel_timer(void)
{
    CancelWaitableTimer(program.timers[below(TIMERS)]);
}

static void queue_apc(void)
{
    QueueUserAPC(run_apc_of_program, program.made == 0 || one_in(4) ? GetCurrentThread() : program.threads[below(program.made)], below(3));
}

static void sleep_for_a_time(void)
{
    const uint64_t began = run.now;
    const DWORD ms = any_time(true);
    const BOOL alertable = one_in(2);
    check_wait(SleepEx(ms, alertable), ms, began);
}

static void wait_for_one(void)
{
    const uint64_t began = run.now;
    bool is_short = false;
    HANDLE object = any_object(&is_short);
    const DWORD ms = any_time(is_short);
    check_wait(WaitForSingleObjectEx(object, ms, one_in(2)), ms, began);
}

/* (It fails where two of them are the same.) */
static void wait_for_several(void)
{
    const uint64_t began = run.now;
    bool is_short = false;
    HANDLE objects[4];
    const DWORD count = below(4) + 1;
    for (DWORD i = 0; i < count; i++)
        objects[i] = any_object(&is_short);
    const DWORD ms = any_time(is_short);
    const BOOL all = one_in(2);
    check_wait(WaitForMultipleObjectsEx(count, objects, all, ms, one_in(2)), ms, began);
}

static void signal_and_wait(void)
{
    const uint64_t began = run.now;
    bool is_short = false;
    HANDLE signals[] = { program.mutexes[below(MUTEXES)], program.semaphores[below(SEMAPHORES)], program.events[below(EVENTS)] };
    HANDLE signal = signals[below(3)], object = any_object(&is_short);
    const DWORD ms = any_time(is_short);
    check_wait(SignalObjectAndWait(signal, object, ms, one_in(2)), ms, began);
}

static DWORD act_often(LPVOID acts)
{
    for (ULONG_PTR left = (ULONG_PTR)acts; left > 0; left--)
        act();
    return 0;
}

static LPVOID any_number_of_acts(void)
{
    return (LPVOID)(uintptr_t)(below(40) + 5);
}

static void begin_thread(void)
{
    if (program.made == THREADS - FOREIGN)
        return;
    HANDLE thread = CreateThread(NULL, 0, act_often, any_number_of_acts(), 0, NULL);
    if (thread == NULL)
        return;
    sums.threads++;
    if (program.made < THREADS)
        program.threads[program.made++] = thread;
}

static void begin_thread_seldom(void)
{
    if (one_in(6))
        begin_thread();
}

static void end_thread_seldom(void)
{
    if (one_in(30) && run.runs != run.strands)
        ExitThread(0);
}

/* ---- Waits at an address, and on a condition variable. */

static void *any_address(int count, void *first, size_t size)
{
    return (char *)first + below((uint32_t)count) * size;
}

/* Whether a wait of this number of ms, which began then, may time out. */
static void check_timeout(BOOL ended, DWORD ms, uint64_t began)
{
    if (!ended && (GetLastError() != ERROR_TIMEOUT || run.now / NANOSECONDS_PER_MOMENT < began / NANOSECONDS_PER_MOMENT + (uint64_t)ms * 10000))
        broken("a wait of %u ms at an address fails: %u", ms, GetLastError());
}

static void wait_at_address(void)
{
    const uint64_t began = run.now;
    uint32_t *value = any_address(VALUES, program.values, sizeof *program.values), compare = one_in(4) ? below(VALUE_BELOW) : *value;
    const DWORD ms = any_time(false);
    check_timeout(WaitOnAddress(value, &compare, (SIZE_T)1 << below(3), ms), ms, began);
}

/* (The store is late, as others see it.) */
static void change_value(uint32_t *value)
{
    point();
    name_address(value);
    store_late(value, below(VALUE_BELOW));
    WakeByAddressAll(value);
}

static void change_any_value(void)
{
    change_value(any_address(VALUES, program.values, sizeof *program.values));
}

static void wake_one_at_address(void)
{
    uint32_t *value = any_address(VALUES, program.values, sizeof *program.values);
    STEP_ON(value, park, NULL, Calls, 0);
    WakeByAddressSingle(value);
}

static void sleep_on_variable(void)
{
    const uint64_t began = run.now;
    CONDITION_VARIABLE *variable = any_address(VARIABLES, program.variables, sizeof *program.variables);
    const DWORD ms = any_time(false);
    EnterCriticalSection(&program.section);
    check_timeout(SleepConditionVariableCS(variable, &program.section, ms), ms, began);
    LeaveCriticalSection(&program.section);
}

static void wake_all_on_variable(CONDITION_VARIABLE *variable)
{
    STEP_ON(variable, park, NULL, Changes, 0);
    WakeAllConditionVariable(variable);
}

static void wake_on_variable(void)
{
    CONDITION_VARIABLE *variable = any_address(VARIABLES, program.variables, sizeof *program.variables);
    if (one_in(3)) {
        wake_all_on_variable(variable);
    } else {
        STEP_ON(variable, park, NULL, Calls, 0);
        WakeConditionVariable(variable);
    }
}

/* As the end of the process does. */
static void try_the_lock(void)
{
    if (try_lock())
        give_lock();
}

static void act(void)
{
    static void (*const all[])(void) = {
        set_event, set_event, reset_event, pulse_event, release_semaphore, release_mutex, set_any_timer, set_any_timer, cancel_timer, queue_apc,
        sleep_for_a_time, sleep_for_a_time, wait_for_one, wait_for_one, wait_for_one, wait_for_several, wait_for_several, wait_for_several,
        signal_and_wait, signal_and_wait, begin_thread_seldom, end_thread_seldom, try_the_lock, wait_at_address, wait_at_address,
        change_any_value, wake_one_at_address, sleep_on_variable, sleep_on_variable, wake_on_variable,
    };
    sums.calls++;
    all[below(sizeof all / sizeof *all)]();
}

/* A handler of signals calls, and does not wait. */
static void act_in_handler(void)
{
    static void (*const all[])(void) = { set_event, set_event, reset_event, pulse_event, release_semaphore, set_any_timer, cancel_timer, queue_apc };
    sums.calls++;
    all[below(sizeof all / sizeof *all)]();
}

/* A thread that CreateThread did not make. */
static void *act_as_foreign(void *acts)
{
    act_often(acts);
    if (!one_in(4))
        for (int i = 0; i < MUTEXES; i++)
            ReleaseMutex(program.mutexes[i]);
    return NULL;
}

static void set_timer_now(HANDLE timer)
{
    const LARGE_INTEGER now = { .QuadPart = 0 };
    SetWaitableTimer(timer, &now, 0, NULL, NULL, FALSE);
}

/* All others sleep: ends some of their waits. */
static void end_some_waits(void)
{
    set_event();
    ReleaseSemaphore(program.semaphores[below(SEMAPHORES)], 1, NULL);
    if (one_in(3))
        set_timer_now(program.timers[below(TIMERS)]);
    if (one_in(3) && program.made > 0)
        QueueUserAPC(run_apc_of_program, program.threads[below(program.made)], 0);
    for (int i = 0; i < EVENTS && one_in(2); i++)
        SetEvent(program.events[i]);
    for (int i = 0; i < TIMERS && one_in(2); i++)
        set_timer_now(program.timers[i]);
    for (int i = 0; i < VALUES && one_in(2); i++)
        change_value(&program.values[i]);
    for (int i = 0; i < VARIABLES && one_in(2); i++)
        wake_all_on_variable(&program.variables[i]);
}

/* The first thread makes the objects and the others, and has no wait of its own last for good. */
static void *drive(void *unused)
{
    (void)unused;
    for (int i = 0; i < EVENTS; i++)
        program.events[i] = CreateEvent(NULL, i & 1, one_in(2), NULL);
    for (int i = 0; i < SEMAPHORES; i++)
        program.semaphores[i] = CreateSemaphore(NULL, 0, 1 + (LONG)below(3), NULL);
    for (int i = 0; i < MUTEXES; i++)
        program.mutexes[i] = CreateMutex(NULL, FALSE, NULL);
    for (int i = 0; i < TIMERS; i++)
        program.timers[i] = CreateWaitableTimer(NULL, i & 1, NULL);
    InitializeCriticalSection(&program.section);
    for (uint32_t left = below(5) + 1; left > 0; left--)
        begin_thread();
    for (uint32_t left = below(FOREIGN); left > 0; left--)
        add_strand(act_as_foreign, any_number_of_acts());
    for (uint32_t rounds = 0; rest_till_all_sleep(); end_some_waits())
        if (++rounds > MOST_ROUNDS)
            broken("the waits do not end");
    end_process();
    return NULL;
}
