/* SPDX-License-Identifier: MIT OR Apache-2.0 */
/* ---- winmm's timers: callbacks of the thread that keeps the time, one after another, as winmm has a thread for all. */
#include "internal.h"

enum { MEDIA_TIMERS = 16, LONGEST_DELAY_MS = 1000000 };

/* One that is set. Its number is its place below, and above that how often the place was used. */
struct media_timer {
    UINT number;   /* 0 where the place is free */
    PTP_TIMER timer;
    LPTIMECALLBACK callback;
    DWORD_PTR user;
    UINT how;
};

/* Under the latch of the pools. */
static struct {
    struct media_timer at[MEDIA_TIMERS];
    UINT uses;
} media_timers;

/* The caller is in a callback of such a timer. */
static _Thread_local bool is_in_media_timer __attribute__((tls_model("initial-exec")));

/* The one of this number, under the latch; null where there is none. */
static struct media_timer *media_timer_of(UINT number)
{
    struct media_timer *found = &media_timers.at[number % MEDIA_TIMERS];
    return number != 0 && found->number == number ? found : NULL;
}

/* Takes the one of this number from its place; one without a timer, where there is none. */
static struct media_timer take_media_timer(UINT number)
{
    struct media_timer taken = { 0 };
    take_latch(&pools_latch);
    struct media_timer *found = media_timer_of(number);
    if (found != NULL && found->timer != NULL) {
        taken = *found;
        found->number = 0;
    }
    give_latch(&pools_latch);
    return taken;
}

/* (An event stands in the place of the callback.) */
static void call_or_signal(const struct media_timer *it)
{
    const HANDLE event = (HANDLE)(uintptr_t)it->callback;
    if ((it->how & TIME_CALLBACK_EVENT_SET) != 0)
        SetEvent(event);
    else if ((it->how & TIME_CALLBACK_EVENT_PULSE) != 0)
        PulseEvent(event);
    else
        it->callback(it->number, 0, it->user, 0, 0);
}

static void CALLBACK call_media_timer(PVOID number, BOOLEAN is_timeout)
{
    struct media_timer it = { 0 };
    (void)is_timeout;
    take_latch(&pools_latch);
    const struct media_timer *found = media_timer_of((UINT)(uintptr_t)number);
    if (found != NULL)
        it = *found;
    give_latch(&pools_latch);
    if (it.number == 0)
        return;
    is_in_media_timer = true;
    call_or_signal(&it);
}

/* Its callback has ended, maybe by ExitThread: one that comes once leaves its place. */
static void end_media_callback(struct task *task)
{
    is_in_media_timer = false;
    if (((PTP_TIMER)(void *)task)->period != 0)
        return;
    const struct media_timer it = take_media_timer((UINT)(uintptr_t)task->context);
    if (it.timer != NULL)
        close_task(task, NULL);
}

/* Takes a free place, under the latch. Null where there is none. */
static struct media_timer *take_place(void)
{
    for (UINT i = 0; i < MEDIA_TIMERS; i++)
        if (media_timers.at[i].number == 0) {
            media_timers.uses = media_timers.uses % (UINT_MAX / MEDIA_TIMERS) + 1;
            media_timers.at[i] = (struct media_timer){ .number = media_timers.uses * MEDIA_TIMERS + i };
            return &media_timers.at[i];
        }
    return NULL;
}

/* Puts a timer into its place, or frees that where there is none. */
static void fill_place(struct media_timer *place, struct media_timer it)
{
    take_latch(&pools_latch);
    if (it.timer == NULL)
        it.number = 0;
    *place = it;
    give_latch(&pools_latch);
}

MMRESULT timeSetEvent(UINT ms, UINT resolution, LPTIMECALLBACK callback, DWORD_PTR user, UINT how)
{
    const DWORD error = own.last_error;
    const struct _TP_TIMER what = { .task.after = end_media_callback, .queue_callback = call_media_timer, .in_thread = true };
    (void)resolution;
    if (ms == 0 || ms > LONGEST_DELAY_MS || callback == NULL || is_at_latch())
        return 0;
    take_latch(&pools_latch);
    struct media_timer *place = take_place();
    const UINT number = place != NULL ? place->number : 0;
    give_latch(&pools_latch);
    if (place == NULL)
        return 0;
    PTP_TIMER timer = make_timer(what, (PVOID)(uintptr_t)number, NULL);
    own.last_error = error;
    fill_place(place, (struct media_timer){ number, timer, callback, user, how });
    if (timer == NULL)
        return 0;
    set_pool_timer(timer, moment_after(ms), (how & TIME_PERIODIC) != 0 ? ms : 0);
    return number;
}

/* (A callback that ends its own timer, or another, waits for none: they are all of one thread.) */
MMRESULT timeKillEvent(UINT number)
{
    const DWORD error = own.last_error;
    if (is_at_latch())
        return TIMERR_NOCANDO;
    const struct media_timer it = take_media_timer(number);
    const bool waits = (it.how & TIME_KILL_SYNCHRONOUS) != 0 && !is_in_media_timer;
    if (it.timer == NULL)
        return MMSYSERR_INVALPARAM;
    end_task(&it.timer->task, waits ? INVALID_HANDLE_VALUE : NULL);
    own.last_error = error;
    return TIMERR_NOERROR;
}
