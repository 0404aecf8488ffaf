/* SPDX-License-Identifier: MIT OR Apache-2.0 */
/* ---- The calls of the dispatcher, by pointers: so that they cost nothing more where nobody looks at them, and are looked at where the environment
 * asks for that (looking.c). Each is then written to the journal, and may have tied a knot. */
#include "../schedule/internal.h"

/* A call, or a tick, ties a knot only where it pends, closes a handle, or ends a wait. */
static inline uint32_t looked_at(uint32_t refused, bool may_tie)
{
    struct nt_told told;
    if (refused == 0)
        note_ends();
    if (tells_knots && refused == 0 && (may_tie || (waiting.pending != 0 && nt_told(&waiting.dispatcher, 0, &told) == 0))) {
        touch(&tells_knots, true);
        look_for_knot();
    }
    return refused;
}

/* ---- Each call, where somebody looks. */

static uint32_t looked_by_caller(uint32_t refused, uint32_t who, const char *word)
{
    char *at = begin_call(refused, who, word);
    if (at != NULL)
        end_call(refused, at);
    return looked_at(refused, false);
}

static uint32_t looked_by_handle(uint32_t refused, uint32_t who, const char *word, uint32_t handle, bool may_tie)
{
    char *at = begin_call(refused, who, word);
    if (at != NULL)
        end_call(refused, put_number(at, handle));
    return looked_at(refused, may_tie);
}

static uint32_t look_exit(struct nt *nt, uint32_t who, struct nt_reply *reply)
{
    touch_by_exit(who);
    return looked_by_caller(nt_exit(nt, who, reply), who, WORD_EXIT);
}

static uint32_t look_next_apc(struct nt *nt, uint32_t who, struct nt_reply *reply)
{
    touch_by_wait(who, NULL, 0, true);
    return looked_by_caller(nt_next_apc(nt, who, reply), who, WORD_NEXT);
}

static uint32_t look_set_event(struct nt *nt, uint32_t who, uint32_t event, struct nt_reply *reply)
{
    touch_by_signal(event);
    const uint32_t refused = nt_set_event(nt, who, event, reply);
    note_deed(refused, event, WAS_SET, 0);
    return looked_by_handle(refused, who, WORD_SET " ", event, false);
}

static uint32_t look_reset_event(struct nt *nt, uint32_t who, uint32_t event, struct nt_reply *reply)
{
    touch_by_handle(event);
    const uint32_t refused = nt_reset_event(nt, who, event, reply);
    note_deed(refused, event, WAS_RESET, 0);
    return looked_by_handle(refused, who, WORD_RESET " ", event, false);
}

static uint32_t look_pulse_event(struct nt *nt, uint32_t who, uint32_t event, struct nt_reply *reply)
{
    touch_by_signal(event);
    const uint32_t refused = nt_pulse_event(nt, who, event, reply);
    note_deed(refused, event, WAS_PULSED, 0);
    return looked_by_handle(refused, who, WORD_PULSE " ", event, false);
}

static uint32_t look_release_mutex(struct nt *nt, uint32_t who, uint32_t mutex, struct nt_reply *reply)
{
    touch_by_signal(mutex);
    return looked_by_handle(nt_release_mutex(nt, who, mutex, reply), who, WORD_UNLOCK " ", mutex, false);
}

static uint32_t look_cancel_timer(struct nt *nt, uint32_t who, uint32_t timer, struct nt_reply *reply)
{
    touch_by_handle(timer);
    return looked_by_handle(nt_cancel_timer(nt, who, timer, reply), who, WORD_CANCEL " ", timer, false);
}

static uint32_t look_close_handle(struct nt *nt, uint32_t who, uint32_t handle, struct nt_reply *reply)
{
    touch_by_creation();
    touch_by_handle(handle);
    return looked_by_handle(nt_close_handle(nt, who, handle, reply), who, WORD_CLOSE " ", handle, waiting.pending != 0);
}

/* Whether a creation that was answered so is made again: it found no number, and there are some from now on, since the journal has ended. */
static inline bool is_made_again(uint32_t refused)
{
    return refused == NT_ERROR_HANDLE_LIMIT && give_numbers_again("each handle's number was used once");
}

/* Writes what gives a handle, whose last words are these. */
static uint32_t looked_handle(uint32_t refused, uint32_t who, const char *word, const char *words, const struct nt_reply *reply)
{
    char *at = begin_call(refused, who, word);
    if (at == NULL)
        return refused;
    at = put_text(at, "h");
    if (refused == 0)
        at = put_number(at, reply->number);
    end_call(refused, put_text(at, words));
    return refused;
}

/* The same for a creation. */
static uint32_t looked_creation(uint32_t refused, uint32_t who, const char *word, const char *words, const struct nt_reply *reply)
{
    if (refused == 0)
        note_creation(reply->number);
    return looked_handle(refused, who, word, words, reply);
}

static uint32_t look_create_event(struct nt *nt, uint32_t who, uint32_t flags, struct nt_reply *reply)
{
    static const char *const words[] = { "", " " WORD_MANUAL, " " WORD_SET, " " WORD_MANUAL " " WORD_SET };
    uint32_t refused;
    touch_by_creation();
    do
        refused = nt_create_event(nt, who, flags, reply);
    while (is_made_again(refused));
    return looked_creation(refused, who, WORD_EVENT " ", words[flags % 4], reply);
}

static uint32_t look_create_mutex(struct nt *nt, uint32_t who, uint32_t flags, struct nt_reply *reply)
{
    uint32_t refused;
    touch_by_creation();
    do
        refused = nt_create_mutex(nt, who, flags, reply);
    while (is_made_again(refused));
    if (refused == 0)
        touch_by_handle(reply->number);
    return looked_creation(refused, who, WORD_MUTEX " ", (flags & NT_MUTEX_INITIAL_OWNER) != 0 ? " " WORD_OWNED : "", reply);
}

static uint32_t look_create_timer(struct nt *nt, uint32_t who, uint32_t flags, struct nt_reply *reply)
{
    uint32_t refused;
    touch_by_creation();
    do
        refused = nt_create_timer(nt, who, flags, reply);
    while (is_made_again(refused));
    return looked_creation(refused, who, WORD_TIMER " ", (flags & NT_TIMER_MANUAL_RESET) != 0 ? " " WORD_MANUAL : "", reply);
}

/* Two numbers, each after a space. */
static const char *pair_of(char *to, int64_t one, int64_t other)
{
    char *at = to;
    *at++ = ' ';
    at = put_signed(at, one);
    *at++ = ' ';
    *put_signed(at, other) = 0;
    return to;
}

static uint32_t look_create_semaphore(struct nt *nt, uint32_t who, int32_t initial, int32_t maximum, struct nt_reply *reply)
{
    char words[48];
    uint32_t refused;
    touch_by_creation();
    do
        refused = nt_create_semaphore(nt, who, initial, maximum, reply);
    while (is_made_again(refused));
    return looked_creation(refused, who, WORD_SEMAPHORE " ", pair_of(words, initial, maximum), reply);
}

static uint32_t look_duplicate(struct nt *nt, uint32_t who, uint32_t handle, uint32_t access, struct nt_reply *reply)
{
    char words[48];
    uint32_t refused;
    touch_by_creation();
    touch_by_handle(handle);
    do
        refused = nt_duplicate(nt, who, handle, access, reply);
    while (is_made_again(refused));
    return looked_handle(refused, who, WORD_DUP " ", pair_of(words, handle, access), reply);
}

static uint32_t look_release_semaphore(struct nt *nt, uint32_t who, uint32_t semaphore, int32_t count, struct nt_reply *reply)
{
    touch_by_signal(semaphore);
    const uint32_t refused = nt_release_semaphore(nt, who, semaphore, count, reply);
    note_deed(refused, semaphore, WAS_RELEASED, count);
    char *at = begin_call(refused, who, WORD_RELEASE " ");
    if (at != NULL) {
        at = put_number(at, semaphore);
        *at++ = ' ';
        end_call(refused, put_signed(at, count));
    }
    return looked_at(refused, false);
}

/* Goes on with a timer's line: when it is due, and its period. */
static char *put_armed(char *at, uint32_t timer, int64_t due, int32_t period)
{
    char words[48];
    return put_text(put_number(at, timer), pair_of(words, due, period));
}

static uint32_t look_set_timer(struct nt *nt, uint32_t who, uint32_t timer, int64_t due, int32_t period, struct nt_reply *reply)
{
    touch_by_handle(timer);
    const uint32_t refused = nt_set_timer(nt, who, timer, due, period, reply);
    char *at = begin_call(refused, who, WORD_ARM " ");
    if (at != NULL)
        end_call(refused, put_armed(at, timer, due, period));
    return looked_at(refused, false);
}

/* Goes on with what an APC calls, and with what. */
static char *put_routine(char *at, uint64_t routine, uint64_t argument)
{
    *at++ = ' ';
    at = put_number(at, routine);
    *at++ = ' ';
    return put_number(at, argument);
}

static uint32_t look_set_timer_apc(struct nt *nt, uint32_t who, uint32_t timer, int64_t due, int32_t period, uint64_t routine,
                                   uint64_t argument, struct nt_reply *reply)
{
    touch_by_handle(timer);
    const uint32_t refused = nt_set_timer_apc(nt, who, timer, due, period, routine, argument, reply);
    char *at = begin_call(refused, who, WORD_ARM " ");
    if (at != NULL)
        end_call(refused, put_routine(put_armed(at, timer, due, period), routine, argument));
    return looked_at(refused, false);
}

static uint32_t look_queue_apc(struct nt *nt, uint32_t who, uint32_t thread, uint64_t routine, uint64_t argument, struct nt_reply *reply)
{
    touch_by_apc(thread);
    const uint32_t refused = nt_queue_apc(nt, who, thread, routine, argument, reply);
    char *at = begin_call(refused, who, WORD_APC " ");
    if (at != NULL)
        end_call(refused, put_routine(put_number(at, thread), routine, argument));
    return looked_at(refused, false);
}

/* ---- Waits. */

static bool pends(uint32_t refused, const struct nt_reply *reply)
{
    return refused == 0 && reply->kind == NT_PENDED;
}

static uint32_t look_wait_objects(struct nt *nt, uint32_t who, const uint32_t *handles, size_t count, bool all, uint32_t ms, bool alertable,
                                  struct nt_reply *reply)
{
    touch_by_wait(who, handles, count, alertable);
    const uint32_t refused = nt_wait_objects(nt, who, handles, count, all, ms, alertable, reply);
    note_answer(refused, who, handles, count, all, reply);
    char *at = begin_call(refused, who, all ? WORD_ALL : WORD_ANY);
    if (at != NULL)
        end_call(refused, put_wait(at, ms, alertable, handles, count));
    return looked_at(refused, pends(refused, reply));
}

static uint32_t look_wait_object(struct nt *nt, uint32_t who, uint32_t handle, uint32_t ms, bool alertable, struct nt_reply *reply)
{
    touch_by_wait(who, &handle, 1, alertable);
    const uint32_t refused = nt_wait_object(nt, who, handle, ms, alertable, reply);
    note_answer(refused, who, &handle, 1, false, reply);
    char *at = begin_call(refused, who, WORD_ANY);
    if (at != NULL)
        end_call(refused, put_wait(at, ms, alertable, &handle, 1));
    return looked_at(refused, pends(refused, reply));
}

static uint32_t look_sleep(struct nt *nt, uint32_t who, uint32_t ms, bool alertable, struct nt_reply *reply)
{
    touch_by_wait(who, NULL, 0, alertable);
    const uint32_t refused = nt_sleep(nt, who, ms, alertable, reply);
    note_answer(refused, who, NULL, 0, false, reply);
    char *at = begin_call(refused, who, WORD_SLEEP);
    if (at != NULL)
        end_call(refused, put_wait(at, ms, alertable, NULL, 0));
    return looked_at(refused, pends(refused, reply));
}

static uint32_t look_swap(struct nt *nt, uint32_t who, uint32_t signal, uint32_t object, uint32_t ms, bool alertable, struct nt_reply *reply)
{
    touch_by_signal(signal);
    touch_by_wait(who, &object, 1, alertable);
    const uint32_t refused = nt_swap(nt, who, signal, object, ms, alertable, reply);
    note_signal(refused, signal);
    note_answer(refused, who, &object, 1, false, reply);
    char *at = begin_call(refused, who, WORD_SWAP " ");
    if (at != NULL) {
        at = put_number(at, signal);
        *at++ = ' ';
        end_call(refused, put_wait(put_number(at, object), ms, alertable, NULL, 0));
    }
    return looked_at(refused, pends(refused, reply));
}

static uint32_t look_tick(struct nt *nt, uint64_t moment)
{
    touch_by_tick(moment);
    const uint32_t refused = nt_tick(nt, moment);
    char *at = begin_line();
    if (at != NULL)
        end_line(put_number(put_text(at, &(WORD_TICK " ")[1]), moment), WORD_TICK[0]);
    return looked_at(refused, false);
}

NTW_INTERNAL const struct calls looked_calls = {
    look_exit, look_next_apc, look_create_event, look_create_mutex, look_create_timer, look_set_event, look_reset_event, look_pulse_event,
    look_release_mutex, look_cancel_timer, look_close_handle, look_create_semaphore, look_release_semaphore, look_set_timer,
    look_set_timer_apc, look_queue_apc, look_duplicate, look_wait_objects, look_wait_object, look_sleep, look_swap, look_tick,
};
NTW_INTERNAL struct calls made_by = {
    nt_exit, nt_next_apc, nt_create_event, nt_create_mutex, nt_create_timer, nt_set_event, nt_reset_event, nt_pulse_event,
    nt_release_mutex, nt_cancel_timer, nt_close_handle, nt_create_semaphore, nt_release_semaphore, nt_set_timer,
    nt_set_timer_apc, nt_queue_apc, nt_duplicate, nt_wait_objects, nt_wait_object, nt_sleep, nt_swap, nt_tick,
};
