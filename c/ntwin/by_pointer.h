/* SPDX-License-Identifier: MIT OR Apache-2.0 */
/* ---- Each call of the dispatcher by its pointer (looked.c), in what includes this, but in a test that hears the calls itself. */
#ifndef NTWIN_BY_POINTER_H
#define NTWIN_BY_POINTER_H

#include "internal.h"

#ifndef nt_exit
static inline uint32_t wait_by_pointer(struct nt *nt, uint32_t who, const uint32_t *handles, size_t count, bool all, uint32_t ms,
                                       bool alertable, struct nt_reply *reply)
{
    const uint32_t nothing = 0;
    const bool is_list = handles != NULL && count <= NT_MAXIMUM_WAIT_OBJECTS;
    return made_by.wait_objects(nt, who, is_list ? handles : &nothing, is_list ? count : 0, all, ms, alertable, reply);
}

#define nt_exit made_by.exit
#define nt_next_apc made_by.next_apc
#define nt_create_event made_by.create_event
#define nt_create_mutex made_by.create_mutex
#define nt_create_timer made_by.create_timer
#define nt_set_event made_by.set_event
#define nt_reset_event made_by.reset_event
#define nt_pulse_event made_by.pulse_event
#define nt_release_mutex made_by.release_mutex
#define nt_cancel_timer made_by.cancel_timer
#define nt_close_handle made_by.close_handle
#define nt_create_semaphore made_by.create_semaphore
#define nt_release_semaphore made_by.release_semaphore
#define nt_set_timer made_by.set_timer
#define nt_set_timer_apc made_by.set_timer_apc
#define nt_queue_apc made_by.queue_apc
#define nt_duplicate made_by.duplicate
#define nt_wait wait_by_pointer
#define nt_wait_object made_by.wait_object
#define nt_sleep made_by.sleep
#define nt_swap made_by.swap
#define nt_tick made_by.tick
#endif

#endif
