// SPDX-License-Identifier: MIT OR Apache-2.0
//! Declarations of `c/nt.h`, whose comments say what each call does and what has to be right. The crate `ntwait` is the safe way to it.
#![no_std]
#![allow(non_camel_case_types)]

use core::ffi::{c_char, c_void};
use core::mem::size_of;

/// A handle: room for a dispatcher, and whether there is one.
#[repr(C)]
pub struct nt {
    pub room: *mut c_void,
    pub live: bool,
}

pub const NT_DONE: u32 = 0;
pub const NT_HANDLE: u32 = 1;
pub const NT_PREVIOUS: u32 = 2;
pub const NT_STATUS: u32 = 3;
pub const NT_PENDED: u32 = 4;
pub const NT_APC: u32 = 5;
pub const NT_NO_APC: u32 = 6;

/// What an accepted call answers.
#[repr(C)]
#[derive(Clone, Copy, Debug, Default)]
pub struct nt_reply {
    pub kind: u32,
    pub number: u32,
    pub previous: i32,
    pub timed: bool,
    pub routine: u64,
    pub arg: u64,
    pub at: u64,
}

/// A pending wait that the last call or tick ended.
#[repr(C)]
#[derive(Clone, Copy, Debug, Default)]
pub struct nt_grant {
    pub thread: u32,
    pub status: u32,
}

/// What a thread learns while it sleeps.
#[repr(C)]
#[derive(Clone, Copy, Debug, Default)]
pub struct nt_told {
    pub thread: u32,
    pub status: u32,
    pub called: bool,
}

/// A thread that began: its number, and its own handle.
#[repr(C)]
#[derive(Clone, Copy, Debug, Default)]
pub struct nt_begun {
    pub thread: u32,
    pub handle: u32,
}

/// What a pending wait waits for.
#[repr(C)]
#[derive(Clone, Copy, Debug, Default)]
pub struct nt_pending_wait {
    pub count: usize,
    pub all: bool,
    pub alertable: bool,
    pub timed: bool,
    pub deadline: u64,
}

pub const NT_GONE: u32 = 0;
pub const NT_EVENT: u32 = 1;
pub const NT_SEMAPHORE: u32 = 2;
pub const NT_MUTEX: u32 = 3;
pub const NT_TIMER: u32 = 4;
pub const NT_THREAD: u32 = 5;

/// What an object is.
#[repr(C)]
#[derive(Clone, Copy, Debug, Default)]
pub struct nt_object {
    pub kind: u32,
    pub manual: bool,
    pub set: bool,
    pub owned: bool,
    pub abandoned: bool,
    pub armed: bool,
    pub count: i32,
    pub maximum: i32,
    pub owner: u32,
    pub depth: u32,
    pub due: u64,
    pub period: u32,
}

/// What a handle names.
#[repr(C)]
#[derive(Clone, Copy, Debug, Default)]
pub struct nt_opened {
    pub object: u32,
    pub access: u32,
}

/// Why threads wait.
#[repr(C)]
#[derive(Clone, Copy, Debug, Default)]
pub struct nt_why {
    pub stuck: bool,
    pub due: bool,
    pub next: u64,
}

const _: () = {
    assert!(size_of::<nt>() == 16);
    assert!(size_of::<nt_reply>() == 40);
    assert!(size_of::<nt_grant>() == 8);
    assert!(size_of::<nt_told>() == 12);
    assert!(size_of::<nt_begun>() == 8);
    assert!(size_of::<nt_pending_wait>() == 24);
    assert!(size_of::<nt_object>() == 48);
    assert!(size_of::<nt_opened>() == 8);
    assert!(size_of::<nt_why>() == 16);
};

pub const NT_WAIT_OBJECT_0: u32 = 0x00000000;
pub const NT_WAIT_ABANDONED_0: u32 = 0x00000080;
pub const NT_WAIT_IO_COMPLETION: u32 = 0x000000C0;
pub const NT_WAIT_TIMEOUT: u32 = 0x00000102;

pub const NT_EVENT_MANUAL_RESET: u32 = 0x1;
pub const NT_EVENT_INITIAL_SET: u32 = 0x2;
pub const NT_MUTEX_INITIAL_OWNER: u32 = 0x1;
pub const NT_TIMER_MANUAL_RESET: u32 = 0x1;

pub const NT_SYNCHRONIZE: u32 = 0x00100000;
pub const NT_MODIFY_STATE: u32 = 0x00000002;
pub const NT_SET_CONTEXT: u32 = 0x00000010;

pub const NT_ERROR_ACCESS_DENIED: u32 = 5;
pub const NT_ERROR_INVALID_HANDLE: u32 = 6;
pub const NT_ERROR_NOT_ENOUGH_MEMORY: u32 = 8;
pub const NT_ERROR_GEN_FAILURE: u32 = 31;
pub const NT_ERROR_INVALID_PARAMETER: u32 = 87;
pub const NT_ERROR_NO_MORE_ITEMS: u32 = 259;
pub const NT_ERROR_NOT_OWNER: u32 = 288;
pub const NT_ERROR_TOO_MANY_POSTS: u32 = 298;
pub const NT_ERROR_THREAD_WAITING: u32 = 0x20000001;
pub const NT_ERROR_THREAD_ENDED: u32 = 0x20000002;
pub const NT_ERROR_UNKNOWN_THREAD: u32 = 0x20000003;
pub const NT_ERROR_RECURSION_LIMIT: u32 = 0x20000004;
pub const NT_ERROR_MOMENT_BACK: u32 = 0x20000005;
pub const NT_ERROR_HANDLE_LIMIT: u32 = 0x20000007;

pub const NT_INFINITE: u32 = 0xFFFFFFFF;
pub const NT_MAXIMUM_THREADS: u32 = 256;
pub const NT_MANY_THREADS: u32 = 4096;
pub const NT_MAXIMUM_WAIT_OBJECTS: u32 = 64;
pub const NT_MAXIMUM_HANDLES: u32 = 65536;
pub const NT_GREATEST_MOMENT: u64 = 1 << 62;

extern "C" {
    pub fn nt_version() -> *const c_char;
    pub fn nt_error_name(error: u32) -> *const c_char;
    pub fn nt_status_name(status: u32) -> *const c_char;
    pub fn nt_new(threads: u32) -> *mut nt;
    pub fn nt_new_lasting(threads: u32) -> *mut nt;
    pub fn nt_free(nt: *mut nt);
    pub fn nt_room() -> usize;
    pub fn nt_open(nt: *mut nt, threads: u32) -> u32;
    pub fn nt_open_lasting(nt: *mut nt, threads: u32) -> u32;
    pub fn nt_begin(nt: *mut nt, begun: *mut nt_begun) -> u32;
    pub fn nt_set_aside(nt: *mut nt, thread: u32) -> u32;
    pub fn nt_give_again(nt: *mut nt) -> u32;
    pub fn nt_copy(nt: *mut nt, to: *mut nt) -> u32;
    pub fn nt_close(nt: *mut nt);
    pub fn nt_create_event(nt: *mut nt, who: u32, flags: u32, reply: *mut nt_reply) -> u32;
    pub fn nt_set_event(nt: *mut nt, who: u32, event: u32, reply: *mut nt_reply) -> u32;
    pub fn nt_reset_event(nt: *mut nt, who: u32, event: u32, reply: *mut nt_reply) -> u32;
    pub fn nt_pulse_event(nt: *mut nt, who: u32, event: u32, reply: *mut nt_reply) -> u32;
    pub fn nt_create_semaphore(
        nt: *mut nt,
        who: u32,
        initial: i32,
        maximum: i32,
        reply: *mut nt_reply,
    ) -> u32;
    pub fn nt_release_semaphore(
        nt: *mut nt,
        who: u32,
        semaphore: u32,
        count: i32,
        reply: *mut nt_reply,
    ) -> u32;
    pub fn nt_create_mutex(nt: *mut nt, who: u32, flags: u32, reply: *mut nt_reply) -> u32;
    pub fn nt_release_mutex(nt: *mut nt, who: u32, mutex: u32, reply: *mut nt_reply) -> u32;
    pub fn nt_create_timer(nt: *mut nt, who: u32, flags: u32, reply: *mut nt_reply) -> u32;
    pub fn nt_set_timer(
        nt: *mut nt,
        who: u32,
        timer: u32,
        due: i64,
        period: i32,
        reply: *mut nt_reply,
    ) -> u32;
    pub fn nt_set_timer_apc(
        nt: *mut nt,
        who: u32,
        timer: u32,
        due: i64,
        period: i32,
        routine: u64,
        arg: u64,
        reply: *mut nt_reply,
    ) -> u32;
    pub fn nt_cancel_timer(nt: *mut nt, who: u32, timer: u32, reply: *mut nt_reply) -> u32;
    pub fn nt_queue_apc(
        nt: *mut nt,
        who: u32,
        thread: u32,
        routine: u64,
        arg: u64,
        reply: *mut nt_reply,
    ) -> u32;
    pub fn nt_next_apc(nt: *mut nt, who: u32, reply: *mut nt_reply) -> u32;
    pub fn nt_duplicate(
        nt: *mut nt,
        who: u32,
        handle: u32,
        access: u32,
        reply: *mut nt_reply,
    ) -> u32;
    pub fn nt_close_handle(nt: *mut nt, who: u32, handle: u32, reply: *mut nt_reply) -> u32;
    pub fn nt_exit(nt: *mut nt, who: u32, reply: *mut nt_reply) -> u32;
    pub fn nt_wait_objects(
        nt: *mut nt,
        who: u32,
        handles: *const u32,
        count: usize,
        all: bool,
        ms: u32,
        alertable: bool,
        reply: *mut nt_reply,
    ) -> u32;
    pub fn nt_wait_object(
        nt: *mut nt,
        who: u32,
        handle: u32,
        ms: u32,
        alertable: bool,
        reply: *mut nt_reply,
    ) -> u32;
    pub fn nt_sleep(nt: *mut nt, who: u32, ms: u32, alertable: bool, reply: *mut nt_reply) -> u32;
    pub fn nt_swap(
        nt: *mut nt,
        who: u32,
        signal: u32,
        object: u32,
        ms: u32,
        alertable: bool,
        reply: *mut nt_reply,
    ) -> u32;
    pub fn nt_wait(
        nt: *mut nt,
        who: u32,
        handles: *const u32,
        count: usize,
        all: bool,
        ms: u32,
        alertable: bool,
        reply: *mut nt_reply,
    ) -> u32;
    pub fn nt_tick(nt: *mut nt, moment: u64) -> u32;
    pub fn nt_now(nt: *mut nt, moment: *mut u64) -> u32;
    pub fn nt_due(nt: *mut nt, up_to: u64, moment: *mut u64) -> u32;
    pub fn nt_grant(nt: *mut nt, index: usize, grant: *mut nt_grant) -> u32;
    pub fn nt_told(nt: *mut nt, index: usize, told: *mut nt_told) -> u32;
    pub fn nt_pend(nt: *mut nt, who: u32, watches: bool, moment: *mut u64) -> u32;
    pub fn nt_woke(nt: *mut nt, who: u32) -> u32;
    pub fn nt_threads(nt: *mut nt, threads: *mut u32) -> u32;
    pub fn nt_pending(nt: *mut nt, waits: *mut usize) -> u32;
    pub fn nt_tested(nt: *mut nt, waits: *mut u64) -> u32;
    pub fn nt_is_waiting(nt: *mut nt, thread: u32, waits: *mut bool) -> u32;
    pub fn nt_waits_for(nt: *mut nt, thread: u32, wait: *mut nt_pending_wait) -> u32;
    pub fn nt_waited_object(nt: *mut nt, thread: u32, index: usize, object: *mut u32) -> u32;
    pub fn nt_opened(nt: *mut nt, handle: u32, opened: *mut nt_opened) -> u32;
    pub fn nt_object(nt: *mut nt, number: u32, object: *mut nt_object) -> u32;
    pub fn nt_why(
        nt: *mut nt,
        over: *const bool,
        overs: usize,
        up_to: u64,
        why: *mut nt_why,
        knot: *mut bool,
        knots: usize,
    ) -> u32;
}
