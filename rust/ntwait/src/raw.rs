// SPDX-License-Identifier: MIT OR Apache-2.0
//! The only module with unsafe code: a dispatcher's room, and calls with pointers.
//!
//! `c/nt.h` lists what has to be right. `Room` keeps the memory at an alignment of 16 until it is dropped, and neither it nor the handle in it is
//! ever copied. Each pointer comes from a reference that lives through the call. `&mut` and the lack of `Sync` keep two calls apart.
#![allow(unsafe_code)]

use ntwait_sys as sys;
use std::alloc::{alloc, dealloc, Layout};
use std::cell::UnsafeCell;
use std::mem::MaybeUninit;

/// Memory for a dispatcher, and the dispatcher if there is one.
pub struct Room {
    nt: UnsafeCell<sys::nt>,
    layout: Layout,
}

// SAFETY: a dispatcher is plain memory that belongs to its room alone, and knows nothing of the thread that calls.
unsafe impl Send for Room {}

impl Room {
    /// Room without a dispatcher, or None where memory is refused.
    pub fn new() -> Option<Room> {
        // SAFETY: nt_room only returns a number.
        let size = unsafe { sys::nt_room() };
        let layout = Layout::from_size_align(size.max(1), 16).ok()?;
        // SAFETY: the layout's size is not 0.
        let room = unsafe { alloc(layout) };
        let nt = UnsafeCell::new(sys::nt { room: room.cast(), live: false });
        (!room.is_null()).then_some(Room { nt, layout })
    }

    /// Makes this call of the dispatcher. It returns the error.
    #[inline]
    pub fn call(&self, call: impl FnOnce(*mut sys::nt) -> u32) -> u32 {
        call(self.nt.get())
    }

    /// Makes a call of `c/nt.h` that answers with a reply. It returns the reply, or the error.
    ///
    /// # Safety
    ///
    /// `call` hands both pointers to one function of `c/nt.h`, and returns what that does.
    #[inline]
    pub unsafe fn ask(&self, call: impl FnOnce(*mut sys::nt, *mut sys::nt_reply) -> u32) -> Result<sys::nt_reply, u32> {
        let mut reply = MaybeUninit::uninit();
        match call(self.nt.get(), reply.as_mut_ptr()) {
            // SAFETY: an accepted call writes each field of its reply.
            0 => Ok(unsafe { reply.assume_init() }),
            error => Err(error),
        }
    }

    /// Opens an equal dispatcher in `to`, which has none.
    pub fn copy(&self, to: &Room) -> u32 {
        // SAFETY: both are rooms as nt_copy asks, and two.
        unsafe { sys::nt_copy(self.nt.get(), to.nt.get()) }
    }

    /// Asks why threads wait.
    pub fn why(&self, over: &[bool], up_to: u64, why: &mut sys::nt_why, knot: &mut [bool]) -> u32 {
        // SAFETY: both lists have as many places as is said; an empty one's pointer is not null.
        unsafe { sys::nt_why(self.nt.get(), over.as_ptr(), over.len(), up_to, why, knot.as_mut_ptr(), knot.len()) }
    }
}

impl Drop for Room {
    fn drop(&mut self) {
        // SAFETY: nt_close frees the dispatcher if there is one; then the room is as `new` took it.
        unsafe {
            sys::nt_close(self.nt.get());
            dealloc((*self.nt.get()).room.cast(), self.layout);
        }
    }
}

/// Makes the call of `c/nt.h` with this name and with these arguments, of which the last is a reference to what it writes, if it has one.
macro_rules! call {
    ($room:expr, $name:ident $(, $argument:expr)* $(; $result:ident)?) => {
        $room.call(|nt| {
            // SAFETY: `nt` is the room's own, and what is written lives through the call.
            #[allow(unsafe_code)]
            unsafe { ntwait_sys::$name(nt $(, $argument)* $(, std::ptr::addr_of_mut!($result))?) }
        })
    };
}
pub(crate) use call;

/// Makes the call of `c/nt.h` with this name and these arguments, which answers with a reply: it, or the error.
macro_rules! asked {
    ($room:expr, $name:ident $(, $argument:expr)*) => {
        // SAFETY: `nt` is the room's own, the reply lives through the call, and what is returned is the call's error.
        #[allow(unsafe_code)]
        unsafe { $room.ask(|nt, reply| ntwait_sys::$name(nt $(, $argument)*, reply)) }
    };
}
pub(crate) use asked;
