// SPDX-License-Identifier: MIT OR Apache-2.0
//! A proved dispatcher of Windows NT waitable objects, for threads that you drive: an emulator, a simulator, or a test of concurrent code.
//!
//! Threads are numbers. Their calls are made one after another, and each returns at once: what Win32's call would answer, or that the wait pends.
//! [`Dispatcher::grants`] has the waits that the last call or tick ended. Time passes by [`Dispatcher::tick`] alone.
//!
//! ```
//! use ntwait::{Dispatcher, Grant, Status, Thread, Timeout, Wait};
//!
//! let (first, second) = (Thread(0), Thread(1));
//! let mut nt = Dispatcher::new(2)?;
//! let event = nt.create_event(first, false, false)?;
//! assert_eq!(nt.wait_for_single_object(first, event, Timeout::INFINITE, false)?, Wait::Pending);
//! nt.set_event(second, event)?;
//! let grants: Vec<_> = nt.grants().collect();
//! assert_eq!(grants, [Grant { thread: first, status: Status::Object(0) }]);
//! # Ok::<(), ntwait::Refused>(())
//! ```
//!
//! A call that is refused changes nothing. What each call does is proved of the library below this crate, which only hands it on.
#![deny(unsafe_code)]
#![warn(missing_docs)]

mod dispatcher;
mod raw;
mod types;

pub use dispatcher::Dispatcher;
pub use types::{Access, Apc, Grant, Handle, Moment, Object, PendingWait, Refused, Status, Thread, Timeout, Told, Wait, Why};
