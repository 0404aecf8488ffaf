// SPDX-License-Identifier: MIT OR Apache-2.0
//! Numbers, statuses and errors, each a type of its own.
use ntwait_sys as sys;
use std::fmt;

/// A thread's number. Threads have the numbers from 0 on.
#[derive(Clone, Copy, PartialEq, Eq, PartialOrd, Ord, Hash, Debug)]
pub struct Thread(pub u32);

/// A handle: what calls name objects by.
#[derive(Clone, Copy, PartialEq, Eq, PartialOrd, Ord, Hash, Debug)]
pub struct Handle(pub u32);

impl Thread {
    /// The handle that the thread has from the beginning.
    pub fn handle(self) -> Handle {
        Handle(self.0)
    }
}

/// A moment, in units of 100 ns since the dispatcher was opened.
#[derive(Clone, Copy, PartialEq, Eq, PartialOrd, Ord, Hash, Debug, Default)]
pub struct Moment(pub u64);

impl Moment {
    /// The greatest moment. No tick is to a later one.
    pub const MAX: Moment = Moment(sys::NT_GREATEST_MOMENT);

    /// This many milliseconds after moment 0.
    pub const fn from_ms(ms: u64) -> Moment {
        Moment(ms * 10_000)
    }
}

/// How long a wait may pend, in milliseconds.
#[derive(Clone, Copy, PartialEq, Eq, Hash, Debug)]
pub struct Timeout(pub u32);

impl Timeout {
    /// The wait has no deadline.
    pub const INFINITE: Timeout = Timeout(sys::NT_INFINITE);
    /// The wait ends at once, whether its objects let it or not.
    pub const ZERO: Timeout = Timeout(0);
}

/// How a wait ended.
#[derive(Clone, Copy, PartialEq, Eq, Hash, Debug)]
pub enum Status {
    /// By the object at this index; a wait for all has index 0.
    Object(u32),
    /// By the mutex at this index, whose last owner ended while it held it.
    Abandoned(u32),
    /// By an APC.
    IoCompletion,
    /// Its time is up.
    Timeout,
}

impl Status {
    /// Windows' number.
    pub fn code(self) -> u32 {
        match self {
            Status::Object(index) => sys::NT_WAIT_OBJECT_0 + index,
            Status::Abandoned(index) => sys::NT_WAIT_ABANDONED_0 + index,
            Status::IoCompletion => sys::NT_WAIT_IO_COMPLETION,
            Status::Timeout => sys::NT_WAIT_TIMEOUT,
        }
    }

    #[inline]
    pub(crate) fn of(code: u32) -> Status {
        match code {
            index if index < sys::NT_MAXIMUM_WAIT_OBJECTS => Status::Object(index),
            sys::NT_WAIT_TIMEOUT => Status::Timeout,
            sys::NT_WAIT_IO_COMPLETION => Status::IoCompletion,
            code => Status::Abandoned(code - sys::NT_WAIT_ABANDONED_0),
        }
    }
}

/// What a wait does: it ends at once, or it pends, and a later call or tick ends it.
#[derive(Clone, Copy, PartialEq, Eq, Hash, Debug)]
pub enum Wait {
    /// It ended at once.
    Ended(Status),
    /// It pends.
    Pending,
}

/// A pending wait that a call or tick ended.
#[derive(Clone, Copy, PartialEq, Eq, Hash, Debug)]
pub struct Grant {
    /// Whose wait it was.
    pub thread: Thread,
    /// How it ended.
    pub status: Status,
}

/// What a thread learns while it sleeps: that its wait ended; or, without a status, that it is to tick and to pend again.
#[derive(Clone, Copy, PartialEq, Eq, Hash, Debug)]
pub struct Told {
    /// Which thread.
    pub thread: Thread,
    /// How its wait ended, if it did.
    pub status: Option<Status>,
}

/// A routine with its argument, and the moment at which its timer was due if it is a timer's.
#[derive(Clone, Copy, PartialEq, Eq, Hash, Debug)]
pub struct Apc {
    /// What the caller named as the routine.
    pub routine: u64,
    /// What the caller named as its argument.
    pub argument: u64,
    /// When the timer was due that queued it.
    pub due: Option<Moment>,
}

/// The rights of a handle.
#[derive(Clone, Copy, PartialEq, Eq, Hash, Debug, Default)]
pub struct Access(pub u32);

impl Access {
    /// No right.
    pub const NONE: Access = Access(0);
    /// To wait for the object.
    pub const SYNCHRONIZE: Access = Access(sys::NT_SYNCHRONIZE);
    /// To signal an event or a semaphore, or to set or cancel a timer.
    pub const MODIFY_STATE: Access = Access(sys::NT_MODIFY_STATE);
    /// To queue an APC to the thread.
    pub const SET_CONTEXT: Access = Access(sys::NT_SET_CONTEXT);

    /// Whether these rights have all of the others.
    pub const fn contains(self, other: Access) -> bool {
        self.0 & other.0 == other.0
    }
}

impl std::ops::BitOr for Access {
    type Output = Access;

    fn bitor(self, other: Access) -> Access {
        Access(self.0 | other.0)
    }
}

/// Why a call is refused. A refused call changes nothing.
#[derive(Clone, Copy, PartialEq, Eq, Hash, Debug)]
#[non_exhaustive]
pub enum Refused {
    /// The handle lacks a right that the call needs.
    AccessDenied,
    /// The number names no object, or none of the kind that the call is for.
    InvalidHandle,
    /// The call had to grow, and memory was refused.
    NotEnoughMemory,
    /// The thread has ended.
    GenFailure,
    /// An argument that no state allows.
    InvalidParameter,
    /// There is none.
    NoMoreItems,
    /// The mutex is not the caller's.
    NotOwner,
    /// The semaphore's maximum would be passed.
    TooManyPosts,
    /// The caller waits.
    ThreadWaiting,
    /// The caller has ended.
    ThreadEnded,
    /// No thread has this number.
    UnknownThread,
    /// A wait for a mutex that the caller holds 2147483647 deep.
    RecursionLimit,
    /// A tick to a moment that is past.
    MomentBack,
    /// All handle numbers are used.
    HandleLimit,
}

const NUMBERS: [(Refused, u32); 14] = [
    (Refused::AccessDenied, sys::NT_ERROR_ACCESS_DENIED),
    (Refused::InvalidHandle, sys::NT_ERROR_INVALID_HANDLE),
    (Refused::NotEnoughMemory, sys::NT_ERROR_NOT_ENOUGH_MEMORY),
    (Refused::GenFailure, sys::NT_ERROR_GEN_FAILURE),
    (Refused::InvalidParameter, sys::NT_ERROR_INVALID_PARAMETER),
    (Refused::NoMoreItems, sys::NT_ERROR_NO_MORE_ITEMS),
    (Refused::NotOwner, sys::NT_ERROR_NOT_OWNER),
    (Refused::TooManyPosts, sys::NT_ERROR_TOO_MANY_POSTS),
    (Refused::ThreadWaiting, sys::NT_ERROR_THREAD_WAITING),
    (Refused::ThreadEnded, sys::NT_ERROR_THREAD_ENDED),
    (Refused::UnknownThread, sys::NT_ERROR_UNKNOWN_THREAD),
    (Refused::RecursionLimit, sys::NT_ERROR_RECURSION_LIMIT),
    (Refused::MomentBack, sys::NT_ERROR_MOMENT_BACK),
    (Refused::HandleLimit, sys::NT_ERROR_HANDLE_LIMIT),
];

impl Refused {
    /// Windows' number, or one of the dispatcher's own, which has bit 29.
    pub fn number(self) -> u32 {
        NUMBERS[self as usize].1
    }

    /// Ok for 0, and else the refusal with this number.
    #[inline]
    pub(crate) fn unless(error: u32) -> Result<(), Refused> {
        if error == 0 {
            Ok(())
        } else {
            Err(Refused::of(error))
        }
    }

    #[cold]
    pub(crate) fn of(error: u32) -> Refused {
        let found = NUMBERS.iter().find(|(_, number)| *number == error);
        found.map_or(Refused::InvalidParameter, |(refused, _)| *refused)
    }
}

impl fmt::Display for Refused {
    fn fmt(&self, f: &mut fmt::Formatter<'_>) -> fmt::Result {
        write!(f, "refused with error {}: {self:?}", self.number())
    }
}

impl std::error::Error for Refused {}

/// What an object is.
#[derive(Clone, Copy, PartialEq, Eq, Hash, Debug)]
pub enum Object {
    /// It has ended.
    Gone,
    /// An event.
    Event {
        /// It stays set until it is reset.
        manual_reset: bool,
        /// It is signaled.
        is_set: bool,
    },
    /// A semaphore.
    Semaphore {
        /// How often it can be taken.
        count: i32,
        /// The most that the count may be.
        maximum: i32,
    },
    /// A mutex.
    Mutex {
        /// The thread that owns it.
        owner: Option<Thread>,
        /// How many releases its owner owes.
        depth: u32,
        /// Its last owner ended while it held it.
        is_abandoned: bool,
    },
    /// A timer.
    Timer {
        /// It stays set until it is armed again.
        manual_reset: bool,
        /// It is signaled.
        is_set: bool,
        /// If it is armed, when it expires.
        due: Option<Moment>,
        /// Its period in milliseconds; 0 if it expires once.
        period: u32,
    },
    /// A thread.
    Thread {
        /// It has ended, and so it is signaled.
        has_ended: bool,
    },
}

impl Object {
    pub(crate) fn of(it: &sys::nt_object) -> Object {
        match it.kind {
            sys::NT_EVENT => Object::Event { manual_reset: it.manual, is_set: it.set },
            sys::NT_SEMAPHORE => Object::Semaphore { count: it.count, maximum: it.maximum },
            sys::NT_MUTEX => {
                let owner = it.owned.then_some(Thread(it.owner));
                Object::Mutex { owner, depth: it.depth, is_abandoned: it.abandoned }
            }
            sys::NT_TIMER => {
                let due = it.armed.then_some(Moment(it.due));
                Object::Timer { manual_reset: it.manual, is_set: it.set, due, period: it.period }
            }
            sys::NT_THREAD => Object::Thread { has_ended: it.set },
            _ => Object::Gone,
        }
    }
}

/// What a pending wait waits for, besides its objects (`Dispatcher::waited_object`).
#[derive(Clone, Copy, PartialEq, Eq, Hash, Debug)]
pub struct PendingWait {
    /// How many objects it names: none for a sleep.
    pub count: usize,
    /// For all of them, and not for any.
    pub all: bool,
    /// An APC ends it.
    pub alertable: bool,
    /// When it times out.
    pub deadline: Option<Moment>,
}

/// Why threads wait.
#[derive(Clone, Copy, PartialEq, Eq, Hash, Debug)]
pub struct Why {
    /// Nothing can end the waits there are.
    pub is_stuck: bool,
    /// The next moment at which something is due.
    pub next: Option<Moment>,
}
