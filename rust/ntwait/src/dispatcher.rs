// SPDX-License-Identifier: MIT OR Apache-2.0
//! The dispatcher: each call of `c/nt.h` as a method, by Win32's name.
use crate::raw::{asked, call, Room};
use crate::types::{Access, Apc, Grant, Handle, Moment, Object, PendingWait, Refused, Status, Thread, Timeout, Told, Wait, Why};
use ntwait_sys as sys;

type Answer<T> = Result<T, Refused>;

/// A dispatcher of waitable objects. It is `Send`, and not `Sync`: keep it under a lock where threads share it.
pub struct Dispatcher {
    room: Room,
    threads: u32,
}

/// Makes a call of the thread that answers a reply.
macro_rules! ask {
    ($self:ident, $name:ident $(, $argument:expr)*) => {
        asked!($self.room, $name $(, $argument)*).map_err(Refused::of)
    };
}

/// The value that a reader writes; None if there is none.
fn there_is<T>(error: u32, value: T) -> Answer<Option<T>> {
    match error {
        sys::NT_ERROR_NO_MORE_ITEMS => Ok(None),
        error => Refused::unless(error).map(|()| Some(value)),
    }
}

#[inline]
fn wait_of(reply: sys::nt_reply) -> Wait {
    match reply.kind {
        sys::NT_STATUS => Wait::Ended(Status::of(reply.number)),
        _ => Wait::Pending,
    }
}

#[inline]
fn number_of(reply: sys::nt_reply) -> Handle {
    Handle(reply.number)
}

/// A dispatcher comes and goes.
impl Dispatcher {
    /// For this many threads, 1 to 256. Each number of a handle is given once.
    ///
    /// ```
    /// use ntwait::{Dispatcher, Refused};
    /// assert_eq!(Dispatcher::new(2)?.threads(), 2);
    /// assert_eq!(Dispatcher::new(0).err(), Some(Refused::InvalidParameter));
    /// # Ok::<(), Refused>(())
    /// ```
    pub fn new(threads: u32) -> Answer<Dispatcher> {
        let room = Room::new().ok_or(Refused::NotEnoughMemory)?;
        Refused::unless(call!(room, nt_open, threads))?;
        Ok(Dispatcher { room, threads })
    }

    /// For up to 4,096 threads. The numbers of closed handles, of objects that are gone and of ended threads are given again.
    ///
    /// ```
    /// # use ntwait::{Dispatcher, Refused, Thread};
    /// let mut nt = Dispatcher::lasting(4096)?;
    /// let event = nt.create_event(Thread(0), false, false)?;
    /// nt.close_handle(Thread(0), event)?;
    /// assert_eq!(nt.create_event(Thread(0), false, false)?, event);
    /// # Ok::<(), Refused>(())
    /// ```
    pub fn lasting(threads: u32) -> Answer<Dispatcher> {
        let room = Room::new().ok_or(Refused::NotEnoughMemory)?;
        Refused::unless(call!(room, nt_open_lasting, threads))?;
        Ok(Dispatcher { room, threads })
    }

    /// An equal dispatcher, as a point to come back to.
    ///
    /// ```
    /// # use ntwait::{Dispatcher, Object, Refused, Thread};
    /// let mut nt = Dispatcher::new(1)?;
    /// let event = nt.create_event(Thread(0), true, false)?;
    /// let point = nt.try_clone()?;
    /// nt.set_event(Thread(0), event)?;
    /// assert_eq!(point.object(event.0)?, Object::Event { manual_reset: true, is_set: false });
    /// # Ok::<(), Refused>(())
    /// ```
    pub fn try_clone(&self) -> Answer<Dispatcher> {
        let room = Room::new().ok_or(Refused::NotEnoughMemory)?;
        Refused::unless(self.room.copy(&room))?;
        Ok(Dispatcher { room, threads: self.threads })
    }

    /// How many threads there are.
    pub fn threads(&self) -> u32 {
        self.threads
    }

    /// Of a lasting dispatcher: a thread begins in the place of one that has ended and that no handle names. NoMoreItems if there is no such place.
    ///
    /// ```
    /// # use ntwait::{Dispatcher, Refused, Thread};
    /// let mut nt = Dispatcher::lasting(2)?;
    /// assert_eq!(nt.begin(), Err(Refused::NoMoreItems));
    /// let (one, other) = (Thread(0), Thread(1));
    /// nt.exit_thread(other)?;
    /// nt.close_handle(one, other.handle())?;
    /// let spare = nt.create_event(one, false, false)?;
    /// nt.close_handle(one, spare)?;
    /// assert_eq!(nt.begin()?.0, other);
    /// # Ok::<(), Refused>(())
    /// ```
    pub fn begin(&mut self) -> Answer<(Thread, Handle)> {
        let mut begun = sys::nt_begun::default();
        Refused::unless(call!(self.room, nt_begin; begun))?;
        Ok((Thread(begun.thread), Handle(begun.handle)))
    }

    /// Of a lasting dispatcher: an ended thread that handles still name leaves its place to another. It walks all handles.
    ///
    /// Refused with `HandleLimit` if no object number is spare; an object that is made and closed leaves one.
    ///
    /// ```
    /// # use ntwait::{Dispatcher, Refused, Thread};
    /// let mut nt = Dispatcher::lasting(2)?;
    /// nt.exit_thread(Thread(1))?;
    /// assert_eq!(nt.set_aside(Thread(1)), Err(Refused::HandleLimit));
    /// let spare = nt.create_event(Thread(0), false, false)?;
    /// nt.close_handle(Thread(0), spare)?;
    /// nt.set_aside(Thread(1))?;
    /// assert_eq!(nt.set_aside(Thread(0)), Err(Refused::InvalidHandle));
    /// # Ok::<(), Refused>(())
    /// ```
    pub fn set_aside(&mut self, thread: Thread) -> Answer<()> {
        Refused::unless(call!(self.room, nt_set_aside, thread.0))
    }

    /// From now on the dispatcher gives numbers again, as a lasting one does. It walks all handles and objects.
    ///
    /// ```
    /// # use ntwait::{Dispatcher, Refused, Thread};
    /// let mut nt = Dispatcher::new(1)?;
    /// let event = nt.create_event(Thread(0), false, false)?;
    /// nt.close_handle(Thread(0), event)?;
    /// nt.give_again()?;
    /// assert_eq!(nt.create_event(Thread(0), false, false)?, event);
    /// # Ok::<(), Refused>(())
    /// ```
    pub fn give_again(&mut self) -> Answer<()> {
        Refused::unless(call!(self.room, nt_give_again))
    }
}

/// Calls of a thread, its first argument.
impl Dispatcher {
    /// CreateEvent.
    ///
    /// ```
    /// # use ntwait::{Dispatcher, Refused, Status, Thread, Timeout, Wait};
    /// let mut nt = Dispatcher::new(1)?;
    /// let event = nt.create_event(Thread(0), false, true)?;
    /// let wait = |nt: &mut Dispatcher| nt.wait_for_single_object(Thread(0), event, Timeout::ZERO, false);
    /// assert_eq!(wait(&mut nt)?, Wait::Ended(Status::Object(0)));
    /// assert_eq!(wait(&mut nt)?, Wait::Ended(Status::Timeout));
    /// # Ok::<(), Refused>(())
    /// ```
    #[inline]
    pub fn create_event(&mut self, thread: Thread, manual_reset: bool, initial_state: bool) -> Answer<Handle> {
        let manual = if manual_reset { sys::NT_EVENT_MANUAL_RESET } else { 0 };
        let set = if initial_state { sys::NT_EVENT_INITIAL_SET } else { 0 };
        ask!(self, nt_create_event, thread.0, manual | set).map(number_of)
    }

    /// SetEvent: signals the event, which ends waits.
    ///
    /// ```
    /// # use ntwait::{Dispatcher, Handle, Refused, Thread};
    /// let mut nt = Dispatcher::new(1)?;
    /// let event = nt.create_event(Thread(0), false, false)?;
    /// nt.set_event(Thread(0), event)?;
    /// assert_eq!(nt.set_event(Thread(0), Handle(99)), Err(Refused::InvalidHandle));
    /// # Ok::<(), Refused>(())
    /// ```
    #[inline]
    pub fn set_event(&mut self, thread: Thread, event: Handle) -> Answer<()> {
        ask!(self, nt_set_event, thread.0, event.0).map(drop)
    }

    /// ResetEvent: the event is not set from now on.
    ///
    /// ```
    /// # use ntwait::{Dispatcher, Object, Refused, Thread};
    /// let mut nt = Dispatcher::new(1)?;
    /// let event = nt.create_event(Thread(0), true, true)?;
    /// nt.reset_event(Thread(0), event)?;
    /// assert_eq!(nt.object(event.0)?, Object::Event { manual_reset: true, is_set: false });
    /// # Ok::<(), Refused>(())
    /// ```
    #[inline]
    pub fn reset_event(&mut self, thread: Thread, event: Handle) -> Answer<()> {
        ask!(self, nt_reset_event, thread.0, event.0).map(drop)
    }

    /// PulseEvent: ends the waits that pend for the event now, and leaves it not set.
    ///
    /// ```
    /// # use ntwait::{Dispatcher, Refused, Thread, Timeout};
    /// let mut nt = Dispatcher::new(3)?;
    /// let event = nt.create_event(Thread(0), true, false)?;
    /// for waiter in [Thread(1), Thread(2)] {
    ///     nt.wait_for_single_object(waiter, event, Timeout::INFINITE, false)?;
    /// }
    /// nt.pulse_event(Thread(0), event)?;
    /// assert_eq!(nt.grants().map(|grant| grant.thread.0).collect::<Vec<_>>(), [1, 2]);
    /// # Ok::<(), Refused>(())
    /// ```
    #[inline]
    pub fn pulse_event(&mut self, thread: Thread, event: Handle) -> Answer<()> {
        ask!(self, nt_pulse_event, thread.0, event.0).map(drop)
    }

    /// CreateSemaphore. InvalidParameter unless 0 <= `initial` <= `maximum` and `maximum` > 0.
    ///
    /// ```
    /// # use ntwait::{Dispatcher, Refused, Thread};
    /// let mut nt = Dispatcher::new(1)?;
    /// nt.create_semaphore(Thread(0), 1, 2)?;
    /// assert_eq!(nt.create_semaphore(Thread(0), 3, 2), Err(Refused::InvalidParameter));
    /// # Ok::<(), Refused>(())
    /// ```
    #[inline]
    pub fn create_semaphore(&mut self, thread: Thread, initial: i32, maximum: i32) -> Answer<Handle> {
        ask!(self, nt_create_semaphore, thread.0, initial, maximum).map(number_of)
    }

    /// ReleaseSemaphore: returns the count before. TooManyPosts if the maximum would be passed.
    ///
    /// ```
    /// # use ntwait::{Dispatcher, Refused, Thread};
    /// let mut nt = Dispatcher::new(1)?;
    /// let semaphore = nt.create_semaphore(Thread(0), 0, 2)?;
    /// assert_eq!(nt.release_semaphore(Thread(0), semaphore, 2)?, 0);
    /// assert_eq!(nt.release_semaphore(Thread(0), semaphore, 1), Err(Refused::TooManyPosts));
    /// # Ok::<(), Refused>(())
    /// ```
    #[inline]
    pub fn release_semaphore(&mut self, thread: Thread, semaphore: Handle, count: i32) -> Answer<i32> {
        ask!(self, nt_release_semaphore, thread.0, semaphore.0, count).map(|reply| reply.previous)
    }

    /// CreateMutex. The thread owns it from the beginning if `initial_owner`.
    ///
    /// ```
    /// # use ntwait::{Dispatcher, Object, Refused, Thread};
    /// let mut nt = Dispatcher::new(1)?;
    /// let mutex = nt.create_mutex(Thread(0), true)?;
    /// assert_eq!(nt.object(mutex.0)?, Object::Mutex { owner: Some(Thread(0)), depth: 1, is_abandoned: false });
    /// # Ok::<(), Refused>(())
    /// ```
    #[inline]
    pub fn create_mutex(&mut self, thread: Thread, initial_owner: bool) -> Answer<Handle> {
        let flags = if initial_owner { sys::NT_MUTEX_INITIAL_OWNER } else { 0 };
        ask!(self, nt_create_mutex, thread.0, flags).map(number_of)
    }

    /// ReleaseMutex. NotOwner if the thread does not own the mutex.
    ///
    /// ```
    /// # use ntwait::{Dispatcher, Refused, Thread};
    /// let mut nt = Dispatcher::new(2)?;
    /// let mutex = nt.create_mutex(Thread(0), true)?;
    /// assert_eq!(nt.release_mutex(Thread(1), mutex), Err(Refused::NotOwner));
    /// nt.release_mutex(Thread(0), mutex)?;
    /// # Ok::<(), Refused>(())
    /// ```
    #[inline]
    pub fn release_mutex(&mut self, thread: Thread, mutex: Handle) -> Answer<()> {
        ask!(self, nt_release_mutex, thread.0, mutex.0).map(drop)
    }

    /// CreateWaitableTimer.
    ///
    /// ```
    /// # use ntwait::{Dispatcher, Object, Refused, Thread};
    /// let mut nt = Dispatcher::new(1)?;
    /// let timer = nt.create_timer(Thread(0), true)?;
    /// assert_eq!(nt.object(timer.0)?, Object::Timer { manual_reset: true, is_set: false, due: None, period: 0 });
    /// # Ok::<(), Refused>(())
    /// ```
    #[inline]
    pub fn create_timer(&mut self, thread: Thread, manual_reset: bool) -> Answer<Handle> {
        let flags = if manual_reset { sys::NT_TIMER_MANUAL_RESET } else { 0 };
        ask!(self, nt_create_timer, thread.0, flags).map(number_of)
    }

    /// SetWaitableTimer: `due` is a moment in units of 100 ns, or from now on if it is negative; `period` is in milliseconds. With a
    /// routine and its argument, an APC is queued to the thread whenever the timer expires.
    ///
    /// ```
    /// # use ntwait::{Apc, Dispatcher, Moment, Refused, Thread, Timeout};
    /// let (mut nt, thread) = (Dispatcher::new(1)?, Thread(0));
    /// let timer = nt.create_timer(thread, false)?;
    /// nt.set_timer(thread, timer, -20_000, 0, Some((7, 9)))?;
    /// nt.sleep(thread, Timeout::INFINITE, true)?;
    /// nt.tick(Moment::from_ms(2))?;
    /// assert_eq!(nt.next_apc(thread)?, Some(Apc { routine: 7, argument: 9, due: Some(Moment::from_ms(2)) }));
    /// # Ok::<(), Refused>(())
    /// ```
    #[inline]
    pub fn set_timer(&mut self, thread: Thread, timer: Handle, due: i64, period: i32, routine: Option<(u64, u64)>) -> Answer<()> {
        match routine {
            None => ask!(self, nt_set_timer, thread.0, timer.0, due, period).map(drop),
            Some((routine, argument)) => ask!(self, nt_set_timer_apc, thread.0, timer.0, due, period, routine, argument).map(drop),
        }
    }

    /// CancelWaitableTimer: the timer does not expire, and its queued APC is withdrawn.
    ///
    /// ```
    /// # use ntwait::{Dispatcher, Moment, Refused, Thread};
    /// let mut nt = Dispatcher::new(1)?;
    /// let timer = nt.create_timer(Thread(0), false)?;
    /// nt.set_timer(Thread(0), timer, 5, 0, None)?;
    /// assert_eq!(nt.due(Moment::MAX)?, Some(Moment(5)));
    /// nt.cancel_timer(Thread(0), timer)?;
    /// assert_eq!(nt.due(Moment::MAX)?, None);
    /// # Ok::<(), Refused>(())
    /// ```
    #[inline]
    pub fn cancel_timer(&mut self, thread: Thread, timer: Handle) -> Answer<()> {
        ask!(self, nt_cancel_timer, thread.0, timer.0).map(drop)
    }

    /// QueueUserAPC, to the thread that `target` names.
    ///
    /// ```
    /// # use ntwait::{Dispatcher, Refused, Status, Thread, Timeout};
    /// let mut nt = Dispatcher::new(2)?;
    /// nt.sleep(Thread(1), Timeout::INFINITE, true)?;
    /// nt.queue_apc(Thread(0), Thread(1).handle(), 7, 9)?;
    /// assert_eq!(nt.grants().next().unwrap().status, Status::IoCompletion);
    /// # Ok::<(), Refused>(())
    /// ```
    #[inline]
    pub fn queue_apc(&mut self, thread: Thread, target: Handle, routine: u64, argument: u64) -> Answer<()> {
        ask!(self, nt_queue_apc, thread.0, target.0, routine, argument).map(drop)
    }

    /// Takes the thread's oldest APC. A thread takes APCs once a wait of its own ended with `Status::IoCompletion`.
    ///
    /// ```
    /// # use ntwait::{Apc, Dispatcher, Refused, Status, Thread, Timeout, Wait};
    /// let (mut nt, thread) = (Dispatcher::new(1)?, Thread(0));
    /// nt.queue_apc(thread, thread.handle(), 7, 9)?;
    /// assert_eq!(nt.sleep(thread, Timeout(5), true)?, Wait::Ended(Status::IoCompletion));
    /// assert_eq!(nt.next_apc(thread)?, Some(Apc { routine: 7, argument: 9, due: None }));
    /// assert_eq!(nt.next_apc(thread)?, None);
    /// # Ok::<(), Refused>(())
    /// ```
    #[inline]
    pub fn next_apc(&mut self, thread: Thread) -> Answer<Option<Apc>> {
        let reply = ask!(self, nt_next_apc, thread.0)?;
        let due = reply.timed.then_some(Moment(reply.at));
        Ok((reply.kind == sys::NT_APC).then_some(Apc { routine: reply.routine, argument: reply.arg, due }))
    }

    /// DuplicateHandle: one more handle for what this one names, with these rights.
    ///
    /// ```
    /// # use ntwait::{Access, Dispatcher, Refused, Thread};
    /// let mut nt = Dispatcher::new(1)?;
    /// let event = nt.create_event(Thread(0), false, false)?;
    /// let for_waits = nt.duplicate_handle(Thread(0), event, Access::SYNCHRONIZE)?;
    /// assert_eq!(nt.set_event(Thread(0), for_waits), Err(Refused::AccessDenied));
    /// # Ok::<(), Refused>(())
    /// ```
    #[inline]
    pub fn duplicate_handle(&mut self, thread: Thread, handle: Handle, access: Access) -> Answer<Handle> {
        ask!(self, nt_duplicate, thread.0, handle.0, access.0).map(number_of)
    }

    /// CloseHandle. An object that no handle and no pending wait names ends.
    ///
    /// ```
    /// # use ntwait::{Dispatcher, Object, Refused, Thread};
    /// let mut nt = Dispatcher::new(1)?;
    /// let event = nt.create_event(Thread(0), false, false)?;
    /// nt.close_handle(Thread(0), event)?;
    /// assert_eq!(nt.object(event.0)?, Object::Gone);
    /// # Ok::<(), Refused>(())
    /// ```
    #[inline]
    pub fn close_handle(&mut self, thread: Thread, handle: Handle) -> Answer<()> {
        ask!(self, nt_close_handle, thread.0, handle.0).map(drop)
    }

    /// ExitThread: the thread makes no further calls, and its mutexes are abandoned.
    ///
    /// ```
    /// # use ntwait::{Dispatcher, Refused, Status, Thread, Timeout, Wait};
    /// let mut nt = Dispatcher::new(2)?;
    /// let mutex = nt.create_mutex(Thread(0), true)?;
    /// nt.exit_thread(Thread(0))?;
    /// let wait = nt.wait_for_single_object(Thread(1), mutex, Timeout::ZERO, false)?;
    /// assert_eq!(wait, Wait::Ended(Status::Abandoned(0)));
    /// # Ok::<(), Refused>(())
    /// ```
    #[inline]
    pub fn exit_thread(&mut self, thread: Thread) -> Answer<()> {
        ask!(self, nt_exit, thread.0).map(drop)
    }

    /// WaitForSingleObjectEx.
    ///
    /// ```
    /// # use ntwait::{Dispatcher, Refused, Thread, Timeout, Wait};
    /// let mut nt = Dispatcher::new(2)?;
    /// let wait = nt.wait_for_single_object(Thread(0), Thread(1).handle(), Timeout::INFINITE, false)?;
    /// assert_eq!(wait, Wait::Pending);
    /// assert_eq!(nt.set_event(Thread(0), Thread(1).handle()), Err(Refused::ThreadWaiting));
    /// # Ok::<(), Refused>(())
    /// ```
    #[inline]
    pub fn wait_for_single_object(&mut self, thread: Thread, handle: Handle, timeout: Timeout, alertable: bool) -> Answer<Wait> {
        ask!(self, nt_wait_object, thread.0, handle.0, timeout.0, alertable).map(wait_of)
    }

    /// WaitForMultipleObjectsEx, for any of 1 to 64 objects or for all. InvalidParameter for a list of none or of more.
    ///
    /// ```
    /// # use ntwait::{Dispatcher, Refused, Status, Thread, Timeout, Wait};
    /// let (mut nt, thread) = (Dispatcher::new(1)?, Thread(0));
    /// let events = [nt.create_event(thread, false, false)?, nt.create_event(thread, false, true)?];
    /// let wait = nt.wait_for_multiple_objects(thread, &events, false, Timeout::INFINITE, false)?;
    /// assert_eq!(wait, Wait::Ended(Status::Object(1)));
    /// assert_eq!(nt.wait_for_multiple_objects(thread, &[], true, Timeout::ZERO, false), Err(Refused::InvalidParameter));
    /// # Ok::<(), Refused>(())
    /// ```
    #[inline]
    pub fn wait_for_multiple_objects(
        &mut self,
        thread: Thread,
        handles: &[Handle],
        wait_all: bool,
        timeout: Timeout,
        alertable: bool,
    ) -> Answer<Wait> {
        const MOST: usize = sys::NT_MAXIMUM_WAIT_OBJECTS as usize;
        let mut numbers = [0; MOST];
        // (as a list of none the dispatcher refuses one that is too long)
        let handles = if handles.len() <= MOST { handles } else { &[] };
        for (number, handle) in numbers.iter_mut().zip(handles) {
            *number = handle.0;
        }
        let list = numbers.as_ptr();
        ask!(self, nt_wait_objects, thread.0, list, handles.len(), wait_all, timeout.0, alertable).map(wait_of)
    }

    /// SleepEx: ends with `Status::Object(0)` once the time is up, or with `Status::IoCompletion`.
    ///
    /// ```
    /// # use ntwait::{Dispatcher, Moment, Refused, Status, Thread, Timeout, Wait};
    /// let mut nt = Dispatcher::new(1)?;
    /// assert_eq!(nt.sleep(Thread(0), Timeout(5), false)?, Wait::Pending);
    /// nt.tick(Moment::from_ms(5))?;
    /// assert_eq!(nt.grants().next().unwrap().status, Status::Object(0));
    /// # Ok::<(), Refused>(())
    /// ```
    #[inline]
    pub fn sleep(&mut self, thread: Thread, timeout: Timeout, alertable: bool) -> Answer<Wait> {
        ask!(self, nt_sleep, thread.0, timeout.0, alertable).map(wait_of)
    }

    /// SignalObjectAndWait: signals the first object, and waits for the second.
    ///
    /// ```
    /// # use ntwait::{Dispatcher, Object, Refused, Thread, Timeout, Wait};
    /// let (mut nt, thread) = (Dispatcher::new(1)?, Thread(0));
    /// let (one, two) = (nt.create_event(thread, true, false)?, nt.create_event(thread, false, false)?);
    /// assert_eq!(nt.signal_object_and_wait(thread, one, two, Timeout::INFINITE, false)?, Wait::Pending);
    /// assert_eq!(nt.object(one.0)?, Object::Event { manual_reset: true, is_set: true });
    /// # Ok::<(), Refused>(())
    /// ```
    #[inline]
    pub fn signal_object_and_wait(&mut self, thread: Thread, signal: Handle, wait: Handle, timeout: Timeout, alertable: bool) -> Answer<Wait> {
        ask!(self, nt_swap, thread.0, signal.0, wait.0, timeout.0, alertable).map(wait_of)
    }
}

/// Time, and what there is to read.
impl Dispatcher {
    /// Lets the moments up to this one pass: timers expire, and waits time out, each at its own moment.
    ///
    /// ```
    /// # use ntwait::{Dispatcher, Moment, Refused};
    /// let mut nt = Dispatcher::new(1)?;
    /// nt.tick(Moment(5))?;
    /// assert_eq!(nt.tick(Moment(4)), Err(Refused::MomentBack));
    /// assert_eq!(nt.now(), Moment(5));
    /// # Ok::<(), Refused>(())
    /// ```
    pub fn tick(&mut self, moment: Moment) -> Answer<()> {
        Refused::unless(call!(self.room, nt_tick, moment.0))
    }

    /// The present moment, that of the last tick.
    pub fn now(&self) -> Moment {
        let mut moment = 0;
        call!(self.room, nt_now; moment);
        Moment(moment)
    }

    /// The next moment up to this one at which a timer is due or a wait times out.
    ///
    /// ```
    /// # use ntwait::{Dispatcher, Moment, Refused, Thread, Timeout};
    /// let mut nt = Dispatcher::new(1)?;
    /// nt.sleep(Thread(0), Timeout(5), false)?;
    /// assert_eq!(nt.due(Moment::MAX)?, Some(Moment::from_ms(5)));
    /// assert_eq!(nt.due(Moment::from_ms(4))?, None);
    /// # Ok::<(), Refused>(())
    /// ```
    pub fn due(&self, up_to: Moment) -> Answer<Option<Moment>> {
        let mut moment = 0;
        let error = call!(self.room, nt_due, up_to.0; moment);
        there_is(error, Moment(moment))
    }

    /// The waits that the last call or tick ended, in the order in which they ended.
    pub fn grants(&self) -> impl Iterator<Item = Grant> + '_ {
        (0..).map_while(|index: usize| {
            let mut grant = sys::nt_grant::default();
            let error = call!(self.room, nt_grant, index; grant);
            (error == 0).then(|| Grant { thread: Thread(grant.thread), status: Status::of(grant.status) })
        })
    }

    /// For a driver that blocks its threads: whom the last call or tick wakes. Grants come first, and then perhaps a thread that is to tick
    /// and to pend again.
    ///
    /// ```
    /// # use ntwait::{Dispatcher, Moment, Refused, Status, Thread, Timeout, Told};
    /// let mut nt = Dispatcher::new(2)?;
    /// let event = nt.create_event(Thread(0), false, false)?;
    /// nt.wait_for_single_object(Thread(1), event, Timeout(3), false)?;
    /// assert_eq!(nt.pend(Thread(1), false)?, Some(Moment::from_ms(3)));
    /// nt.set_event(Thread(0), event)?;
    /// assert_eq!(nt.told().collect::<Vec<_>>(), [Told { thread: Thread(1), status: Some(Status::Object(0)) }]);
    /// # Ok::<(), Refused>(())
    /// ```
    pub fn told(&self) -> impl Iterator<Item = Told> + '_ {
        (0..).map_while(|index: usize| {
            let mut told = sys::nt_told::default();
            let error = call!(self.room, nt_told, index; told);
            let status = (!told.called).then(|| Status::of(told.status));
            (error == 0).then_some(Told { thread: Thread(told.thread), status })
        })
    }

    /// For a driver that blocks its threads: the thread, whose wait pends, sleeps from now on; to the moment that is returned at the longest. It
    /// `watches` if a timer may end its wait.
    pub fn pend(&mut self, thread: Thread, watches: bool) -> Answer<Option<Moment>> {
        let mut moment = 0;
        let error = call!(self.room, nt_pend, thread.0, watches; moment);
        there_is(error, Moment(moment))
    }

    /// For a driver that blocks its threads: the thread no longer sleeps, though its wait may pend.
    ///
    /// ```
    /// # use ntwait::{Dispatcher, Refused, Thread, Timeout};
    /// let mut nt = Dispatcher::new(1)?;
    /// nt.sleep(Thread(0), Timeout(3), false)?;
    /// nt.pend(Thread(0), true)?;
    /// nt.woke(Thread(0))?;
    /// # Ok::<(), Refused>(())
    /// ```
    pub fn woke(&mut self, thread: Thread) -> Answer<()> {
        Refused::unless(call!(self.room, nt_woke, thread.0))
    }

    /// How many waits pend.
    pub fn pending(&self) -> usize {
        let mut waits = 0;
        call!(self.room, nt_pending; waits);
        waits
    }

    /// How many pending waits the last call or tick looked at.
    pub fn tested(&self) -> u64 {
        let mut waits = 0;
        call!(self.room, nt_tested; waits);
        waits
    }

    /// Whether the thread's wait pends.
    pub fn is_waiting(&self, thread: Thread) -> Answer<bool> {
        let mut waits = false;
        let error = call!(self.room, nt_is_waiting, thread.0; waits);
        Refused::unless(error).map(|()| waits)
    }

    /// What the thread's pending wait waits for, if it has one.
    ///
    /// ```
    /// # use ntwait::{Dispatcher, PendingWait, Refused, Thread, Timeout};
    /// let mut nt = Dispatcher::new(1)?;
    /// let event = nt.create_event(Thread(0), false, false)?;
    /// assert_eq!(nt.pending_wait(Thread(0))?, None);
    /// nt.wait_for_single_object(Thread(0), event, Timeout::INFINITE, true)?;
    /// assert_eq!(nt.pending_wait(Thread(0))?, Some(PendingWait { count: 1, all: false, alertable: true, deadline: None }));
    /// assert_eq!(nt.waited_object(Thread(0), 0)?, Some(event.0));
    /// # Ok::<(), Refused>(())
    /// ```
    pub fn pending_wait(&self, thread: Thread) -> Answer<Option<PendingWait>> {
        let mut it = sys::nt_pending_wait::default();
        let error = call!(self.room, nt_waits_for, thread.0; it);
        let deadline = it.timed.then_some(Moment(it.deadline));
        there_is(error, PendingWait { count: it.count, all: it.all, alertable: it.alertable, deadline })
    }

    /// The number of the object at this index among those for which the thread's wait pends. Objects have numbers of their own: thread t has
    /// the number t, and what is created has the next number each time.
    pub fn waited_object(&self, thread: Thread, index: usize) -> Answer<Option<u32>> {
        let mut number = 0;
        let error = call!(self.room, nt_waited_object, thread.0, index; number);
        there_is(error, number)
    }

    /// What the handle names: an object's number, with the handle's rights.
    ///
    /// ```
    /// # use ntwait::{Access, Dispatcher, Refused, Thread};
    /// let nt = Dispatcher::new(1)?;
    /// assert_eq!(nt.opened(Thread(0).handle())?, (0, Access::SYNCHRONIZE | Access::SET_CONTEXT));
    /// # Ok::<(), Refused>(())
    /// ```
    pub fn opened(&self, handle: Handle) -> Answer<(u32, Access)> {
        let mut it = sys::nt_opened::default();
        let error = call!(self.room, nt_opened, handle.0; it);
        Refused::unless(error).map(|()| (it.object, Access(it.access)))
    }

    /// The object with this number.
    ///
    /// ```
    /// # use ntwait::{Dispatcher, Object, Refused, Thread};
    /// let mut nt = Dispatcher::new(1)?;
    /// let semaphore = nt.create_semaphore(Thread(0), 2, 5)?;
    /// assert_eq!(nt.object(semaphore.0)?, Object::Semaphore { count: 2, maximum: 5 });
    /// assert_eq!(nt.object(0)?, Object::Thread { has_ended: false });
    /// # Ok::<(), Refused>(())
    /// ```
    pub fn object(&self, number: u32) -> Answer<Object> {
        let mut it = sys::nt_object::default();
        let error = call!(self.room, nt_object, number; it);
        Refused::unless(error).map(|()| Object::of(&it))
    }

    /// Why threads wait. Threads marked in `over` make no further calls. In `knot`, which has a place for each thread, those are marked that hold each
    /// other: nothing ends their waits, whatever is called. InvalidParameter if `knot` is shorter.
    ///
    /// ```
    /// # use ntwait::{Dispatcher, Moment, Refused, Thread, Timeout, Why};
    /// let mut nt = Dispatcher::new(2)?;
    /// let mutexes = [nt.create_mutex(Thread(0), true)?, nt.create_mutex(Thread(1), true)?];
    /// nt.wait_for_single_object(Thread(0), mutexes[1], Timeout::INFINITE, false)?;
    /// nt.wait_for_single_object(Thread(1), mutexes[0], Timeout::INFINITE, false)?;
    /// let mut knot = [false; 2];
    /// assert_eq!(nt.why(&[], Moment::MAX, &mut knot)?, Why { is_stuck: true, next: None });
    /// assert_eq!(knot, [true, true]);
    /// # Ok::<(), Refused>(())
    /// ```
    pub fn why(&self, over: &[bool], up_to: Moment, knot: &mut [bool]) -> Answer<Why> {
        let mut it = sys::nt_why::default();
        let error = self.room.why(over, up_to.0, &mut it, knot);
        Refused::unless(error).map(|()| Why { is_stuck: it.stuck, next: it.due.then_some(Moment(it.next)) })
    }
}
