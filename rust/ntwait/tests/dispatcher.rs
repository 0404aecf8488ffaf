// SPDX-License-Identifier: MIT OR Apache-2.0
//! What the examples of the pages do not show: numbers of errors, limits, and dispatchers that move between threads.
use ntwait::{Dispatcher, Handle, Moment, Refused, Status, Thread, Timeout, Wait};
use std::sync::{Arc, Mutex};

const ONE: Thread = Thread(0);

#[test]
fn each_error_has_windows_number() {
    let numbers = [
        (Refused::AccessDenied, 5),
        (Refused::InvalidHandle, 6),
        (Refused::NotEnoughMemory, 8),
        (Refused::GenFailure, 31),
        (Refused::InvalidParameter, 87),
        (Refused::NoMoreItems, 259),
        (Refused::NotOwner, 288),
        (Refused::TooManyPosts, 298),
        (Refused::ThreadWaiting, 0x2000_0001),
        (Refused::ThreadEnded, 0x2000_0002),
        (Refused::UnknownThread, 0x2000_0003),
        (Refused::RecursionLimit, 0x2000_0004),
        (Refused::MomentBack, 0x2000_0005),
        (Refused::HandleLimit, 0x2000_0007),
    ];
    for (refused, number) in numbers {
        assert_eq!(refused.number(), number);
    }
    assert_eq!(Refused::NotOwner.to_string(), "refused with error 288: NotOwner");
}

#[test]
fn limits_are_refused() {
    let mut nt = Dispatcher::new(256).unwrap();
    assert_eq!(Dispatcher::new(257).err(), Some(Refused::InvalidParameter));
    assert_eq!(Dispatcher::lasting(4097).err(), Some(Refused::InvalidParameter));
    let events: Vec<_> = (0..65).map(|_| nt.create_event(ONE, false, false).unwrap()).collect();
    let mut wait = |many: usize| nt.wait_for_multiple_objects(ONE, &events[..many], false, Timeout::ZERO, false);
    assert_eq!(wait(65), Err(Refused::InvalidParameter));
    assert_eq!(wait(64), Ok(Wait::Ended(Status::Timeout)));
    assert_eq!(nt.create_event(Thread(256), false, false), Err(Refused::UnknownThread));
    assert_eq!(nt.due(Moment(Moment::MAX.0 + 1)), Err(Refused::InvalidParameter));
}

#[test]
fn a_refused_call_changes_nothing() {
    let mut nt = Dispatcher::new(2).unwrap();
    let semaphore = nt.create_semaphore(ONE, 1, 1).unwrap();
    assert_eq!(nt.signal_object_and_wait(ONE, semaphore, Handle(77), Timeout::ZERO, false), Err(Refused::InvalidHandle));
    assert_eq!(nt.wait_for_single_object(ONE, semaphore, Timeout::ZERO, false), Ok(Wait::Ended(Status::Object(0))));
    assert_eq!(nt.wait_for_single_object(ONE, semaphore, Timeout::ZERO, false), Ok(Wait::Ended(Status::Timeout)));
}

#[test]
fn threads_share_a_dispatcher_under_a_lock() {
    let shared = Arc::new(Mutex::new(Dispatcher::new(5).unwrap()));
    let semaphore = shared.lock().unwrap().create_semaphore(ONE, 0, i32::MAX).unwrap();
    let threads: Vec<_> = (1..5)
        .map(|number| {
            let shared = Arc::clone(&shared);
            std::thread::spawn(move || {
                for _ in 0..500 {
                    shared.lock().unwrap().release_semaphore(Thread(number), semaphore, 1).unwrap();
                }
            })
        })
        .collect();
    threads.into_iter().for_each(|it| it.join().unwrap());
    assert_eq!(shared.lock().unwrap().release_semaphore(ONE, semaphore, 1), Ok(2000));
}
