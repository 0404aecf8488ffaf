// SPDX-License-Identifier: MIT OR Apache-2.0
//! An emulator's main loop: guest threads run by turns, block in the dispatcher, and time jumps when all wait.
use ntwait::{Dispatcher, Handle, Moment, Refused, Status, Thread, Timeout, Wait};
use std::collections::VecDeque;

/// What a guest does next: here two philosophers, each with the forks in the other order, and a sleep before.
#[derive(Clone, Copy)]
enum Step {
    Sleep(u32),
    Take(Handle),
    PutBack(Handle),
}

fn step(nt: &mut Dispatcher, thread: Thread, step: Step) -> Result<Wait, Refused> {
    match step {
        Step::Sleep(ms) => nt.sleep(thread, Timeout(ms), false),
        Step::Take(fork) => nt.wait_for_single_object(thread, fork, Timeout::INFINITE, false),
        Step::PutBack(fork) => nt.release_mutex(thread, fork).map(|()| Wait::Ended(Status::Object(0))),
    }
}

fn main() -> Result<(), Refused> {
    let mut nt = Dispatcher::new(3)?;
    let host = Thread(0);
    let forks = [nt.create_mutex(host, false)?, nt.create_mutex(host, false)?];
    let meal = |one, two, ms| VecDeque::from([Step::Sleep(ms), Step::Take(one), Step::Take(two), Step::PutBack(two), Step::PutBack(one)]);
    let mut guests = [meal(forks[0], forks[1], 5), meal(forks[1], forks[0], 5)];
    loop {
        let ready = |nt: &Dispatcher, at: &usize| !guests[*at].is_empty() && nt.is_waiting(Thread(*at as u32 + 1)) == Ok(false);
        let ready: Vec<_> = (0..guests.len()).filter(|at| ready(&nt, at)).collect();
        for at in &ready {
            if let Some(it) = guests[*at].pop_front() {
                step(&mut nt, Thread(*at as u32 + 1), it)?;
            }
        }
        if !ready.is_empty() {
            continue;
        }
        match nt.due(Moment::MAX)? {
            Some(moment) => nt.tick(moment)?,
            None => break,
        }
    }
    let mut knot = [false; 3];
    let why = nt.why(&[true], Moment::MAX, &mut knot)?;
    println!("at {} ms: stuck: {}, guests that hold each other: {:?}", nt.now().0 / 10_000, why.is_stuck, &knot[1..]);
    Ok(())
}
