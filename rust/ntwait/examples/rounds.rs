// SPDX-License-Identifier: MIT OR Apache-2.0
//! Rounds of two calls, as bench/languages counts them: an event is set, and taken by a wait that ends at once.
use ntwait::{Dispatcher, Refused, Status, Thread, Timeout, Wait};

fn main() -> Result<(), Refused> {
    let rounds = std::env::args().nth(1).and_then(|it| it.parse().ok()).unwrap_or(1);
    let mut nt = Dispatcher::new(2)?;
    let event = nt.create_event(Thread(0), false, false)?;
    for _ in 0..rounds {
        nt.set_event(Thread(0), event)?;
        let ended = nt.wait_for_single_object(Thread(1), event, Timeout(0), false)?;
        assert_eq!(ended, Wait::Ended(Status::Object(0)));
    }
    Ok(())
}
