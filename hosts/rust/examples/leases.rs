//! Jobs that sleep on one core. A lease ends at its time unless its holder renews it, which wakes it. A call is tried again behind twice the wait of
//! the try before, until it is answered. Where nothing is to be done the thread sleeps until the next timer is due.
//!
//!     cargo run --release --offline --example leases

use fairexec::{wall_clock, Error, House, Job, Step, Turn};
use std::sync::{Arc, Mutex};
use std::thread;
use std::time::Duration;

const LEASE: Duration = Duration::from_millis(500);

/// What it prints, in this order.
pub const TELLS: [&str; 6] = ["the lease begins", "try 1 fails", "try 2 fails", "try 3 is answered", "the lease is renewed", "the lease ends"];

type Told = Arc<Mutex<Vec<&'static str>>>;

fn tell(told: &Told, what: &'static str) {
    told.lock().expect("no panic").push(what);
}

/// A run before its end is its begin, or somebody woke it to renew it.
fn lease(told: Told) -> Job {
    let mut end = None;
    Job::new(move |cx| {
        let length = LEASE.as_nanos() as u64;
        match end {
            Some(end) if cx.now() >= end => {
                tell(&told, "the lease ends");
                return Step::Done;
            }
            Some(_) => tell(&told, "the lease is renewed"),
            None => tell(&told, "the lease begins"),
        }
        cx.sleep_until(*end.insert(cx.now() + length))
    })
}

/// The third try is answered, which renews the lease of this number.
fn call(told: Told, lease: u64) -> Job {
    let (mut tries, mut wait) = (0, Duration::from_millis(1));
    Job::new(move |cx| {
        tries += 1;
        tell(&told, TELLS[tries]);
        if tries == 3 {
            cx.wake(lease).expect("the lease goes on");
            return Step::Done;
        }
        wait *= 2;
        cx.sleep_for(wait)
    })
}

/// What the jobs told.
pub fn run() -> Result<Vec<&'static str>, Error> {
    let (mut house, told) = (House::open(64)?, Told::default());
    house.open_timers()?;
    let number = house.submit_numbered(0, lease(Arc::clone(&told))).map_err(|(error, _)| error)?;
    house.submit(0, call(Arc::clone(&told), number)).map_err(|(error, _)| error)?;
    while house.stats().held > 0 {
        if matches!(house.turn()?, Turn::Idle) {
            let left = house.next_time().map_or(0, |time| time.saturating_sub(wall_clock()));
            thread::sleep(Duration::from_nanos(left));
        }
    }
    drop(house);
    let all = told.lock().expect("no panic").clone();
    Ok(all)
}

fn main() -> Result<(), Error> {
    for line in run()? {
        println!("{line}");
    }
    Ok(())
}
