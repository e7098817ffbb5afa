//! The runs of a core's tasks. Each is a submission of the core to itself, and polls tasks of one queue that can go on.

use crate::local::Job;
use crate::Error;
use fairexec::linked::{Core, Ticket};
use fairexec::wall_clock;
use std::cell::Cell;
use std::time::Duration;

/// The core's submissions to itself.
pub(crate) struct Own {
    // By the queue, the run of its tasks that is inside.
    inside: Vec<Option<Ticket>>,
    // Runs that ended, and whose outcomes aren't redeemed yet.
    ended: Vec<Ticket>,
    /// Runs of the last round, those of calls counted too.
    pub(crate) runs: Runs,
}

/// Redeems a run. False if its outcome isn't there yet.
fn redeem(core: &mut Core<Job>, ticket: &Ticket) -> Result<bool, Error> {
    match core.redeem(ticket) {
        Err(fairexec::Error::Pending) => Ok(false),
        // One that came back has nothing to drop: its tasks stand with the core.
        told => Ok(told.map(|_| true)?),
    }
}

impl Own {
    pub(crate) fn new(queues: usize) -> Own {
        Own { inside: (0..queues).map(|_| None).collect(), ended: Vec::new(), runs: Runs::default() }
    }

    /// Whether no run of a queue's tasks is inside.
    pub(crate) fn is_out(&self, queue: u32) -> bool {
        self.inside[queue as usize].is_none()
    }

    pub(crate) fn add(&mut self, ticket: Ticket, queue: u32) {
        self.inside[queue as usize] = Some(ticket);
    }

    /// The run of a queue's tasks ended, and is inside no more.
    pub(crate) fn end(&mut self, queue: u32) {
        self.ended.extend(self.inside[queue as usize].take());
    }

    /// Whether the outcome of each run that ended was redeemed.
    pub(crate) fn has_redeemed(&self) -> bool {
        self.ended.is_empty()
    }

    /// Redeems the runs that ended, as far as their outcomes are there.
    pub(crate) fn redeem_ended(&mut self, core: &mut Core<Job>) -> Result<(), Error> {
        let mut at = 0;
        while at < self.ended.len() {
            if redeem(core, &self.ended[at])? {
                drop(self.ended.swap_remove(at));
            } else {
                at += 1;
            }
        }
        Ok(())
    }

    /// Redeems all whose outcomes are there.
    pub(crate) fn redeem_all(&mut self, core: &mut Core<Job>) -> Result<(), Error> {
        for inside in &mut self.inside {
            if let Some(ticket) = inside {
                if redeem(core, ticket)? {
                    *inside = None;
                }
            }
        }
        self.redeem_ended(core)
    }
}

thread_local!(static READ: Cell<u64> = const { Cell::new(0) });

/// The clock of a core, which the library reads before the first run of a round and behind each one. The last reading is kept.
pub(crate) fn clock() -> u64 {
    let now = wall_clock();
    READ.set(now);
    now
}

/// What the clock of this core told last.
fn last_reading() -> u64 {
    READ.get()
}

/// A round of the library makes so many runs at most.
const MOST_RUNS: u32 = 64;

/// The runs of a round.
#[derive(Default)]
pub(crate) struct Runs {
    count: u32,
    // When the first one began.
    began: u64,
}

impl Runs {
    pub(crate) fn clear(&mut self) {
        self.count = 0;
    }

    pub(crate) fn begin(&mut self) {
        if self.count == 0 {
            self.began = last_reading();
        }
        self.count += 1;
    }

    /// Whether the round ended because no queue had work. `Core::set_round_time` says why else it ends: behind 64 runs, or behind one that ends when
    /// the time is over, which is the last reading of the clock.
    pub(crate) fn ran_out(&self, round: Duration) -> bool {
        self.count == 0 || (self.count < MOST_RUNS && u128::from(last_reading() - self.began) < round.as_nanos())
    }
}
