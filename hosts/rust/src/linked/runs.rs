//! Runs of the jobs of a core.

use super::actor::Actor;
use super::cx::Cx;
use super::lanes::Lanes;
use super::names::{Name, Step, Turn};
use super::seat::{Next, Settled};
use crate::clock::{now, Clock};
use crate::core::Mode;
use crate::error::Error;
use crate::timers::NEVER;
use std::panic::{catch_unwind, AssertUnwindSafe};

/// A round delivers so many orders of an actor at most, and runs so many jobs.
pub(super) const MOST: u32 = 64;

/// The run of a job. If it ends by a panic, also of the clock, the job counts as done with answer 0, and is dropped.
struct Running<'a, J> {
    actor: &'a mut Actor<J>,
    name: Name,
    place: u32,
    clock: Option<Clock>,
    began: u64,
    ended: u64,
    step: Step,
    // Until then the job sleeps if it parks.
    until: u64,
    settled: Option<Settled>,
}

impl<J> Running<'_, J> {
    #[inline]
    fn settle(&mut self) {
        // A clock that panics here is charged as little as may be: nothing leaves the core with a job that nobody runs.
        let clock = self.clock;
        self.ended = catch_unwind(|| now(clock)).unwrap_or(0);
        let spent = self.ended.saturating_sub(self.began);
        let Name { from, to, .. } = self.name;
        // A job that is done and has something to drop leaves its place before the library gives that on, and is dropped behind it.
        let _done = match self.step {
            // SAFETY: the place is this core's until the run is settled, and nobody has the job that stands there any more.
            Step::Done(_) => unsafe { self.actor.lanes.take_done(from, to, self.place) },
            Step::Yield | Step::Park => None,
        };
        self.settled = self.actor.settle(self.step, spent, self.until).ok();
        debug_assert!(self.settled.is_some());
        if self.settled == Some(Settled::Done) && from != to {
            self.actor.lanes.ring(from);
        }
    }
}

impl<J> Drop for Running<'_, J> {
    fn drop(&mut self) {
        if self.settled.is_none() {
            self.settle();
        }
    }
}

/// The run of a turn, from one time to another.
type Times = (u64, u64);

/// Runs the next job of a core once, where it stands. The run began at `since`, if that is told. The answer: what the turn came to, and when the job
/// ran.
#[inline]
pub(super) fn turn<J, R>(actor: &mut Actor<J>, clock: Option<Clock>, since: Option<u64>, run: R) -> Result<(Turn, Option<Times>), Error>
where
    R: FnOnce(&mut J, &mut Cx<'_, J>) -> Step,
{
    let (name, queue, place) = match actor.seat.next()? {
        Next::Run(name, queue, place, is_first) => {
            if is_first {
                actor.fresh.start(name);
            }
            (name, queue, place)
        }
        Next::Back(name) => {
            actor.fresh.start(name);
            actor.lanes.ring(name.from);
            return Ok((Turn::Back(name), None));
        }
        Next::Idle => {
            actor.ring_for_answers(true);
            return Ok((Turn::Idle, None));
        }
    };
    let mut running = Running { actor, name, place, clock, began: u64::MAX, ended: 0, step: Step::Done(0), until: NEVER, settled: None };
    running.began = since.unwrap_or_else(|| now(clock));
    // SAFETY: the library told this run, so the place is this core's until the run is settled, and the job is used before that. What a job may do
    // uses other places: those of its own submissions.
    if let Some(job) = unsafe { running.actor.lanes.standing(name.from, name.to, place) } {
        let mut cx = Cx::new(running.actor, name, queue, clock);
        (running.step, running.until) = (run(job, &mut cx), cx.until());
    }
    running.settle();
    let turn = match running.settled {
        Some(Settled::Parked) => Turn::Parked,
        Some(Settled::Queued) => Turn::Yielded,
        Some(Settled::Done) | None => Turn::Done,
    };
    Ok((turn, Some((running.began, running.ended))))
}

/// Runs jobs, each from the end of the one before, until so much time has passed or no queue has work. Whether there was a job.
pub(super) fn turns<J, R>(actor: &mut Actor<J>, clock: Option<Clock>, longest: u64, run: &mut R) -> Result<bool, Error>
where
    R: FnMut(&mut J, &mut Cx<'_, J>) -> Step,
{
    let (mut first, mut last) = (None, None);
    for count in 0..MOST {
        let (turn, times) = turn(actor, clock, last, &mut *run)?;
        if turn == Turn::Idle {
            return Ok(count > 0);
        }
        let Some((began, ended)) = times else { continue };
        last = Some(ended);
        if ended.saturating_sub(*first.get_or_insert(began)) >= longest {
            break;
        }
    }
    Ok(true)
}

/// Closes a core that is about to be dropped, and hands back what is inside or on its way. Its notes go nowhere. What it submitted to itself it drops.
#[cold]
pub(super) fn hand_back<J>(actor: &mut Actor<J>) {
    actor.seat.forget_all();
    if !actor.seat.is_drained() {
        hand_back_jobs(actor);
    }
    let own = actor.number;
    for place in 0..Lanes::<J>::room(actor.lanes.places()) {
        // SAFETY: the core is sender and receiver of these places, runs no job any more, and asks for no outcome.
        let job = unsafe { actor.lanes.take(own, own, place) };
        // A drop that panics is no reason to end the process, if another panic goes on.
        let _ = catch_unwind(AssertUnwindSafe(|| drop(job)));
    }
}

/// Hands back the jobs of a core, as far as its journal has room.
fn hand_back_jobs<J>(actor: &mut Actor<J>) {
    let cores = actor.lanes.cores();
    // It may be closed already.
    let _ = actor.seat.close(Mode::Return);
    if actor.shut(0..=cores).is_err() {
        return;
    }
    for sender in 0..=cores {
        while matches!(actor.deliver(sender, MOST), Ok(1..)) {}
    }
    while let Ok(Next::Back(name)) = actor.seat.next() {
        actor.fresh.start(name);
        actor.lanes.ring(name.from);
    }
    actor.ring_for_answers(true);
}
