//! Jobs of a core that sleep.
//!
//! A wake is an order of the core to itself, and nobody asks for its outcome. It is submitted before a delivery, and delivered by that.

use super::actor::Actor;
use super::core::Core;
use super::lanes::LONGEST_SLEEP;
use super::names::Step;
use super::seat::{Seat, Settled};
use crate::clock::{now, Clock};
use crate::error::{refused, Error};
use crate::raw;
use crate::timers::{self, Timers, NEVER};
use std::time::Duration;

/// What became of the timer that is due next.
enum Due {
    /// None is due.
    Nothing,
    /// It is gone, and its job wasn't parked any more.
    Passed,
    /// It is gone, and a wake of its job was submitted.
    Woken,
}

/// The timers of a core.
pub(super) struct Sleepers {
    all: timers::Sleepers,
    // The link of the core to itself was full when the last wake was to go.
    is_refused: bool,
}

// SAFETY: the handle of the timers is of this value alone. Its actor makes calls on it between `enter` and `leave` of its seat alone, so an exchange
// stands between calls on different threads. It is freed behind the seat, whose drop enters.
unsafe impl Send for Sleepers {}

// In each call below the handles are those of an open seat and of the open timers of its core.
impl Seat {
    #[inline]
    fn settle_until(&mut self, timers: &mut Timers, step: Step, spent: u64, time: u64) -> Result<Settled, Error> {
        let (step, answer) = step.numbers();
        // SAFETY: as above.
        Settled::of(unsafe { raw::fx_seat_settle_until(&mut self.handle, timers.handle(), step, answer, spent, time) })
    }

    fn wake_due(&mut self, timers: &mut Timers, now: u64) -> Result<Due, Error> {
        // SAFETY: as above.
        match self.call(|it| unsafe { raw::fx_seat_wake_due(it, timers.handle(), now) }) {
            raw::FX_IDLE => Ok(Due::Nothing),
            raw::FX_ABSENT => Ok(Due::Passed),
            code => refused(code).map(|()| Due::Woken),
        }
    }
}

impl<J> Actor<J> {
    /// Settles a run. If its job parks, it sleeps until this time.
    #[inline]
    pub(super) fn settle(&mut self, step: Step, spent: u64, until: u64) -> Result<Settled, Error> {
        let Some(Sleepers { all, .. }) = &mut self.sleepers else { return self.seat.settle(step, spent) };
        match self.seat.settle_until(&mut all.timers, step, spent, until) {
            // All timers are set, some for jobs that went back. Only a job that parks is refused so: it stays in its queue, and looks again.
            Err(Error::Full) => self.seat.settle_until(&mut all.timers, Step::Yield, spent, NEVER),
            Ok(Settled::Parked) => {
                all.set(until);
                Ok(Settled::Parked)
            }
            told => told,
        }
    }

    /// Submits a wake of each job whose time has come, as far as the link of the core to itself takes them. Whether there was one.
    #[inline]
    pub(super) fn wake_due(&mut self, clock: Option<Clock>) -> Result<bool, Error> {
        match self.sleepers.as_ref().and_then(|it| it.all.due_now(|| now(clock))) {
            Some(now) => self.wake_all_due(now),
            None => Ok(false),
        }
    }

    fn wake_all_due(&mut self, now: u64) -> Result<bool, Error> {
        let (mut did, mut is_refused) = (false, false);
        while let Some(Sleepers { all, .. }) = &mut self.sleepers {
            match self.seat.wake_due(&mut all.timers, now) {
                Ok(Due::Nothing) => break,
                Ok(Due::Passed) => {}
                Ok(Due::Woken) => {
                    self.sent_to_itself();
                    did = true;
                }
                Err(Error::Full) => {
                    is_refused = true;
                    break;
                }
                Err(error) => return Err(error),
            }
        }
        if let Some(it) = &mut self.sleepers {
            it.is_refused = is_refused;
            it.all.look();
        }
        Ok(did)
    }
}

impl<J> Core<J> {
    /// Opens timers for the jobs of this core, which may sleep from then on: see [`Cx::sleep_until`]. It asks for memory, 80 bytes for each place of
    /// each link to this core. A second call does nothing.
    ///
    /// [`deliver`](Core::deliver), [`round`](Core::round) and [`run`](Core::run) wake the jobs whose time has come by the clock of the core. A wake
    /// is an order of the core to itself, and has a place of that link until it was collected. A core that has nothing to do sleeps until the next
    /// time at most. That wants a clock which goes on meanwhile, as the wall's does. If all timers are set, a job that would sleep stays in its queue.
    /// Jobs of a closed queue may go back while they sleep, and their timers stay until their time: without them no job lacks a timer.
    ///
    /// # Errors
    ///
    /// `BadNumber` if links have a single place, since a job that the core submitted to itself and its wake share that; `NoMemory`.
    ///
    /// ```
    /// use fairexec::linked::{Config, House, Job, Outcome, Step};
    /// use fairexec::Mode;
    /// use std::time::Duration;
    ///
    /// let (_house, mut cores, mut outside) = House::open(&Config::default())?;
    /// cores[0].open_timers()?;
    /// // It tries three times, and waits twice as long each time.
    /// let (mut tries, mut wait) = (0, Duration::from_millis(1));
    /// let job = Job::new(move |cx| {
    ///     tries += 1;
    ///     wait *= 2;
    ///     if tries < 3 { cx.sleep_for(wait) } else { Step::Done(tries) }
    /// });
    /// let ticket = outside.submit(0, 0, job).map_err(|(error, _)| error)?;
    /// outside.close_all(Mode::Finish)?;
    /// cores[0].run_jobs()?;
    /// assert_eq!(cores[0].next_time(), None);
    /// assert!(matches!(outside.wait_for(&ticket)?, Outcome::Done(3)));
    /// # Ok::<(), fairexec::Error>(())
    /// ```
    ///
    /// [`Cx::sleep_until`]: super::Cx::sleep_until
    pub fn open_timers(&mut self) -> Result<(), Error> {
        let mut actor = self.actor.enter();
        let (actors, places) = (actor.lanes.cores() + 1, actor.lanes.places());
        if places < 2 {
            return Err(Error::BadNumber);
        }
        if actor.sleepers.is_none() {
            actor.sleepers = Some(Sleepers { all: timers::Sleepers::open(actors * places)?, is_refused: false });
        }
        Ok(())
    }

    /// When the next timer is due by the clock of the core, in nanoseconds, if one is set.
    pub fn next_time(&mut self) -> Option<u64> {
        self.actor.enter().sleepers.as_mut().and_then(|it| it.all.timers.next_time())
    }

    /// How long the core sleeps at most.
    pub(super) fn longest_sleep(&self) -> Duration {
        let left = self.actor.sleepers.as_ref().filter(|it| !it.is_refused).and_then(|it| it.all.left(|| now(self.clock)));
        left.map_or(LONGEST_SLEEP, |it| it.min(LONGEST_SLEEP))
    }
}

#[cfg(test)]
mod tests {
    use crate::linked::{Config, House, Opened, Step, Turn};
    use crate::{Error, Mode};

    // What isn't submitted is neither delivered nor collected: the core would look at its link for ever.
    #[test]
    fn a_timer_that_is_passed_over_submits_nothing() -> Result<(), Error> {
        let (house, mut cores, mut outside): Opened<()> = House::open(&Config::default())?;
        let core = &mut cores[0];
        core.set_clock(|| 5);
        core.open_timers()?;
        let ticket = outside.submit(0, 0, ()).map_err(|(error, ())| error)?;
        core.deliver()?;
        assert_eq!(core.run_turn(|(), cx| cx.sleep_until(5))?, Turn::Parked);
        let wake = outside.wake(ticket.name())?;
        // Its timer is due before the wake is delivered: its own wake is the first, and comes with the other.
        assert!(core.deliver()? && !core.actor.may_show(0));
        assert_eq!(core.run_turn(|(), cx| cx.sleep_until(6))?, Turn::Yielded);
        assert_eq!(core.run_turn(|(), cx| cx.sleep_until(6))?, Turn::Parked);
        outside.detach(wake)?;
        let wake = outside.wake(ticket.name())?;
        assert!(core.deliver()?);
        core.set_clock(|| 6);
        let kept = core.note_counts()?.kept;
        assert!(!core.deliver()? && !core.actor.may_show(0));
        assert_eq!((core.note_counts()?.kept, core.next_time()), (kept, None));
        outside.detach(wake)?;
        outside.close_all(Mode::Finish)?;
        core.run(|(), _| Step::Done(0))?;
        assert!(house.end(cores, outside).map_err(|(error, ..)| error)?.audit()?.is_sound);
        Ok(())
    }
}
