//! Jobs of a house that sleep.

use super::{Cx, House, Inside};
use crate::clock::Clock;
use crate::core::{Settled, Step};
use crate::error::Error;
use crate::timers::{after, Sleepers};
use std::time::Duration;

impl<J> Inside<J> {
    /// Whether a job more would take the place that stays free for wakes.
    #[inline]
    pub(super) fn is_full(&self) -> bool {
        self.sleepers.is_some() && self.vacant.len() < 2
    }

    /// What a job is refused by that would.
    #[cold]
    pub(super) fn refusal(&mut self) -> Error {
        if self.core.stats().closed.is_some() { Error::Closed } else { Error::Full }
    }

    /// Settles a run. If its job parks, it sleeps until this time.
    #[inline]
    pub(super) fn settle(&mut self, step: Step, spent: u64, until: u64) -> Result<Settled, Error> {
        let Inside { core, sleepers, .. } = self;
        let Some(sleepers) = sleepers else { return core.settle(step, spent) };
        match core.settle_until(&mut sleepers.timers, step, spent, Some(until)) {
            // All timers are set, some for jobs that went back. This job stays in its queue, and looks again.
            Err(Error::Full) => core.settle_until(&mut sleepers.timers, Step::Yield, spent, None),
            Ok(Settled::Parked) => {
                sleepers.set(until);
                Ok(Settled::Parked)
            }
            told => told,
        }
    }

    /// Wakes each job whose time has come.
    #[inline]
    pub(super) fn wake_due(&mut self, clock: Clock) -> Result<(), Error> {
        match self.sleepers.as_ref().and_then(|it| it.due_now(clock)) {
            Some(now) => self.wake_all_due(now),
            None => Ok(()),
        }
    }

    fn wake_all_due(&mut self, now: u64) -> Result<(), Error> {
        let Inside { core, sleepers: Some(sleepers), .. } = self else { return Ok(()) };
        // A place is free, so no wake is refused by `Full`.
        while core.wake_due(&mut sleepers.timers, now)? {}
        sleepers.look();
        Ok(())
    }
}

impl<J> House<J> {
    /// Opens timers for the jobs of this house, which may sleep from then on: see [`Cx::sleep_until`]. It asks for memory, 80 bytes a job. From then
    /// on the house has room for one job less: a place stays free, so that it can always wake its jobs. A second call does nothing.
    ///
    /// [`run_turn`](House::run_turn) wakes the jobs whose time has come by the house's clock, and then picks one. If all timers are set, a job that
    /// would sleep stays in its queue. Jobs of a closed queue may go back while they sleep, and their timers stay until their time: without them no
    /// job lacks a timer.
    ///
    /// # Errors
    ///
    /// `Full` if no place is free; `NoMemory`.
    ///
    /// ```
    /// use fairexec::{House, Job, Step};
    /// use std::time::Duration;
    ///
    /// thread_local!(static NOW: std::cell::Cell<u64> = const { std::cell::Cell::new(0) });
    /// let mut house = House::open_with(64, || NOW.get())?;
    /// house.open_timers()?;
    /// // It tries three times, and waits twice as long each time.
    /// let (mut tries, mut wait) = (0, Duration::from_millis(1));
    /// let job = Job::new(move |cx| {
    ///     tries += 1;
    ///     wait *= 2;
    ///     if tries < 3 { cx.sleep_for(wait) } else { Step::Done }
    /// });
    /// house.submit(0, job).map_err(|(error, _)| error)?;
    /// house.turn()?;
    /// assert_eq!(house.next_time(), Some(2_000_000));
    /// NOW.set(2_000_000);
    /// house.turn()?;
    /// assert_eq!(house.next_time(), Some(6_000_000));
    /// # Ok::<(), fairexec::Error>(())
    /// ```
    pub fn open_timers(&mut self) -> Result<(), Error> {
        let Inside { sleepers, vacant, places, .. } = &mut self.inside;
        if sleepers.is_none() {
            if vacant.is_empty() {
                return Err(Error::Full);
            }
            *sleepers = Some(Sleepers::open(places.len() as u32)?);
        }
        Ok(())
    }

    /// When the next timer is due by the house's clock, in nanoseconds, if one is set. If a turn was `Idle`, the thread may sleep until then.
    pub fn next_time(&mut self) -> Option<u64> {
        self.inside.sleepers.as_mut().and_then(|it| it.timers.next_time())
    }
}

impl<J> Cx<'_, J> {
    /// The time by the house's clock, in nanoseconds.
    pub fn now(&self) -> u64 {
        (self.clock)()
    }

    /// The step of a job that sleeps until this time of the house's clock: it parks, and is woken once that has come, unless it is woken before. So
    /// a job that runs again looks at the time, or for what it waits for. The time of the last call counts. If the run comes to another step, none
    /// does. `u64::MAX` is no time.
    ///
    /// # Panics
    ///
    /// If the house has no timers: [`House::open_timers`] opens them.
    ///
    /// ```
    /// use fairexec::{wall_clock, House, Job, Turn};
    /// use std::{thread, time::Duration};
    ///
    /// let mut house = House::open(64)?;
    /// house.open_timers()?;
    /// let mut until = None;
    /// let job = Job::new(move |cx| {
    ///     let until = *until.get_or_insert(cx.now() + 2_000_000);
    ///     if cx.now() < until { cx.sleep_until(until) } else { fairexec::Step::Done }
    /// });
    /// house.submit(0, job).map_err(|(error, _)| error)?;
    /// while house.stats().held > 0 {
    ///     if matches!(house.turn()?, Turn::Idle) {
    ///         let left = house.next_time().map_or(0, |time| time.saturating_sub(wall_clock()));
    ///         thread::sleep(Duration::from_nanos(left));
    ///     }
    /// }
    /// assert_eq!(house.stats_of(0)?.picks, 2);
    /// # Ok::<(), fairexec::Error>(())
    /// ```
    #[must_use = "a job sleeps if this is what its run comes to"]
    pub fn sleep_until(&mut self, time: u64) -> Step {
        assert!(self.inside.sleepers.is_some(), "a house whose jobs sleep has timers: open_timers opens them");
        self.until = time;
        Step::Park
    }

    /// The step of a job that sleeps for so long, as by [`sleep_until`](Cx::sleep_until).
    ///
    /// # Panics
    ///
    /// If the house has no timers.
    #[must_use = "a job sleeps if this is what its run comes to"]
    pub fn sleep_for(&mut self, time: Duration) -> Step {
        self.sleep_until(after(self.now(), time))
    }
}
