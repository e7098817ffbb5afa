//! What the jobs of a core may do.

use super::actor::{Actor, Ticket};
use super::names::{Name, Outcome, Step};
use super::submissions::submissions;
use crate::clock::{now, Clock};
use crate::error::Error;
use crate::timers::{after, NEVER};
use std::marker::PhantomData;
use std::time::Duration;

/// What a job may do while it runs. It stays on the thread of its core.
///
/// ```
/// use fairexec::linked::{Config, House, Job, Outcome, Step};
/// use fairexec::Mode;
///
/// let (_house, mut cores, mut outside) = House::open(&Config::default())?;
/// let job = Job::new(|cx| {
///     let (core, queue) = (cx.core(), cx.queue());
///     if let Ok(ticket) = cx.submit(core, queue, Job::new(|_| Step::Done(0))) {
///         cx.detach(ticket).expect("it is this core's");
///     }
///     Step::Done(cx.name().number)
/// });
/// let ticket = outside.submit(0, 0, job).map_err(|(error, _)| error)?;
/// outside.close_all(Mode::Finish)?;
/// cores[0].run_jobs()?;
/// assert!(matches!(outside.wait_for(&ticket)?, Outcome::Done(1)));
/// # Ok::<(), fairexec::Error>(())
/// ```
///
/// ```compile_fail,E0277
/// fn is_send<T: Send>() {}
/// is_send::<fairexec::linked::Cx<'static, u64>>();
/// ```
pub struct Cx<'a, J> {
    actor: &'a mut Actor<J>,
    name: Name,
    queue: u32,
    clock: Option<Clock>,
    // Until then the job sleeps if it parks.
    until: u64,
    // The seat of the actor was entered by this thread.
    stays: PhantomData<*const ()>,
}

impl<'a, J> Cx<'a, J> {
    submissions!(actor);

    /// The actor was entered.
    #[inline]
    pub(super) fn new(actor: &'a mut Actor<J>, name: Name, queue: u32, clock: Option<Clock>) -> Cx<'a, J> {
        Cx { actor, name, queue, clock, until: NEVER, stays: PhantomData }
    }

    /// Until when the job sleeps if it parks.
    #[inline]
    pub(super) fn until(&self) -> u64 {
        self.until
    }

    /// The number of the core that the job runs on.
    pub fn core(&self) -> u32 {
        self.actor.number
    }

    /// The queue that the job is in.
    pub fn queue(&self) -> u32 {
        self.queue
    }

    /// The job's name: who has it may wake the job.
    pub fn name(&self) -> Name {
        self.name
    }

    /// The time by the clock of the core, in nanoseconds.
    pub fn now(&self) -> u64 {
        now(self.clock)
    }

    /// The step of a job that sleeps until this time of the core's clock: it parks, and is woken once that has come, unless it is woken before. So a
    /// job that runs again looks at the time, or for what it waits for. The time of the last call counts. If the run comes to another step, none
    /// does. `u64::MAX` is no time.
    ///
    /// # Panics
    ///
    /// If the core has no timers: [`Core::open_timers`](super::Core::open_timers) opens them.
    ///
    /// ```
    /// use fairexec::linked::{Config, House, Job, Outcome, Step};
    /// use fairexec::Mode;
    ///
    /// let (_house, mut cores, mut outside) = House::open(&Config::default())?;
    /// cores[0].open_timers()?;
    /// // A lease: it ends at its time, unless it is woken before.
    /// let mut end = None;
    /// let lease = Job::new(move |cx| match end {
    ///     None => cx.sleep_until(*end.insert(cx.now() + 60_000_000_000)),
    ///     Some(end) => Step::Done(u64::from(cx.now() < end)),
    /// });
    /// let ticket = outside.submit(0, 0, lease).map_err(|(error, _)| error)?;
    /// let wake = outside.wake(ticket.name())?;
    /// outside.detach(wake)?;
    /// outside.close_all(Mode::Finish)?;
    /// cores[0].run_jobs()?;
    /// assert!(matches!(outside.wait_for(&ticket)?, Outcome::Done(1)));
    /// # Ok::<(), fairexec::Error>(())
    /// ```
    #[must_use = "a job sleeps if this is what its run comes to"]
    pub fn sleep_until(&mut self, time: u64) -> Step {
        assert!(self.actor.sleepers.is_some(), "a core whose jobs sleep has timers: open_timers opens them");
        self.until = time;
        Step::Park
    }

    /// The step of a job that sleeps for so long, as by [`sleep_until`](Cx::sleep_until).
    ///
    /// # Panics
    ///
    /// If the core has no timers.
    #[must_use = "a job sleeps if this is what its run comes to"]
    pub fn sleep_for(&mut self, time: Duration) -> Step {
        self.sleep_until(after(self.now(), time))
    }
}
