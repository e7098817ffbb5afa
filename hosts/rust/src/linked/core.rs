//! A core of a house.

use super::actor::{Actor, Ticket};
use super::board::{Shows, Stats};
use super::cx::Cx;
use super::lanes::{Bell, Ringer};
use super::names::{Name, Outcome, Step, Turn};
use super::runs::{hand_back, turn, turns, MOST};
use super::submissions::submissions;
use crate::clock::Clock;
use crate::core::Mode;
use crate::error::Error;
use crate::stats::{CoreStats, QueueStats};
use std::collections::VecDeque;
use std::sync::Arc;
use std::time::Duration;

/// A round runs jobs for so many nanoseconds at most, or one job, unless `set_round_time` says otherwise.
const LONGEST: u64 = 5_000;

/// Tells who waits for jobs of a core that it was dropped, as by an error or a panic that ends its thread.
struct Leaving {
    bells: Arc<[Bell]>,
    core: u32,
}

impl Drop for Leaving {
    fn drop(&mut self) {
        self.bells[self.core as usize].leave();
        self.bells.iter().for_each(Bell::ring);
    }
}

/// A core of a house. It goes to the thread that runs it, and no other thread uses it then.
///
/// ```
/// use fairexec::linked::{Config, Cx, House, Step};
/// use fairexec::Mode;
///
/// /// It counts down.
/// fn run(job: &mut u64, _: &mut Cx<'_, u64>) -> Step {
///     *job -= 1;
///     if *job > 0 { Step::Yield } else { Step::Done(7) }
/// }
/// let (_house, mut cores, mut outside) = House::open(&Config::default())?;
/// let core = &mut cores[0];
/// core.set_clock(|| 0);
/// core.set_round_time(20_000);
/// let ticket = outside.submit(core.number(), 0, 3).map_err(|(error, _)| error)?;
/// outside.detach(ticket)?;
/// assert!(core.shows() && core.deliver()?);
/// core.run_turn(run)?;
/// assert_eq!((core.stats().held, core.stats_of(0)?.picks), (1, 1));
/// core.close(Mode::Finish)?;
/// while !core.is_drained() {
///     if !core.round(run)? {
///         core.sleep();
///     }
/// }
/// core.run(run)?;
/// # Ok::<(), fairexec::Error>(())
/// ```
///
/// ```compile_fail,E0277
/// fn is_sync<T: Sync>() {}
/// is_sync::<fairexec::linked::Core<u64>>();
/// ```
pub struct Core<J> {
    pub(super) actor: Actor<J>,
    // None is the wall's clock.
    pub(super) clock: Option<Clock>,
    // A round runs jobs for so many nanoseconds.
    longest: u64,
    // It may be closed: it was when it was asked last, or took in something since.
    may_be_closed: bool,
    // Of each core what tasks of this one spawned there and isn't submitted yet, with its queue.
    pub(super) spawned: Vec<VecDeque<(u32, J)>>,
    // Its counts for other threads, if somebody asked for them.
    shows: Option<Shows>,
    // It stands behind the actor, whose seat is freed before.
    _leaving: Leaving,
}

/// A core that is dropped before its house has ended closes and hands back its jobs, so who waits for one is told that it came back. What it submitted to
/// itself is dropped with it.
impl<J> Drop for Core<J> {
    fn drop(&mut self) {
        if !self.actor.seat.has_ended() {
            self.show_stats();
            hand_back(&mut self.actor.enter());
        }
    }
}

impl<J> Core<J> {
    submissions!(actor.enter());

    pub(super) fn new(actor: Actor<J>) -> Core<J> {
        let spawned = (0..actor.lanes.cores()).map(|_| VecDeque::new()).collect();
        let leaving = Leaving { bells: Arc::clone(actor.lanes.bells()), core: actor.number };
        Core { actor, clock: None, longest: LONGEST, may_be_closed: true, spawned, shows: None, _leaving: leaving }
    }

    /// Runs are measured by this clock from now on. At first it is the wall's time.
    pub fn set_clock(&mut self, clock: Clock) {
        self.clock = Some(clock);
    }

    /// A round runs jobs for so many nanoseconds from now on, or one job if that takes longer, and 64 jobs at most. At first it is 5 µs. With more
    /// time a short job pays less for the links, and what other actors submit waits longer.
    pub fn set_round_time(&mut self, nanoseconds: u64) {
        self.longest = nanoseconds;
    }

    /// The number of this core.
    pub fn number(&self) -> u32 {
        self.actor.number
    }

    /// Runs the next job once. A panic of `run` goes on after the job was settled as done and dropped.
    ///
    /// # Errors
    ///
    /// `JournalFull`, `Spent`.
    pub fn run_turn<R>(&mut self, run: R) -> Result<Turn, Error>
    where
        R: FnOnce(&mut J, &mut Cx<'_, J>) -> Step,
    {
        let (turn, _) = turn(&mut self.actor.enter(), self.clock, None, run)?;
        self.count_turns(u32::from(turn != Turn::Idle));
        Ok(turn)
    }

    /// Delivers one order of each actor, and doesn't look at the links of actors that never submitted to this core. If the core is closed, it shuts
    /// the gates of the others first, and its own once no actor's order shows and no job is inside, since its jobs may still have to be woken.
    /// Before all that it wakes the jobs that sleep and whose time has come. Whether anything happened. An actor that sleeps and was answered by this
    /// is rung for by a turn that finds no work, or by some further deliveries.
    ///
    /// # Errors
    ///
    /// `JournalFull`.
    pub fn deliver(&mut self) -> Result<bool, Error> {
        self.deliver_with(false, 1)
    }

    /// The same, and its own gate stays open if more is to go through it. Of each actor it delivers so many orders at most.
    fn deliver_with(&mut self, needs_own_gate: bool, most: u32) -> Result<bool, Error> {
        let mut actor = self.actor.enter();
        let (own, cores) = (actor.number, actor.lanes.cores());
        let mut did = actor.wake_due(self.clock)?;
        actor.ring_for_answers(false);
        let mut may_shut_own = self.may_be_closed && !needs_own_gate;
        if self.may_be_closed {
            match actor.shut((0..=cores).filter(|sender| *sender != own)) {
                Err(Error::Open) => (self.may_be_closed, may_shut_own) = (false, false),
                told => did |= told?,
            }
        }
        for sender in 0..=cores {
            if !actor.may_show(sender) {
                continue;
            }
            let told = actor.deliver(sender, most);
            self.may_be_closed |= told != Ok(0);
            let count = told?;
            did |= count > 0;
            // Else there may be more.
            may_shut_own &= count < most;
        }
        if may_shut_own && actor.seat.stats().held == 0 {
            did |= actor.shut(std::iter::once(own))?;
        }
        drop(actor);
        self.count_turns(u32::from(did));
        Ok(did)
    }

    /// One round: it wakes the jobs whose time has come, delivers what the links show, runs jobs for 5 µs (see `set_round_time`) or as long as one run
    /// takes, and collects. Whether anything happened. If a round has several runs, each is measured from the end of the one before, so the time
    /// between them counts too.
    ///
    /// # Errors
    ///
    /// `JournalFull`, `Spent`.
    pub fn round<R>(&mut self, run: R) -> Result<bool, Error>
    where
        R: FnMut(&mut J, &mut Cx<'_, J>) -> Step,
    {
        self.round_with(false, run)
    }

    pub(super) fn round_with<R>(&mut self, needs_own_gate: bool, mut run: R) -> Result<bool, Error>
    where
        R: FnMut(&mut J, &mut Cx<'_, J>) -> Step,
    {
        let mut did = self.deliver_with(needs_own_gate, MOST)?;
        let mut actor = self.actor.enter();
        let ran = turns(&mut actor, self.clock, self.longest, &mut run)?;
        did |= ran;
        did |= actor.collect()? > 0;
        drop(actor);
        if ran {
            self.count_turns(MOST);
        }
        Ok(did)
    }

    /// Makes rounds until the core is drained. A core that has nothing to do sleeps. Behind an error and behind a panic of `run` this may be called
    /// again.
    ///
    /// # Errors
    ///
    /// `JournalFull`, `Spent`.
    pub fn run<R>(&mut self, mut run: R) -> Result<(), Error>
    where
        R: FnMut(&mut J, &mut Cx<'_, J>) -> Step,
    {
        while !self.has_ended() {
            if !self.round(&mut run)? {
                self.sleep();
            }
        }
        self.rest();
        Ok(())
    }

    /// Sleeps until another actor submits to this core or gives it an outcome, or a timer is due, for 10 ms at most.
    pub fn sleep(&mut self) {
        self.rest();
        let longest = self.longest_sleep();
        self.actor.enter().sleep(longest);
    }

    /// Who has something for this core while it waits by [`wait_by`](Core::wait_by) calls `rings`, as by the write of an eventfd. A ring is kept
    /// until a wait hears it. Only the first call of `set_bell` counts, and [`sleep`](Core::sleep) isn't cut short behind it.
    pub fn set_bell(&mut self, rings: impl Fn() + Send + Sync + 'static) {
        self.actor.lanes.bells()[self.actor.number as usize].set_ringer(Box::new(rings));
    }

    /// Rings the bell of this core, from any thread.
    pub fn ringer(&self) -> Ringer {
        Ringer::new(self.actor.lanes.bells(), self.actor.number)
    }

    /// Waits by the host's own means, such as `epoll`: calls `wait` once, with how long it may wait at most. That is no time if a link shows
    /// something, a waker was called, or `looks` tells that the host has something to do for this core. Nor is it longer than until a timer is due. Who
    /// gives the host more to do puts it where `looks` finds it, and rings then.
    pub fn wait_by<T>(&mut self, looks: impl FnOnce() -> bool, wait: impl FnOnce(Duration) -> T) -> T {
        self.rest();
        let longest = self.longest_sleep();
        let mut entered = self.actor.enter();
        let Actor { seat, number, lanes, .. } = &mut *entered;
        lanes.wait_by(*number, longest, || seat.shows() || looks(), wait)
    }

    /// Whether a link shows something that this core hasn't taken: an order to it, or an outcome for it.
    pub fn shows(&mut self) -> bool {
        self.actor.enter().seat.shows()
    }

    /// Closes the core by itself.
    ///
    /// # Errors
    ///
    /// `JournalFull`; `Closed` if it was so, or more strictly, before.
    pub fn close(&mut self, mode: Mode) -> Result<(), Error> {
        self.may_be_closed = true;
        self.actor.enter().seat.close(mode)
    }

    /// Whether the core has come to its end: it is closed, everything was delivered, and no job is inside.
    pub fn is_drained(&mut self) -> bool {
        self.actor.enter().seat.is_drained()
    }

    /// The same, and an open core isn't asked.
    pub(super) fn has_ended(&mut self) -> bool {
        self.may_be_closed && self.is_drained()
    }

    /// The counts of the core.
    pub fn stats(&mut self) -> CoreStats {
        CoreStats::of(&self.actor.enter().seat.stats())
    }

    /// The counts of the core and of its queues, for any thread. From now on the core tells them behind each 1000 turns or some more, before it sleeps,
    /// once it is drained, and before it ends or is dropped.
    pub fn shared_stats(&mut self) -> Stats {
        let stats = self.shows.get_or_insert_with(Shows::new).stats();
        self.show_stats();
        stats
    }

    /// Tells them now, if somebody asked for them.
    #[cold]
    pub fn show_stats(&mut self) {
        let Some(shows) = &mut self.shows else { return };
        let mut actor = self.actor.enter();
        let core = actor.seat.stats();
        shows.tell(&core, (0..core.queues).filter_map(|it| actor.seat.stats_of(it).ok()));
    }

    /// So many turns were made, or deliveries that may make some.
    #[inline]
    fn count_turns(&mut self, turns: u32) {
        if self.shows.as_mut().is_some_and(|it| turns > 0 && it.count(turns)) {
            self.show_stats();
        }
    }

    /// The core has nothing to do, or is drained.
    #[inline]
    pub(super) fn rest(&mut self) {
        if self.shows.as_ref().is_some_and(Shows::is_behind) {
            self.show_stats();
        }
    }

    /// The counts of a queue.
    ///
    /// # Errors
    ///
    /// `NoQueue`.
    pub fn stats_of(&mut self, queue: u32) -> Result<QueueStats, Error> {
        self.actor.enter().seat.stats_of(queue).map(|it| QueueStats::of(&it))
    }
}
