//! The outside actor.

use super::actor::{Actor, Ticket};
use super::lanes::LONGEST_SLEEP;
use super::names::{Name, Outcome};
use super::submissions::submissions;
use crate::core::Mode;
use crate::error::Error;
use std::time::{Duration, Instant};

/// The outside actor: the part of the host that belongs to no core. It submits, and receives nothing. [`Outside::into_callers`] lets several threads do so.
///
/// ```
/// use fairexec::linked::{Answer, Config, House, Outcome, Step};
/// use fairexec::{Error, Mode};
/// use std::time::Duration;
///
/// let (_house, mut cores, mut outside) = House::open(&Config::default())?;
/// outside.keep_notes_by(|text| print!("{}", String::from_utf8_lossy(text)));
/// let job = outside.submit(0, 0, 42_u64).map_err(|(error, _)| error)?;
/// assert_eq!(outside.wait_timeout(&job, Duration::ZERO), Err(Error::Pending));
/// let orders = [outside.create(0, 300)?, outside.set_shares(0, 0, 500)?, outside.close_queue(0, 1, Mode::Finish)?];
/// while cores[0].round(|job, _| Step::Done(*job))? {}
/// assert_eq!(outside.collect()?, 4);
/// let told = orders.each_ref().map(|it| outside.redeem(it));
/// assert_eq!(told, [Answer::Created(1), Answer::SharesSet, Answer::Closed].map(|it| Ok(Outcome::Answered(it))));
/// // Nobody asks for this outcome, nor for that of `close_all`.
/// outside.detach(job)?;
/// let closes = outside.close_core(0, Mode::Finish)?;
/// assert!(cores[0].deliver()?);
/// let mut names = Vec::new();
/// assert_eq!((outside.collect_names(&mut names)?, names), (1, vec![closes.name()]));
/// outside.detach(closes)?;
/// outside.close_all(Mode::Return)?;
/// assert!(cores[0].deliver()?);
/// outside.pass_on(&mut Vec::new())?;
/// # Ok::<(), fairexec::Error>(())
/// ```
pub struct Outside<J> {
    pub(super) actor: Actor<J>,
}

impl<J> Outside<J> {
    submissions!(actor.enter());

    /// Waits for the outcome of a submission.
    ///
    /// # Errors
    ///
    /// `JournalFull`, `Unknown`, `Gone`. `Pending` if the core was dropped before the outcome came.
    pub fn wait_for(&mut self, ticket: &Ticket) -> Result<Outcome<J>, Error> {
        self.wait_until(ticket, None)
    }

    /// Waits for the outcome of a submission, for so long at most. The ticket is good for further calls.
    ///
    /// # Errors
    ///
    /// As `wait_for`, and `Pending` if the time is over before the outcome comes.
    pub fn wait_timeout(&mut self, ticket: &Ticket, longest: Duration) -> Result<Outcome<J>, Error> {
        // A time that no clock comes to is none.
        self.wait_until(ticket, Instant::now().checked_add(longest))
    }

    fn wait_until(&mut self, ticket: &Ticket, end: Option<Instant>) -> Result<Outcome<J>, Error> {
        let mut actor = self.actor.enter();
        match actor.redeem_early(ticket) {
            Err(Error::Pending) => {}
            told => return told,
        }
        let mut is_last = false;
        loop {
            actor.collect()?;
            match actor.redeem(ticket) {
                Err(Error::Pending) if !is_last => {
                    // What the core did before is collected once more.
                    let left = end.map_or(LONGEST_SLEEP, |end| end.saturating_duration_since(Instant::now()));
                    is_last = left.is_zero() || actor.lanes.has_left(ticket.name().to);
                    if !is_last {
                        actor.sleep(left);
                    }
                }
                told => return told,
            }
        }
    }

    /// Orders each core to close, and waits for none. Each order takes a place of its link.
    ///
    /// # Errors
    ///
    /// As `submit`.
    pub fn close_all(&mut self, mode: Mode) -> Result<(), Error> {
        for core in 0..self.actor.lanes.cores() {
            match self.close_core(core, mode) {
                Ok(ticket) => self.detach(ticket)?,
                // Its gate is shut already.
                Err(Error::Closed) => {}
                Err(error) => return Err(error),
            }
        }
        Ok(())
    }
}
