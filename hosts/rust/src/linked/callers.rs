//! Handles on the outside actor, for any threads.

use super::actor::Ticket;
use super::futures::{lock, Join};
use super::names::{Name, Outcome};
use super::notes::NoteCounts;
use super::outside::Outside;
use super::tasks::Task;
use super::waiters::{Shared, Waiting};
use crate::core::Mode;
use crate::error::Error;
use std::collections::BTreeSet;
use std::future::Future;
use std::sync::atomic::{AtomicU64, Ordering};
use std::sync::{Arc, Mutex};
use std::time::{Duration, Instant};

/// The handles that aren't gone, by their numbers.
#[derive(Default)]
struct Lives(Mutex<BTreeSet<u64>>);

/// One of them.
struct Life {
    number: u64,
    lives: Arc<Lives>,
}

impl Life {
    fn new(lives: &Arc<Lives>) -> Life {
        static NUMBERS: AtomicU64 = AtomicU64::new(0);
        let number = NUMBERS.fetch_add(1, Ordering::Relaxed);
        lock(&lives.0).insert(number);
        Life { number, lives: Arc::clone(lives) }
    }
}

impl Drop for Life {
    fn drop(&mut self) {
        lock(&self.lives.0).remove(&self.number);
    }
}

/// The outside actor behind a lock. It gives handles, whose calls any thread makes.
///
/// ```
/// use fairexec::linked::{Config, House, Job, Outcome, Step};
/// use fairexec::Mode;
/// use std::thread;
///
/// let (house, mut cores, outside) = House::open(&Config::default())?;
/// let core = thread::spawn(move || cores[0].run_jobs().map(|()| cores));
/// let callers = outside.into_callers();
/// let threads: Vec<_> = (0..4_u64)
///     .map(|number| (number, callers.handle()))
///     .map(|(number, caller)| {
///         thread::spawn(move || {
///             let ticket = caller.submit(0, 0, Job::new(move |_| Step::Done(number))).map_err(|(error, _)| error)?;
///             assert!(matches!(caller.wait_for(&ticket)?, Outcome::Done(it) if it == number));
///             Ok::<(), fairexec::Error>(())
///         })
///     })
///     .collect();
/// for it in threads {
///     it.join().expect("it ends")?;
/// }
/// let last = callers.handle();
/// last.close_all(Mode::Finish)?;
/// // One handle isn't gone yet.
/// let (out, callers) = callers.into_outside().err().expect("a handle is out");
/// assert_eq!(out, [last.number()]);
/// drop(last);
/// let outside = callers.into_outside().map_err(drop).expect("all handles are gone");
/// let cores = core.join().expect("the core ends")?;
/// assert!(house.end(cores, outside).map_err(|(error, ..)| error)?.audit()?.is_sound);
/// # Ok::<(), fairexec::Error>(())
/// ```
pub struct Callers<J> {
    shared: Arc<Shared<J>>,
    lives: Arc<Lives>,
}

impl<J> Outside<J> {
    /// Puts this actor behind a lock, for handles on any threads.
    pub fn into_callers(self) -> Callers<J> {
        Callers { shared: Arc::new(Shared::new(self)), lives: Arc::default() }
    }
}

impl<J> Callers<J> {
    /// A new handle. As many as the host likes may be out.
    pub fn handle(&self) -> Caller<J> {
        Caller { shared: Arc::clone(&self.shared), life: Life::new(&self.lives) }
    }

    /// The outside actor, once all handles are gone: so a house ends by `House::end`.
    ///
    /// # Errors
    ///
    /// The numbers of the handles that aren't gone, and this. Nothing changed.
    pub fn into_outside(self) -> Result<Outside<J>, (Vec<u64>, Callers<J>)> {
        let Callers { shared, lives } = self;
        let out: Vec<_> = lock(&lives.0).iter().copied().collect();
        // A handle gives what it shares back before its number goes.
        match if out.is_empty() { Arc::try_unwrap(shared) } else { Err(shared) } {
            Ok(shared) => Ok(shared.into_outside()),
            Err(shared) => Err((out, Callers { shared, lives })),
        }
    }
}

/// The right of one handle to ask for the outcome of one submission. Any other handle is told `Unknown`.
///
/// ```
/// use fairexec::linked::{CallerTicket, Config, House, Outcome, Step};
///
/// let (_house, mut cores, outside) = House::open(&Config::default())?;
/// let caller = outside.into_callers().handle();
/// let ticket: CallerTicket = caller.submit(0, 0, ()).map_err(|(error, ())| error)?;
/// assert_eq!(ticket.name().number, 1);
/// while cores[0].round(|(), _| Step::Done(7))? {}
/// assert_eq!(caller.wait_for(&ticket)?, Outcome::Done(7));
/// # Ok::<(), fairexec::Error>(())
/// ```
#[must_use = "a ticket that is dropped keeps its place of the link: redeem or detach it"]
#[derive(PartialEq, Eq, Debug)]
pub struct CallerTicket {
    caller: u64,
    ticket: Ticket,
}

impl CallerTicket {
    /// The name of the submission: by it a job is woken.
    pub fn name(&self) -> Name {
        self.ticket.name()
    }
}

/// A handle on the outside actor. It goes to any thread, several threads may use it, and a clone is a handle of its own.
///
/// Each call takes the lock, makes the call of [`Outside`] that has its name, and gives the lock back. So what all handles did is what one thread
/// could have done, and the journal is that of one actor. One that waits has the lock for each look, and not while it sleeps. Who takes notes (see
/// `Outside::keep_notes_by`) is called under the lock, so it calls no handle. A job that comes back is dropped behind it.
///
/// ```
/// use fairexec::linked::{Answer, Config, House, Outcome, Step};
/// use fairexec::{Error, Mode};
/// use std::time::Duration;
///
/// let (_house, mut cores, outside) = House::open(&Config::default())?;
/// let callers = outside.into_callers();
/// let (caller, other) = (callers.handle(), callers.handle());
/// let job = caller.submit(0, 0, 42_u64).map_err(|(error, _)| error)?;
/// assert_eq!(caller.wait_timeout(&job, Duration::ZERO), Err(Error::Pending));
/// assert_eq!(other.redeem(&job), Err(Error::Unknown));
/// let orders = [caller.create(0, 300)?, caller.set_shares(0, 0, 500)?, caller.close_queue(0, 1, Mode::Finish)?, caller.wake(job.name())?];
/// while cores[0].round(|job, _| Step::Done(*job))? {}
/// // Any handle collects for all.
/// assert_eq!(other.collect()?, 5);
/// let told = orders.each_ref().map(|it| caller.redeem(it));
/// assert_eq!(told, [Answer::Created(1), Answer::SharesSet, Answer::Closed, Answer::Woken].map(|it| Ok(Outcome::Answered(it))));
/// assert_eq!(caller.wait_for(&job)?, Outcome::Done(42));
/// let closes = caller.close_core(0, Mode::Finish)?;
/// caller.detach(closes)?;
/// caller.close_all(Mode::Return)?;
/// assert!(caller.note_counts()?.kept > 0 && caller.pass_on(&mut Vec::new()) == Ok(()));
/// assert_eq!(caller.forget()?, 0);
/// # Ok::<(), fairexec::Error>(())
/// ```
pub struct Caller<J> {
    // It goes before the life does.
    shared: Arc<Shared<J>>,
    life: Life,
}

impl<J> Clone for Caller<J> {
    fn clone(&self) -> Caller<J> {
        Caller { shared: Arc::clone(&self.shared), life: Life::new(&self.life.lives) }
    }
}

impl<J> Caller<J> {
    /// Its number. No two handles of a process have the same.
    pub fn number(&self) -> u64 {
        self.life.number
    }

    fn owned(&self, ticket: Ticket) -> CallerTicket {
        CallerTicket { caller: self.life.number, ticket }
    }

    #[inline]
    fn own<'a>(&self, ticket: &'a CallerTicket) -> Result<&'a Ticket, Error> {
        if ticket.caller == self.life.number {
            Ok(&ticket.ticket)
        } else {
            Err(Error::Unknown)
        }
    }

    /// As [`Outside::submit`].
    ///
    /// # Errors
    ///
    /// As there, each with the job.
    #[inline]
    pub fn submit(&self, to: u32, queue: u32, job: J) -> Result<CallerTicket, (Error, J)> {
        let told = self.shared.lock().outside.submit(to, queue, job);
        told.map(|it| self.owned(it))
    }

    fn order(&self, order: impl FnOnce(&mut Outside<J>) -> Result<Ticket, Error>) -> Result<CallerTicket, Error> {
        let told = order(&mut self.shared.lock().outside);
        told.map(|it| self.owned(it))
    }

    /// As [`Outside::create`].
    ///
    /// # Errors
    ///
    /// As there.
    pub fn create(&self, to: u32, shares: u32) -> Result<CallerTicket, Error> {
        self.order(|it| it.create(to, shares))
    }

    /// As [`Outside::set_shares`].
    ///
    /// # Errors
    ///
    /// As there.
    pub fn set_shares(&self, to: u32, queue: u32, shares: u32) -> Result<CallerTicket, Error> {
        self.order(|it| it.set_shares(to, queue, shares))
    }

    /// As [`Outside::close_queue`].
    ///
    /// # Errors
    ///
    /// As there.
    pub fn close_queue(&self, to: u32, queue: u32, mode: Mode) -> Result<CallerTicket, Error> {
        self.order(|it| it.close_queue(to, queue, mode))
    }

    /// As [`Outside::close_core`].
    ///
    /// # Errors
    ///
    /// As there.
    pub fn close_core(&self, to: u32, mode: Mode) -> Result<CallerTicket, Error> {
        self.order(|it| it.close_core(to, mode))
    }

    /// As [`Outside::wake`]. A handle wakes any job, also another's.
    ///
    /// # Errors
    ///
    /// As there.
    pub fn wake(&self, job: Name) -> Result<CallerTicket, Error> {
        self.order(|it| it.wake(job))
    }

    /// As [`Outside::close_all`].
    ///
    /// # Errors
    ///
    /// As there.
    pub fn close_all(&self, mode: Mode) -> Result<(), Error> {
        self.shared.lock().outside.close_all(mode)
    }

    /// Collects all outcomes that the links show, whoever submitted. How many there were. Those that wait for one of them wake.
    ///
    /// # Errors
    ///
    /// `JournalFull`.
    pub fn collect(&self) -> Result<u64, Error> {
        // What comes back is dropped behind the lock.
        let mut back = Vec::new();
        let count = self.shared.lock().collect(&mut back);
        drop(back);
        count
    }

    /// The outcome of a submission of this handle that was collected. It is gone from then on.
    ///
    /// # Errors
    ///
    /// `Unknown` for the ticket of another handle; `JournalFull`, `Gone`, `Pending`.
    #[inline]
    pub fn redeem(&self, ticket: &CallerTicket) -> Result<Outcome<J>, Error> {
        let ticket = self.own(ticket)?;
        self.shared.lock().outside.redeem(ticket)
    }

    /// Nobody will ask for the outcome of a submission of this handle. A job that comes back is dropped.
    ///
    /// # Errors
    ///
    /// `Unknown` for the ticket of another handle, whose place stays taken; `Gone`.
    pub fn detach(&self, ticket: CallerTicket) -> Result<(), Error> {
        self.own(&ticket)?;
        let told = self.shared.lock().outside.actor.enter().detach(ticket.ticket);
        told.map(drop)
    }

    /// Waits for the outcome of a submission of this handle. Others make their calls while it sleeps.
    ///
    /// # Errors
    ///
    /// `Unknown` for the ticket of another handle; then as [`Outside::wait_for`].
    pub fn wait_for(&self, ticket: &CallerTicket) -> Result<Outcome<J>, Error> {
        self.wait_until(ticket, None)
    }

    /// The same for so long at most. The ticket is good for further calls.
    ///
    /// # Errors
    ///
    /// As `wait_for`, and `Pending` if the time is over before the outcome comes.
    pub fn wait_timeout(&self, ticket: &CallerTicket, longest: Duration) -> Result<Outcome<J>, Error> {
        // A time that no clock comes to is none.
        self.wait_until(ticket, Instant::now().checked_add(longest))
    }

    fn wait_until(&self, ticket: &CallerTicket, end: Option<Instant>) -> Result<Outcome<J>, Error> {
        let ticket = self.own(ticket)?;
        let mut back = Vec::new();
        let mut inside = self.shared.lock();
        let waiting = match inside.look(ticket, &mut back) {
            Some(told) => return told,
            None => Waiting::begin(&self.shared, inside, ticket),
        };
        drop(back);
        waiting.wait(end)
    }

    /// As [`Outside::pass_on`].
    ///
    /// # Errors
    ///
    /// As there.
    pub fn pass_on(&self, text: &mut Vec<u8>) -> Result<(), Error> {
        self.shared.lock().outside.pass_on(text)
    }

    /// As [`Outside::forget`].
    ///
    /// # Errors
    ///
    /// As there.
    pub fn forget(&self) -> Result<u64, Error> {
        self.shared.lock().outside.forget()
    }

    /// As [`Outside::note_counts`].
    ///
    /// # Errors
    ///
    /// As there.
    pub fn note_counts(&self) -> Result<NoteCounts, Error> {
        self.shared.lock().outside.note_counts()
    }
}

impl Caller<Task> {
    /// As [`Outside::spawn`].
    ///
    /// # Errors
    ///
    /// As `submit`, and the future is dropped.
    pub fn spawn<T: Send + 'static>(
        &self,
        core: u32,
        queue: u32,
        future: impl Future<Output = T> + Send + 'static,
    ) -> Result<(CallerTicket, Join<T>), Error> {
        let (task, join) = Task::new(future);
        let ticket = self.submit(core, queue, task).map_err(|(error, _)| error)?;
        Ok((ticket, join))
    }
}
