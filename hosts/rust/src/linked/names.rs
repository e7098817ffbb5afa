//! What the calls of a house take and tell.

use crate::raw;

/// The name of a submission: its sender, the core that it went to, and its number on that link.
///
/// ```
/// use fairexec::linked::{Answer, Config, Cx, House, Outcome, Step};
///
/// /// It counts its runs, and waits once.
/// fn run(job: &mut u64, _: &mut Cx<'_, u64>) -> Step {
///     *job += 1;
///     if *job == 1 { Step::Park } else { Step::Done(*job) }
/// }
/// let (_house, mut cores, mut outside) = House::open(&Config::default())?;
/// let ticket = outside.submit(0, 0, 0).map_err(|(error, _)| error)?;
/// while cores[0].round(run)? {}
/// // Who has the name wakes the job.
/// let wake = outside.wake(ticket.name())?;
/// while cores[0].round(run)? {}
/// assert_eq!(outside.wait_for(&wake)?, Outcome::Answered(Answer::Woken));
/// assert_eq!(outside.wait_for(&ticket)?, Outcome::Done(2));
/// # Ok::<(), fairexec::Error>(())
/// ```
#[derive(Clone, Copy, PartialEq, Eq, Hash, Debug)]
pub struct Name {
    /// An actor: a core, or the outside actor, whose number is the count of the cores.
    pub from: u32,
    /// A core.
    pub to: u32,
    /// 1 and up.
    pub number: u64,
}

impl Name {
    pub(super) fn of(name: &raw::fx_name) -> Name {
        Name { from: name.from, to: name.to, number: name.number }
    }

    pub(super) fn raw(self) -> raw::fx_name {
        raw::fx_name { from: self.from, to: self.to, number: self.number }
    }
}

/// What the run of a job came to.
///
/// ```
/// use fairexec::linked::{Config, House, Step, Turn};
///
/// let (_house, mut cores, mut outside) = House::open(&Config::default())?;
/// outside.submit(0, 0, ()).map(drop).map_err(|(error, ()): (_, ())| error)?;
/// cores[0].deliver()?;
/// assert_eq!(cores[0].run_turn(|(), _| Step::Yield)?, Turn::Yielded);
/// assert_eq!(cores[0].run_turn(|(), _| Step::Done(7))?, Turn::Done);
/// # Ok::<(), fairexec::Error>(())
/// ```
#[derive(Clone, Copy, PartialEq, Eq, Debug)]
pub enum Step {
    /// It wants to run again: it goes to the tail of its queue.
    Yield,
    /// It waits for something: it leaves its queue until it is woken.
    Park,
    /// It is done, with this answer for who submitted it.
    Done(u64),
}

impl Step {
    /// Its number, and the answer.
    #[inline]
    pub(super) fn numbers(self) -> (u32, u64) {
        match self {
            Step::Yield => (raw::FX_STEP_YIELD, 0),
            Step::Park => (raw::FX_STEP_PARK, 0),
            Step::Done(answer) => (raw::FX_STEP_DONE, answer),
        }
    }
}

/// What a turn came to.
///
/// ```
/// use fairexec::linked::{Config, House, Step, Turn};
///
/// let (_house, mut cores, mut outside) = House::open(&Config::default())?;
/// assert_eq!(cores[0].run_turn(|(), _| Step::Park)?, Turn::Idle);
/// let _ticket = outside.submit(0, 0, ()).map_err(|(error, ())| error)?;
/// cores[0].deliver()?;
/// assert_eq!(cores[0].run_turn(|(), _| Step::Park)?, Turn::Parked);
/// # Ok::<(), fairexec::Error>(())
/// ```
#[derive(Clone, Copy, PartialEq, Eq, Debug)]
pub enum Turn {
    /// A job ran, and is at the tail of its queue.
    Yielded,
    /// A job ran, and runs again once it was woken.
    Parked,
    /// A job ran, is done, and was dropped.
    Done,
    /// A job went back to who submitted it.
    Back(Name),
    /// No queue has work.
    Idle,
}

/// Why a job comes back.
///
/// ```
/// use fairexec::linked::{Config, House, Outcome, Reason};
///
/// let (_house, mut cores, mut outside) = House::open(&Config::default())?;
/// let ticket = outside.submit(0, 9, "a job").map_err(|(error, _)| error)?;
/// cores[0].deliver()?;
/// assert_eq!(outside.wait_for(&ticket)?, Outcome::Back(Reason::NoQueue, "a job"));
/// # Ok::<(), fairexec::Error>(())
/// ```
#[derive(Clone, Copy, PartialEq, Eq, Debug)]
pub enum Reason {
    /// At its delivery: the core has no queue of that number.
    NoQueue,
    /// At its delivery: the queue is closed.
    QueueClosed,
    /// At its delivery: the core is closed, and hands back what it holds.
    CoreClosing,
    /// At a pick: the queue is closed, and hands back what it holds.
    QueueReturned,
    /// At a pick: the core is closed, and hands back what it holds.
    CoreReturned,
}

impl Reason {
    pub(super) fn of(number: u32) -> Reason {
        match number {
            raw::FX_REASON_NO_QUEUE => Reason::NoQueue,
            raw::FX_REASON_QUEUE_CLOSED => Reason::QueueClosed,
            raw::FX_REASON_CORE_CLOSING => Reason::CoreClosing,
            raw::FX_REASON_QUEUE_RETURNED => Reason::QueueReturned,
            raw::FX_REASON_CORE_RETURNED => Reason::CoreReturned,
            _ => unreachable!("the library told reason {number}"),
        }
    }
}

/// What an order that is no job was answered.
///
/// ```
/// use fairexec::linked::{Answer, Config, House, Job, Outcome};
///
/// let (_house, mut cores, mut outside) = House::<Job>::open(&Config::default())?;
/// let ticket = outside.create(0, 300)?;
/// cores[0].deliver()?;
/// assert!(matches!(outside.wait_for(&ticket)?, Outcome::Answered(Answer::Created(1))));
/// # Ok::<(), fairexec::Error>(())
/// ```
#[derive(Clone, Copy, PartialEq, Eq, Debug)]
pub enum Answer {
    /// The queue was made, under this number.
    Created(u32),
    /// The core has 256 queues.
    TooMany,
    /// There is no memory for the queue.
    NoMemory,
    /// The core is closed, and makes no queue.
    CoreClosing,
    /// The queue has the shares from now on.
    SharesSet,
    /// The core has no queue of that number.
    NoQueue,
    /// The queue or the core is closed, or more strictly than before.
    Closed,
    /// It was closed before.
    AlreadyClosed,
    /// The job is inside, and is woken.
    Woken,
    /// No such job is inside.
    NoJob,
}

impl Answer {
    pub(super) fn of(number: u32, queue: u32) -> Answer {
        match number {
            raw::FX_ANSWER_CREATED => Answer::Created(queue),
            raw::FX_ANSWER_TOO_MANY => Answer::TooMany,
            raw::FX_ANSWER_NO_MEMORY => Answer::NoMemory,
            raw::FX_ANSWER_CORE_CLOSING => Answer::CoreClosing,
            raw::FX_ANSWER_SHARES_SET => Answer::SharesSet,
            raw::FX_ANSWER_NO_QUEUE => Answer::NoQueue,
            raw::FX_ANSWER_CLOSED => Answer::Closed,
            raw::FX_ANSWER_ALREADY_CLOSED => Answer::AlreadyClosed,
            raw::FX_ANSWER_WOKEN => Answer::Woken,
            raw::FX_ANSWER_NO_JOB => Answer::NoJob,
            _ => unreachable!("the library told answer {number}"),
        }
    }
}

/// What became of a submission.
///
/// ```
/// use fairexec::linked::{Config, House, Outcome, Step};
///
/// let (_house, mut cores, mut outside) = House::open(&Config::default())?;
/// let ticket = outside.submit(0, 0, 6_u64).map_err(|(error, _)| error)?;
/// while cores[0].round(|job, _| Step::Done(7 * *job))? {}
/// match outside.wait_for(&ticket)? {
///     Outcome::Done(answer) => assert_eq!(answer, 42),
///     Outcome::Back(reason, job) => panic!("{job} came back: {reason:?}"),
///     Outcome::Answered(_) => unreachable!("it is a job"),
/// }
/// # Ok::<(), fairexec::Error>(())
/// ```
#[must_use = "an outcome may be that the job came back"]
#[derive(PartialEq, Eq, Debug)]
pub enum Outcome<J> {
    /// The job is done, with this answer.
    Done(u64),
    /// The job comes back, unrun or unfinished.
    Back(Reason, J),
    /// The order that is no job was answered.
    Answered(Answer),
}

impl<J> Outcome<J> {
    /// The job that comes back, if it does.
    pub(super) fn into_job(self) -> Option<J> {
        match self {
            Outcome::Back(_, job) => Some(job),
            Outcome::Done(_) | Outcome::Answered(_) => None,
        }
    }
}
