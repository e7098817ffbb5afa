//! A core whose jobs are numbers.

use crate::error::{refused, Error};
use crate::raw;
use crate::stats::{CoreStats, QueueStats};
use crate::timers::Timers;
use std::thread::JoinHandle;

/// What the run of a job came to.
#[derive(Clone, Copy, PartialEq, Eq, Debug)]
pub enum Step {
    /// It wants to run again: it goes to the tail of its queue.
    Yield,
    /// It is done.
    Done,
    /// It waits for something: it leaves its queue until it is woken.
    Park,
}

impl Step {
    fn number(self) -> u32 {
        match self {
            Step::Yield => raw::FX_STEP_YIELD,
            Step::Done => raw::FX_STEP_DONE,
            Step::Park => raw::FX_STEP_PARK,
        }
    }
}

/// What became of the job of a settled run.
#[derive(Clone, Copy, PartialEq, Eq, Debug)]
pub enum Settled {
    /// It is at the tail of its queue: it wants to run again, or asked to be parked and stays, since a wake was kept for it, or since its queue
    /// or its core hands back.
    Queued,
    /// It runs again once it was woken.
    Parked,
    /// It is done.
    Done,
}

impl Settled {
    fn of(code: u32) -> Result<Settled, Error> {
        match code {
            raw::FX_OK => Ok(Settled::Queued),
            raw::FX_PARKED => Ok(Settled::Parked),
            raw::FX_DONE => Ok(Settled::Done),
            code => Err(Error::of(code)),
        }
    }
}

/// How a queue or a core closes. Either way it takes no new job.
#[derive(Clone, Copy, PartialEq, Eq, Debug)]
pub enum Mode {
    /// The jobs inside run on.
    Finish,
    /// Each later turn of it hands a job back. The parked ones go to the tail of their queue first.
    Return,
}

impl Mode {
    pub(crate) fn number(self) -> u32 {
        match self {
            Mode::Finish => raw::FX_MODE_FINISH,
            Mode::Return => raw::FX_MODE_RETURN,
        }
    }
}

/// What comes next.
#[derive(Clone, Copy, PartialEq, Eq, Debug)]
pub enum Next {
    /// Run this job for the first time, and then settle it.
    Start(u64),
    /// Run this job again, and then settle it.
    Resume(u64),
    /// This job goes back, unrun or unfinished, since its queue or its core hands back.
    Back(u64),
    /// No queue has work.
    Idle,
}

/// A core with fair task queues, whose jobs are numbers. hosts/c/fairexec.h tells what each call does.
///
/// It isn't `Send`: the library asks that a lock, the start or the join of a thread, or a sequentially consistent atomic stands between two
/// calls on different threads, and a channel may hand a value over by less. So a core is opened on its thread, or goes to a new one by
/// [`Core::start`]. It isn't `Sync` either. It is freed as it is dropped.
///
/// ```compile_fail,E0277
/// fn is_send<T: Send>() {}
/// is_send::<fairexec::Core>();
/// ```
///
/// ```compile_fail,E0277
/// fn is_sync<T: Sync>() {}
/// is_sync::<fairexec::Core>();
/// ```
pub struct Core {
    handle: raw::fx_core,
}

/// What goes to a new thread by its start, and by nothing else.
pub(crate) struct Starts<T>(T);

// SAFETY: only `start_with` makes one, of a value whose parts but cores and timers are `Send`, and hands it to a thread that it starts.
unsafe impl<T> Send for Starts<T> {}

impl<T> Starts<T> {
    fn value(self) -> T {
        self.0
    }
}

/// Starts a thread with this value, whose parts but cores and timers are `Send`: the callers in this crate see to that.
pub(crate) fn start_with<T: 'static, R: Send + 'static>(value: T, run: impl FnOnce(T) -> R + Send + 'static) -> JoinHandle<R> {
    let starts = Starts(value);
    std::thread::spawn(move || run(starts.value()))
}

/// Stands before the first call of the library.
///
/// # Panics
///
/// If the library that was linked has another version than these declarations.
pub(crate) fn check_version() {
    // SAFETY: it takes nothing.
    let version = unsafe { raw::fx_version() };
    assert_eq!(version, raw::FX_VERSION, "libfairexec.a has another version");
}

// In each call below the handle is that of an open core and of this `Core` alone, `&mut self` keeps a second call away, and every pointer is
// to a local value that outlives the call.
impl Core {
    /// Starts a thread that has this core.
    pub fn start<R: Send + 'static>(self, run: impl FnOnce(Core) -> R + Send + 'static) -> JoinHandle<R> {
        start_with(self, run)
    }

    /// Opens a core with queue 0, which has 1000 shares, and with room for this many jobs, 1 to 131070; an odd number is rounded up.
    ///
    /// # Errors
    ///
    /// `BadNumber`, `NoMemory`.
    ///
    /// # Panics
    ///
    /// If the library that was linked has another version than these declarations.
    pub fn open(jobs: u32) -> Result<Core, Error> {
        check_version();
        let mut handle = raw::fx_core { at: std::ptr::null_mut() };
        // SAFETY: the handle is empty, and lives through the call.
        refused(unsafe { raw::fx_open(&mut handle, jobs) })?;
        Ok(Core { handle })
    }

    /// Makes a queue with these shares. The answer: its number, 1 to 255. It asks for memory.
    ///
    /// # Errors
    ///
    /// `BadShares`, `Closed`, `TooMany`, `NoMemory`.
    pub fn create(&mut self, shares: u32) -> Result<u32, Error> {
        let mut queue = 0;
        // SAFETY: as above.
        refused(unsafe { raw::fx_create(&mut self.handle, shares, &mut queue) })?;
        Ok(queue)
    }

    /// Gives a queue these shares.
    ///
    /// # Errors
    ///
    /// `BadShares`, `Full`, `Spent`, `NoQueue`.
    pub fn set_shares(&mut self, queue: u32, shares: u32) -> Result<(), Error> {
        // SAFETY: as above.
        refused(unsafe { raw::fx_set_shares(&mut self.handle, queue, shares) })
    }

    /// Hands a job to the tail of a queue, also while a job runs.
    ///
    /// # Errors
    ///
    /// `Closed`, `Full`, `Spent`, `NoQueue`.
    pub fn submit(&mut self, queue: u32, job: u64) -> Result<(), Error> {
        // SAFETY: as above.
        refused(unsafe { raw::fx_submit(&mut self.handle, queue, job) })
    }

    /// The same. The answer: the number by which `wake` names this job.
    ///
    /// # Errors
    ///
    /// `Closed`, `Full`, `Spent`, `NoQueue`.
    pub fn submit_numbered(&mut self, queue: u32, job: u64) -> Result<u64, Error> {
        let mut order = 0;
        // SAFETY: as above.
        refused(unsafe { raw::fx_submit_numbered(&mut self.handle, queue, job, &mut order) })?;
        Ok(order)
    }

    /// Wakes the job of this number. A parked one goes to the tail of its queue. For another the wake is kept until it parks next; several
    /// kept wakes are one. A job that was woken looks again for what it waits for.
    ///
    /// # Errors
    ///
    /// `Full`, `Spent`; `Absent` if no job of this number is inside.
    pub fn wake(&mut self, order: u64) -> Result<(), Error> {
        // SAFETY: as above.
        refused(unsafe { raw::fx_wake(&mut self.handle, order) })
    }

    /// Tells which job to run now.
    ///
    /// # Errors
    ///
    /// `Busy`, `Spent`.
    pub fn next_job(&mut self) -> Result<Next, Error> {
        let mut job = 0;
        // SAFETY: as above.
        match unsafe { raw::fx_next(&mut self.handle, &mut job) } {
            raw::FX_START => Ok(Next::Start(job)),
            raw::FX_RESUME => Ok(Next::Resume(job)),
            raw::FX_BACK => Ok(Next::Back(job)),
            raw::FX_IDLE => Ok(Next::Idle),
            code => Err(Error::of(code)),
        }
    }

    /// Settles the run of the job that `next_job` told, which took so many nanoseconds: they count as at least 1 and at most 2^40 - 1.
    ///
    /// # Errors
    ///
    /// `NoJob`.
    pub fn settle(&mut self, step: Step, spent: u64) -> Result<Settled, Error> {
        // SAFETY: as above.
        Settled::of(unsafe { raw::fx_settle(&mut self.handle, step.number(), spent) })
    }

    /// The same, with the timers of this core. If the job parks, it sleeps until this time: [`wake_due`](Core::wake_due) wakes it then, unless it is
    /// woken before. `None` and `u64::MAX` are no time. Each run of a job that may sleep is settled by this call, whatever its step: the timer of a
    /// job that was woken before its time is gone then.
    ///
    /// # Errors
    ///
    /// `NoJob`. `Full` if the job parks and each timer is set for another one: the run isn't settled, and may be settled otherwise.
    pub fn settle_until(&mut self, timers: &mut Timers, step: Step, spent: u64, time: Option<u64>) -> Result<Settled, Error> {
        let time = time.unwrap_or(raw::FX_NEVER);
        // SAFETY: as above; the other handle is that of open timers.
        Settled::of(unsafe { raw::fx_settle_until(&mut self.handle, timers.handle(), step.number(), spent, time) })
    }

    /// Looks at the timer that is due next. If its time has come by `now`, its job is woken and the timer is gone. A job that isn't parked any more
    /// isn't woken. Whether a timer was due: the host calls it until the answer is `false`.
    ///
    /// # Errors
    ///
    /// `Full`, `Spent`, as `wake`. Then the timer stays.
    pub fn wake_due(&mut self, timers: &mut Timers, now: u64) -> Result<bool, Error> {
        // SAFETY: as above.
        match unsafe { raw::fx_wake_due(&mut self.handle, timers.handle(), now) } {
            raw::FX_IDLE => Ok(false),
            raw::FX_ABSENT => Ok(true),
            code => refused(code).map(|()| true),
        }
    }

    /// Closes a queue. One that finishes may be closed once more, with `Return`.
    ///
    /// # Errors
    ///
    /// `NoQueue`; `Closed` if it was so, or more strictly, before.
    pub fn close_queue(&mut self, queue: u32, mode: Mode) -> Result<(), Error> {
        // SAFETY: as above.
        refused(unsafe { raw::fx_close_queue(&mut self.handle, queue, mode.number()) })
    }

    /// Closes the core with all its queues, by the same rule.
    ///
    /// # Errors
    ///
    /// `Closed` if it was so, or more strictly, before.
    pub fn close(&mut self, mode: Mode) -> Result<(), Error> {
        // SAFETY: as above.
        refused(unsafe { raw::fx_close(&mut self.handle, mode.number()) })
    }

    /// The counts of the core.
    pub fn stats(&mut self) -> CoreStats {
        let mut stats = CoreStats::asked();
        // SAFETY: as above.
        let code = unsafe { raw::fx_stats(&mut self.handle, &mut stats) };
        assert_eq!(code, raw::FX_OK);
        CoreStats::of(&stats)
    }

    /// The counts of a queue.
    ///
    /// # Errors
    ///
    /// `NoQueue`.
    pub fn stats_of(&mut self, queue: u32) -> Result<QueueStats, Error> {
        let mut stats = QueueStats::asked();
        // SAFETY: as above.
        refused(unsafe { raw::fx_stats_of_queue(&mut self.handle, queue, &mut stats) })?;
        Ok(QueueStats::of(&stats))
    }
}

impl Drop for Core {
    fn drop(&mut self) {
        // SAFETY: as above, and nobody uses the handle any more.
        unsafe { raw::fx_free(&mut self.handle) };
    }
}
