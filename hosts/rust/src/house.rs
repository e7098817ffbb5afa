//! A core that keeps what its jobs are.

mod sleepers;

use crate::clock::{wall_clock, Clock};
use crate::core::{start_with, Core, Mode, Next, Settled, Step};
use crate::error::Error;
use crate::stats::{CoreStats, QueueStats};
use crate::timers::{Sleepers, NEVER};
use std::panic::{catch_unwind, AssertUnwindSafe};
use std::thread::JoinHandle;

/// What a turn came to.
#[derive(PartialEq, Eq, Debug)]
pub enum Turn<J> {
    /// A job ran, and is at the tail of its queue: it wants to run again, or asked to be parked and stays.
    Yielded,
    /// A job ran, and runs again once it was woken.
    Parked,
    /// This job ran, and is done.
    Done(J),
    /// This job goes back, unrun or unfinished, since its queue or its core hands back.
    Back(J),
    /// No queue has work.
    Idle,
}

/// A core and its jobs. `Cx` and `House` are the same but for the turns.
struct Inside<J> {
    core: Core,
    // A job's number is its place here.
    places: Vec<Option<J>>,
    vacant: Vec<usize>,
    // If its jobs may sleep.
    sleepers: Option<Sleepers>,
}

impl<J> Inside<J> {
    fn submit(&mut self, queue: u32, job: J) -> Result<u64, (Error, J)> {
        if self.is_full() {
            return Err((self.refusal(), job));
        }
        // If no place is vacant the core is full, and says so.
        let place = self.vacant.last().copied().unwrap_or(0);
        let order = match self.core.submit_numbered(queue, place as u64) {
            Ok(order) => order,
            Err(error) => return Err((error, job)),
        };
        self.vacant.pop();
        self.places[place] = Some(job);
        Ok(order)
    }

    fn vacate(&mut self, place: usize) -> J {
        self.vacant.push(place);
        self.places[place].take().expect("a job that the core holds has its place")
    }
}

/// The run of a job. If it ends by a panic, also of the clock, the job counts as done, and is dropped.
struct Running<'a, J> {
    inside: &'a mut Inside<J>,
    place: usize,
    // The job is out of its place while it runs.
    job: Option<J>,
    clock: Clock,
    began: u64,
    step: Step,
    // Until then the job sleeps if it parks.
    until: u64,
    is_settled: bool,
}

impl<J> Running<'_, J> {
    /// Settles the run, if it isn't settled yet.
    fn settle(&mut self) -> Option<Settled> {
        if std::mem::replace(&mut self.is_settled, true) {
            return None;
        }
        // A clock that panics here is charged as little as may be: nothing leaves the core with a job that nobody runs.
        let spent = catch_unwind(AssertUnwindSafe(|| (self.clock)().saturating_sub(self.began))).unwrap_or(0);
        let settled = self.inside.settle(self.step, spent, self.until);
        debug_assert!(settled.is_ok());
        match self.step {
            Step::Yield | Step::Park => self.inside.places[self.place] = self.job.take(),
            Step::Done => self.inside.vacant.push(self.place),
        }
        settled.ok()
    }
}

impl<J> Drop for Running<'_, J> {
    fn drop(&mut self) {
        self.settle();
    }
}

/// What a running job may do with its core.
pub struct Cx<'a, J> {
    inside: &'a mut Inside<J>,
    clock: Clock,
    // Until then the job sleeps if it parks.
    until: u64,
}

impl<J> Cx<'_, J> {
    /// Hands another job to the core.
    ///
    /// # Errors
    ///
    /// `Closed`, `Full`, `Spent`, `NoQueue`, each with the job.
    pub fn submit(&mut self, queue: u32, job: J) -> Result<(), (Error, J)> {
        self.inside.submit(queue, job).map(|_| ())
    }

    /// The same. The answer: the number by which `wake` names this job.
    ///
    /// # Errors
    ///
    /// `Closed`, `Full`, `Spent`, `NoQueue`, each with the job.
    pub fn submit_numbered(&mut self, queue: u32, job: J) -> Result<u64, (Error, J)> {
        self.inside.submit(queue, job)
    }

    /// See `Core::wake`.
    ///
    /// # Errors
    ///
    /// `Full`, `Spent`, `Absent`.
    pub fn wake(&mut self, order: u64) -> Result<(), Error> {
        self.inside.core.wake(order)
    }

    /// The core, without its turns: see `Core::create`.
    ///
    /// # Errors
    ///
    /// `BadShares`, `Closed`, `TooMany`, `NoMemory`.
    pub fn create(&mut self, shares: u32) -> Result<u32, Error> {
        self.inside.core.create(shares)
    }

    /// See `Core::set_shares`.
    ///
    /// # Errors
    ///
    /// `BadShares`, `Full`, `Spent`, `NoQueue`.
    pub fn set_shares(&mut self, queue: u32, shares: u32) -> Result<(), Error> {
        self.inside.core.set_shares(queue, shares)
    }

    /// See `Core::close_queue`.
    ///
    /// # Errors
    ///
    /// `NoQueue`, `Closed`.
    pub fn close_queue(&mut self, queue: u32, mode: Mode) -> Result<(), Error> {
        self.inside.core.close_queue(queue, mode)
    }

    /// See `Core::close`.
    ///
    /// # Errors
    ///
    /// `Closed`.
    pub fn close(&mut self, mode: Mode) -> Result<(), Error> {
        self.inside.core.close(mode)
    }
}

/// A core that keeps its jobs, which are of any type.
///
/// Like its core it isn't `Send`: it is opened on its thread, or goes to a new one by [`House::start`]. Whatever is inside is dropped with it.
pub struct House<J> {
    inside: Inside<J>,
    clock: Clock,
}

impl<J> House<J> {
    /// Opens a house with queue 0, which has 1000 shares, and with room for this many jobs. Runs are measured by the wall's time.
    ///
    /// # Errors
    ///
    /// `BadNumber`, `NoMemory`.
    pub fn open(jobs: u32) -> Result<House<J>, Error> {
        House::open_with(jobs, wall_clock)
    }

    /// The same, and runs are measured by this clock.
    ///
    /// # Errors
    ///
    /// `BadNumber`, `NoMemory`.
    pub fn open_with(jobs: u32, clock: Clock) -> Result<House<J>, Error> {
        let mut core = Core::open(jobs)?;
        let room = core.stats().room as usize;
        Ok(House {
            inside: Inside {
                core,
                places: (0..room).map(|_| None).collect(),
                vacant: (0..room).rev().collect(),
                sleepers: None,
            },
            clock,
        })
    }

    /// Starts a thread that has this house.
    pub fn start<R: Send + 'static>(self, run: impl FnOnce(House<J>) -> R + Send + 'static) -> JoinHandle<R>
    where
        J: Send + 'static,
    {
        start_with(self, run)
    }

    /// What a job may do between two turns as well. Nobody sleeps by it then.
    pub fn cx(&mut self) -> Cx<'_, J> {
        Cx { inside: &mut self.inside, clock: self.clock, until: NEVER }
    }

    /// See `Cx::submit`.
    ///
    /// # Errors
    ///
    /// `Closed`, `Full`, `Spent`, `NoQueue`, each with the job.
    pub fn submit(&mut self, queue: u32, job: J) -> Result<(), (Error, J)> {
        self.inside.submit(queue, job).map(|_| ())
    }

    /// The same. The answer: the number by which `wake` names this job.
    ///
    /// # Errors
    ///
    /// `Closed`, `Full`, `Spent`, `NoQueue`, each with the job.
    pub fn submit_numbered(&mut self, queue: u32, job: J) -> Result<u64, (Error, J)> {
        self.inside.submit(queue, job)
    }

    /// See `Core::wake`.
    ///
    /// # Errors
    ///
    /// `Full`, `Spent`, `Absent`.
    pub fn wake(&mut self, order: u64) -> Result<(), Error> {
        self.inside.core.wake(order)
    }

    /// See `Core::create`.
    ///
    /// # Errors
    ///
    /// `BadShares`, `Closed`, `TooMany`, `NoMemory`.
    pub fn create(&mut self, shares: u32) -> Result<u32, Error> {
        self.inside.core.create(shares)
    }

    /// See `Core::set_shares`.
    ///
    /// # Errors
    ///
    /// `BadShares`, `Full`, `Spent`, `NoQueue`.
    pub fn set_shares(&mut self, queue: u32, shares: u32) -> Result<(), Error> {
        self.inside.core.set_shares(queue, shares)
    }

    /// See `Core::close_queue`.
    ///
    /// # Errors
    ///
    /// `NoQueue`, `Closed`.
    pub fn close_queue(&mut self, queue: u32, mode: Mode) -> Result<(), Error> {
        self.inside.core.close_queue(queue, mode)
    }

    /// See `Core::close`.
    ///
    /// # Errors
    ///
    /// `Closed`.
    pub fn close(&mut self, mode: Mode) -> Result<(), Error> {
        self.inside.core.close(mode)
    }

    /// See `Core::stats`.
    pub fn stats(&mut self) -> CoreStats {
        self.inside.core.stats()
    }

    /// See `Core::stats_of`.
    ///
    /// # Errors
    ///
    /// `NoQueue`.
    pub fn stats_of(&mut self, queue: u32) -> Result<QueueStats, Error> {
        self.inside.core.stats_of(queue)
    }

    /// Wakes the jobs that sleep and whose time has come, and runs the next job once. A panic of `run` goes on after the job was settled as done and
    /// dropped.
    ///
    /// # Errors
    ///
    /// `Spent`.
    pub fn run_turn<R>(&mut self, run: R) -> Result<Turn<J>, Error>
    where
        R: FnOnce(&mut J, &mut Cx<'_, J>) -> Step,
    {
        self.inside.wake_due(self.clock)?;
        let place = match self.inside.core.next_job()? {
            Next::Start(place) | Next::Resume(place) => place as usize,
            Next::Back(place) => return Ok(Turn::Back(self.inside.vacate(place as usize))),
            Next::Idle => return Ok(Turn::Idle),
        };
        let job = self.inside.places[place].take();
        let mut running = Running {
            inside: &mut self.inside,
            place,
            job,
            clock: self.clock,
            began: u64::MAX,
            step: Step::Done,
            until: NEVER,
            is_settled: false,
        };
        running.began = (running.clock)();
        if let Some(job) = &mut running.job {
            let mut cx = Cx { inside: running.inside, clock: running.clock, until: NEVER };
            (running.step, running.until) = (run(job, &mut cx), cx.until);
        }
        match running.step {
            Step::Yield | Step::Park => Ok(match running.settle() {
                Some(Settled::Parked) => Turn::Parked,
                _ => Turn::Yielded,
            }),
            Step::Done => {
                let job = running.job.take();
                drop(running);
                Ok(Turn::Done(job.expect("a job that ran is there")))
            }
        }
    }
}

/// A closure as a job: it is called with its core, and answers whether it wants to run again.
pub struct Job(Box<dyn FnMut(&mut Cx<'_, Job>) -> Step + Send>);

impl Job {
    /// This closure as a job.
    pub fn new(run: impl FnMut(&mut Cx<'_, Job>) -> Step + Send + 'static) -> Job {
        Job(Box::new(run))
    }
}

impl House<Job> {
    /// Runs the next closure once.
    ///
    /// # Errors
    ///
    /// `Spent`.
    pub fn turn(&mut self) -> Result<Turn<Job>, Error> {
        self.run_turn(|job, cx| (job.0)(cx))
    }
}
