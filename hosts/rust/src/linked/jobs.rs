//! Closures on the cores of a house.

use super::core::Core;
use super::cx::Cx;
use super::names::Step;
use crate::error::Error;

/// A closure as a job: it is called with what it may do while it runs.
///
/// ```
/// use fairexec::linked::{Config, House, Job, Outcome, Step};
/// use fairexec::Mode;
///
/// let (_house, mut cores, mut outside) = House::open(&Config::default())?;
/// let mut runs = 0;
/// let job = Job::new(move |_| {
///     runs += 1;
///     if runs < 3 { Step::Yield } else { Step::Done(runs) }
/// });
/// let ticket = outside.submit(0, 0, job).map_err(|(error, _)| error)?;
/// outside.close_all(Mode::Finish)?;
/// cores[0].run_jobs()?;
/// assert!(matches!(outside.wait_for(&ticket)?, Outcome::Done(3)));
/// # Ok::<(), fairexec::Error>(())
/// ```
pub struct Job(Box<dyn FnMut(&mut Cx<'_, Job>) -> Step + Send>);

impl Job {
    /// This closure as a job.
    pub fn new(run: impl FnMut(&mut Cx<'_, Job>) -> Step + Send + 'static) -> Job {
        Job(Box::new(run))
    }
}

impl Core<Job> {
    /// Runs closures until the core is drained.
    ///
    /// # Errors
    ///
    /// `JournalFull`, `Spent`.
    pub fn run_jobs(&mut self) -> Result<(), Error> {
        self.run(|job, cx| (job.0)(cx))
    }
}
