//! What an executor tells of itself.

use fairexec::linked::Verdict;
use std::path::PathBuf;
use std::time::Duration;

/// The counts of one core.
///
/// ```
/// use fairexec_rt::{yield_now, Executor};
///
/// let report = Executor::builder().run(|_| yield_now())?;
/// let core = &report.cores[0];
/// assert_eq!((core.core, core.tasks, core.queues.len()), (0, 0, 1));
/// assert!(core.turns >= 2);
/// # Ok::<(), fairexec_rt::Error>(())
/// ```
#[derive(Clone, PartialEq, Eq, Debug, Default)]
pub struct CoreStats {
    /// Its number.
    pub core: u32,
    /// Turns that it made.
    pub turns: u64,
    /// Tasks that haven't ended, waiting ones counted too.
    pub tasks: u64,
    /// Its queues, by their numbers.
    pub queues: Vec<QueueStats>,
    /// Bytes of its journal that went to a file.
    pub journal_bytes: u64,
}

/// The counts of one queue of a core.
///
/// ```
/// use fairexec_rt::Executor;
/// use std::{thread, time::Duration};
///
/// let report = Executor::builder().queue("requests", 500).run(|_| async { thread::sleep(Duration::from_millis(2)) })?;
/// let queue = &report.cores[0].queues[0];
/// assert_eq!((queue.name.as_str(), queue.shares, queue.picks), ("requests", 500, 1));
/// assert!(queue.time >= Duration::from_millis(2) && queue.virtual_runtime >= 2 * 2_000_000);
/// # Ok::<(), fairexec_rt::Error>(())
/// ```
#[derive(Clone, PartialEq, Eq, Debug, Default)]
pub struct QueueStats {
    /// The name that the builder gave it.
    pub name: String,
    /// Its shares.
    pub shares: u32,
    /// Turns of this queue.
    pub picks: u64,
    /// The time of its runs.
    pub time: Duration,
    /// Its virtual runtime, in nanoseconds of a queue with 1000 shares.
    pub virtual_runtime: u128,
}

/// What a run of the executor came to.
///
/// ```
/// use fairexec_rt::{Executor, Journal};
///
/// let report = Executor::builder().cores(2).journal(Journal::Keep).run(|_| async {})?;
/// assert!(report.is_sound());
/// assert!(report.journal.unwrap().starts_with("journal 1\ncores 2 "));
/// assert!(report.cores.iter().all(|it| it.turns >= 1 && it.tasks == 0));
/// # Ok::<(), fairexec_rt::Error>(())
/// ```
#[derive(Debug)]
pub struct Report {
    /// The counts of each core at its end.
    pub cores: Vec<CoreStats>,
    /// The audit's verdict over all journals, if they were kept ([`Journal::Keep`](crate::Journal::Keep)).
    pub audit: Option<Verdict>,
    /// The text of the journals, if they were kept.
    pub journal: Option<String>,
    /// The newest notes of each core, and behind them those of the outside actor, if these were asked for
    /// ([`Journal::Last`](crate::Journal::Last)).
    pub newest: Vec<String>,
    /// The files that are the journals once they are joined in this order, if these were asked for ([`Journal::Parts`](crate::Journal::Parts)).
    pub parts: Vec<PathBuf>,
}

impl Report {
    /// Whether the journals were kept and are sound.
    pub fn is_sound(&self) -> bool {
        self.audit.is_some_and(|it| it.is_sound)
    }
}
