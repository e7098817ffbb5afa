//! What all threads reach of an executor.

use crate::barrier::Barrier;
use crate::call::{Call, Start};
use crate::local::Job;
use crate::report::{CoreStats, QueueStats};
use crate::stop::Ending;
use crate::task::Turn;
use fairexec::linked::{Core, Ringer};
use std::future::ready;
use std::sync::atomic::{AtomicBool, AtomicU64, Ordering};
use std::sync::{Arc, Mutex, MutexGuard, PoisonError};
use std::time::Duration;

/// Nothing that is kept under a lock here is left half done by a panic.
pub(crate) fn lock<T>(of: &Mutex<T>) -> MutexGuard<'_, T> {
    of.lock().unwrap_or_else(PoisonError::into_inner)
}

/// A task queue, by its number. [`Builder::queue`](crate::Builder::queue) numbers them from 0, and each core has all of them.
///
/// ```
/// use fairexec_rt::{spawn_local, Executor, Queue};
///
/// const BACKGROUND: Queue = Queue::new(1);
/// assert_eq!((Queue::FIRST.number(), BACKGROUND.number()), (0, 1));
/// Executor::builder().queue("requests", 1000).queue("background", 100).run(|_| async {
///     spawn_local(BACKGROUND, async {}).await.unwrap();
/// })?;
/// # Ok::<(), fairexec_rt::Error>(())
/// ```
#[derive(Clone, Copy, PartialEq, Eq, Hash, Debug)]
pub struct Queue(pub(crate) u32);

impl Queue {
    /// Queue 0, in which the futures of [`Builder::run`](crate::Builder::run) run.
    pub const FIRST: Queue = Queue(0);

    /// The queue of this number. A number that no queue has is found by the call that is handed it.
    pub const fn new(number: u32) -> Queue {
        Queue(number)
    }

    /// Its number.
    pub const fn number(self) -> u32 {
        self.0
    }
}

/// # Panics
///
/// If a queue can't have so many shares.
pub(crate) fn check_shares(shares: u32) {
    assert!((1..=10_000).contains(&shares), "shares are 1 to 10000, and not {shares}");
}

/// What the builder says of a queue.
pub(crate) struct QueueSetup {
    pub(crate) name: String,
    pub(crate) shares: u32,
    /// `yield_if_needed` yields after so many nanoseconds.
    pub(crate) slice: u64,
}

/// What another thread has for a core.
pub(crate) enum Mail {
    /// A task whose waker was called, and its queue.
    Woken(u32, Turn),
    /// A call of a thread that is no core.
    Start(u32, Start),
    /// Shares for a queue, from such a thread.
    Shares(u32, u32, Start),
}

/// What other threads reach of a core. No other core has something on these lines of a cache.
#[repr(align(128))]
pub(crate) struct Port {
    ringer: Ringer,
    has_mail: AtomicBool,
    // Whether calls went here since the core delivered last. It ends a slice early, and nothing depends on it.
    has_calls: AtomicBool,
    // None once the core has ended.
    mail: Mutex<Option<Vec<Mail>>>,
    counts: Mutex<Counts>,
    /// What the library doesn't count: tasks that haven't ended, and bytes of the journal that went to a file.
    pub(crate) tasks: AtomicU64,
    pub(crate) journal_bytes: AtomicU64,
}

/// What the library counts of a core, all at one time.
struct Counts {
    turns: u64,
    queues: Vec<fairexec::QueueStats>,
}

impl Counts {
    fn of(core: &mut Core<Job>) -> Counts {
        let stats = core.stats();
        Counts { turns: stats.turns, queues: (0..stats.queues).filter_map(|it| core.stats_of(it).ok()).collect() }
    }
}

impl Port {
    pub(crate) fn new(core: &mut Core<Job>) -> Port {
        Port {
            ringer: core.ringer(),
            has_mail: AtomicBool::new(false),
            has_calls: AtomicBool::new(false),
            mail: Mutex::new(Some(Vec::new())),
            counts: Mutex::new(Counts::of(core)),
            tasks: AtomicU64::new(0),
            journal_bytes: AtomicU64::new(0),
        }
    }

    /// Leaves the counts of this core for other threads.
    pub(crate) fn tell(&self, core: &mut Core<Job>) {
        let counts = Counts::of(core);
        *lock(&self.counts) = counts;
    }

    /// The same, unless a thread reads them just now: a core that runs waits for none.
    pub(crate) fn try_tell(&self, core: &mut Core<Job>) {
        if let Ok(mut counts) = self.counts.try_lock() {
            *counts = Counts::of(core);
        }
    }

    /// Leaves mail, and then rings: the order that `wait_by` of the wrapper asks for. A core that has ended takes none: the mail is dropped, which tells
    /// who waits for it.
    pub(crate) fn leave(&self, mail: Mail) {
        {
            let mut all = lock(&self.mail);
            let Some(all) = &mut *all else { return };
            all.push(mail);
            self.has_mail.store(true, Ordering::SeqCst);
        }
        self.ring();
    }

    /// The same for all of this, if there is some.
    pub(crate) fn leave_all(&self, mails: &mut Vec<Mail>) {
        if mails.is_empty() {
            return;
        }
        {
            let mut all = lock(&self.mail);
            let Some(all) = &mut *all else { return mails.clear() };
            all.append(mails);
            self.has_mail.store(true, Ordering::SeqCst);
        }
        self.ring();
    }

    /// The core ends. Its mail is dropped, on its thread.
    pub(crate) fn close(&self) {
        let mail = lock(&self.mail).take();
        drop(mail);
    }

    pub(crate) fn ring(&self) {
        self.ringer.ring();
    }

    /// Whether mail was left: what a core looks at before it sleeps.
    pub(crate) fn has_mail(&self) -> bool {
        self.has_mail.load(Ordering::SeqCst)
    }

    /// Tells that calls went here.
    pub(crate) fn tell_calls(&self) {
        self.has_calls.store(true, Ordering::Relaxed);
    }

    /// The core is about to see the calls that went here.
    pub(crate) fn sees_calls(&self) {
        if self.has_calls.load(Ordering::Relaxed) {
            self.has_calls.store(false, Ordering::Relaxed);
        }
    }

    /// Whether mail or calls came that the core hasn't seen.
    pub(crate) fn has_some(&self) -> bool {
        self.has_mail.load(Ordering::Relaxed) || self.has_calls.load(Ordering::Relaxed)
    }

    /// Takes all mail, and leaves this room for more.
    pub(crate) fn take(&self, room: &mut Vec<Mail>) {
        let mut all = lock(&self.mail);
        self.has_mail.store(false, Ordering::SeqCst);
        if let Some(all) = &mut *all {
            std::mem::swap(all, room);
        }
    }
}

/// What all threads share.
pub(crate) struct Shared {
    pub(crate) ports: Vec<Port>,
    pub(crate) queues: Vec<QueueSetup>,
    /// Submissions that may be outstanding on a link.
    pub(crate) places: u32,
    pub(crate) ending: Ending,
    pub(crate) barrier: Barrier,
}

impl Shared {
    pub(crate) fn cores(&self) -> u32 {
        self.ports.len() as u32
    }

    pub(crate) fn ring_all(&self) {
        self.ports.iter().for_each(Port::ring);
    }

    /// The counts of all cores.
    pub(crate) fn stats(&self) -> Vec<CoreStats> {
        (0..).zip(&self.ports).map(|(core, port)| self.stats_of(core, port)).collect()
    }

    fn stats_of(&self, core: u32, port: &Port) -> CoreStats {
        let counts = lock(&port.counts);
        let queues = self.queues.iter().zip(&counts.queues).map(|(setup, it)| QueueStats {
            name: setup.name.clone(),
            shares: it.shares,
            picks: it.picks,
            time: Duration::from_nanos(it.time as u64),
            virtual_runtime: it.virtual_runtime,
        });
        let [tasks, journal_bytes] = [&port.tasks, &port.journal_bytes].map(|it| it.load(Ordering::Relaxed));
        CoreStats { core, turns: counts.turns, tasks, queues: queues.collect(), journal_bytes }
    }
}

/// The executor, for any thread. It is cheap to clone, and may outlive the executor.
///
/// ```
/// use fairexec_rt::{Executor, Queue};
///
/// Executor::builder().cores(2).run(|here| async move {
///     let handle = here.handle();
///     let other = std::thread::spawn(move || {
///         let call = handle.submit(1, Queue::FIRST, || async { 21 });
///         2 * futures_lite::future::block_on(call).unwrap()
///     });
///     assert_eq!(fairexec_rt::fs::unblock(move || other.join().unwrap()).await, 42);
///     assert_eq!(here.handle().stats().len(), here.handle().cores() as usize);
///     here.handle().stop(std::time::Duration::from_secs(1));
/// })?;
/// # Ok::<(), fairexec_rt::Error>(())
/// ```
#[derive(Clone)]
pub struct Handle(pub(crate) Arc<Shared>);

impl Handle {
    /// How many cores there are.
    pub fn cores(&self) -> u32 {
        self.0.cores()
    }

    /// The counts of all cores, some 20 ms old at most, or up to a second with many queues.
    pub fn stats(&self) -> Vec<CoreStats> {
        self.0.stats()
    }

    /// As [`stop`](crate::stop()).
    pub fn stop(&self, grace: Duration) {
        self.0.ending.stop(grace);
        self.0.ring_all();
    }

    /// As [`submit`](crate::submit), from a thread that is no core. The order goes by the core's mail, not by a link of the library.
    ///
    /// # Panics
    ///
    /// If there is no such core or queue.
    pub fn submit<F, T>(&self, core: u32, queue: Queue, make: impl FnOnce() -> F + Send + 'static) -> Call<T>
    where
        F: std::future::Future<Output = T> + 'static,
        T: Send + 'static,
    {
        let (start, call) = Start::new(make);
        self.port(core, queue).leave(Mail::Start(queue.0, start));
        call
    }

    /// As [`set_shares`](crate::set_shares), from any thread.
    ///
    /// # Panics
    ///
    /// If there is no such core or queue, or the shares are out of their range.
    ///
    /// ```
    /// use fairexec_rt::{fs::unblock, Executor, Queue};
    ///
    /// let report = Executor::builder().queue("requests", 1000).queue("background", 100).run(|here| async move {
    ///     let handle = here.handle();
    ///     unblock(move || futures_lite::future::block_on(handle.set_shares(0, Queue::new(1), 300))).await.unwrap();
    /// })?;
    /// assert_eq!(report.cores[0].queues[1].shares, 300);
    /// # Ok::<(), fairexec_rt::Error>(())
    /// ```
    pub fn set_shares(&self, core: u32, queue: Queue, shares: u32) -> Call<()> {
        check_shares(shares);
        let (told, call) = Start::new(|| ready(()));
        self.port(core, queue).leave(Mail::Shares(queue.0, shares, told));
        call
    }

    fn port(&self, core: u32, queue: Queue) -> &Port {
        assert!(queue.0 < self.0.queues.len() as u32, "there is no queue {}", queue.0);
        self.0.ports.get(core as usize).unwrap_or_else(|| panic!("there is no core {core}"))
    }
}
