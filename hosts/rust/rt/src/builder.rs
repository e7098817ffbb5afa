//! How an executor is made, runs and ends.

use crate::barrier::Barrier;
use crate::journal::{self, judge, parts, takers, Journal, Notes, Taker};
use crate::local::Job;
use crate::pin::Pin;
use crate::report::Report;
use crate::root::{make_queues, serve, Termination};
use crate::shared::{Handle, Port, Queue, QueueSetup, Shared};
use crate::signal::Stops;
use crate::stop::{Ending, Failure};
use crate::Error;
use fairexec::linked::{Config, Core, Form, House, Outside};
use fairexec::Mode;
use std::future::Future;
use std::panic::resume_unwind;
use std::sync::Arc;
use std::time::Duration;

/// An executor. It is made by [`Executor::builder`], and lives as long as [`Builder::run`] goes on.
///
/// ```
/// let report = fairexec_rt::Executor::builder().run(|here| async move { assert_eq!((here.core(), here.cores()), (0, 1)) })?;
/// assert_eq!(report.cores[0].queues[0].shares, 1000);
/// # Ok::<(), fairexec_rt::Error>(())
/// ```
pub struct Executor;

impl Executor {
    /// What an executor is made by: one core with one queue of 1000 shares, unless it is told otherwise.
    pub fn builder() -> Builder {
        Builder::default()
    }
}

/// A run that took longer than [`Builder::slow_poll`] allows.
///
/// ```
/// use fairexec_rt::{Executor, SlowPoll};
/// use std::time::Duration;
///
/// fn warn(it: SlowPoll) {
///     eprintln!("core {}, queue {} ({}): {:?}", it.core, it.queue.number(), it.name, it.ran);
/// }
/// Executor::builder().slow_poll(Duration::from_millis(2), warn).run(|_| async {})?;
/// # Ok::<(), fairexec_rt::Error>(())
/// ```
#[derive(Clone, PartialEq, Eq, Debug)]
pub struct SlowPoll {
    /// The core.
    pub core: u32,
    /// The queue.
    pub queue: Queue,
    /// Its name.
    pub name: String,
    /// How long the run took.
    pub ran: Duration,
}

type Tells = Box<dyn Fn(SlowPoll) + Send + Sync>;

/// What the loop of a core reads.
pub(crate) struct Setup {
    pub(crate) reactor_every: Duration,
    pub(crate) slow_poll: Option<(Duration, Tells)>,
    /// By the actor.
    pub(crate) takers: Vec<Option<Taker>>,
    pub(crate) round: Duration,
    pub(crate) pin: Pin,
    journal: Journal,
}

/// Says what an executor is made of.
///
/// ```
/// use fairexec_rt::{Executor, Journal, Pin};
/// use std::time::Duration;
///
/// let builder = Executor::builder().cores(2).pin(Pin::No).journal(Journal::Last(1000)).places(256).notes(1024);
/// let builder = builder.queue("requests", 1000).queue("background", 100).slice(Duration::from_micros(5)).burst(2);
/// let builder = builder.reactor_every(Duration::from_micros(30)).round(Duration::from_micros(20));
/// let report = builder.stop_on_signals(Duration::from_secs(2)).run(|_| async {})?;
/// assert_eq!(report.cores.len(), 2);
/// # Ok::<(), fairexec_rt::Error>(())
/// ```
pub struct Builder {
    cores: u32,
    queues: Vec<QueueSetup>,
    places: u32,
    burst: u32,
    notes: Option<u32>,
    signals: Option<Duration>,
    setup: Setup,
}

impl Default for Builder {
    fn default() -> Builder {
        let setup = Setup {
            reactor_every: Duration::from_micros(25),
            slow_poll: None,
            takers: Vec::new(),
            round: Duration::from_micros(10),
            journal: Journal::default(),
            pin: Pin::No,
        };
        Builder { cores: 1, queues: Vec::new(), places: 512, burst: 1, notes: None, signals: None, setup }
    }
}

/// `yield_if_needed` yields after so much time, unless `slice` says otherwise.
const SLICE: u64 = 10_000;

impl Builder {
    /// How many cores, 1 to 16. Each has a thread of its own.
    pub fn cores(mut self, cores: u32) -> Builder {
        self.cores = cores;
        self
    }

    /// On which processors they run.
    pub fn pin(mut self, pin: Pin) -> Builder {
        self.setup.pin = pin;
        self
    }

    /// One more queue on each core, with these shares, 1 to 10000. The first is queue 0. Without a call of this there is one, with 1000 shares.
    pub fn queue(mut self, name: &str, shares: u32) -> Builder {
        self.queues.push(QueueSetup { name: name.to_owned(), shares, slice: SLICE });
        self
    }

    /// [`yield_if_needed`](crate::yield_if_needed) yields, in the queue that was named last, after so much time, or sooner if something comes. Tasks and
    /// calls of the queue that run one behind the other let other queues run then, too. At first it is 10 µs. A short slice of a background queue keeps
    /// the latency of the others low: a task whose timer is due waits for the run that goes on.
    ///
    /// # Panics
    ///
    /// If no queue was named.
    pub fn slice(mut self, slice: Duration) -> Builder {
        self.queues.last_mut().expect("a queue is named before its slice").slice = slice.as_nanos() as u64;
        self
    }

    /// What becomes of the journals. At first they go nowhere.
    pub fn journal(mut self, journal: Journal) -> Builder {
        self.setup.journal = journal;
        self
    }

    /// Notes that the journal of each core has room for: those of a whole run if they are kept, else those between two times that they are passed
    /// on or forgotten. At first these are 2^20, and 4 times the places, or with `Journal::Last` 64 times as many as stay. A note has 48 bytes.
    pub fn notes(mut self, notes: u32) -> Builder {
        self.notes = Some(notes);
        self
    }

    /// Submissions that may be outstanding from one core to another, 2 to 1024. At first it is 512. Tasks that wait need none.
    pub fn places(mut self, places: u32) -> Builder {
        self.places = places;
        self
    }

    /// Runs that one turn of a queue may have, 1 to 64. At first it is 1. A queue is charged once for all runs of a turn, which makes turns cheaper
    /// and lets other queues wait for so many runs.
    pub fn burst(mut self, burst: u32) -> Builder {
        self.burst = burst;
        self
    }

    /// A core that has work asks its reactor after so much time, also in a run, by [`yield_if_needed`](crate::yield_if_needed). At first it is 25 µs.
    /// Between two runs at least 25 µs pass.
    pub fn reactor_every(mut self, time: Duration) -> Builder {
        self.setup.reactor_every = time;
        self
    }

    /// A core looks at its links and at what was woken after so much time. At first it is 10 µs.
    pub fn round(mut self, time: Duration) -> Builder {
        self.setup.round = time;
        self
    }

    /// Who is told of each run that takes so long or longer. It is called on the core, behind that run.
    ///
    /// ```
    /// use fairexec_rt::Executor;
    /// use std::sync::atomic::{AtomicU32, Ordering::SeqCst};
    /// use std::time::Duration;
    ///
    /// static SLOW: AtomicU32 = AtomicU32::new(0);
    /// let server = Executor::builder().queue("requests", 1000).slow_poll(Duration::from_millis(2), |it| {
    ///     eprintln!("core {}: a task of {} ran for {:?}", it.core, it.name, it.ran);
    ///     SLOW.fetch_add(1, SeqCst);
    /// });
    /// server.run(|_| async { std::thread::sleep(Duration::from_millis(3)) })?;
    /// assert!(SLOW.load(SeqCst) >= 1);
    /// # Ok::<(), fairexec_rt::Error>(())
    /// ```
    pub fn slow_poll(mut self, longest: Duration, tell: impl Fn(SlowPoll) + Send + Sync + 'static) -> Builder {
        self.setup.slow_poll = Some((longest, Box::new(tell)));
        self
    }

    /// SIGTERM and SIGINT [stop](crate::stop()) the executor, with this grace.
    pub fn stop_on_signals(mut self, grace: Duration) -> Builder {
        self.signals = Some(grace);
        self
    }

    /// Starts a future on each core, in queue 0, and runs the cores until all these futures have ended. Then the tasks that are left are dropped. If
    /// [`stop`](crate::stop()) was called before, the tasks that are left have its grace.
    ///
    /// The first of these futures that comes to an error or panics ends the executor at once.
    ///
    /// # Errors
    ///
    /// `Setup` for a number that is out of its range; `Begin` with the error of a future; `Library` and `Io` if a core failed.
    ///
    /// # Panics
    ///
    /// As the future that panicked.
    ///
    /// ```
    /// use fairexec_rt::Executor;
    ///
    /// // What the cores need of `main` is cloned for each of them.
    /// let names = std::sync::Arc::new(["one".to_owned(), "two".to_owned()]);
    /// let told = Executor::builder().cores(2).run(|here| {
    ///     let names = names.clone();
    ///     async move {
    ///         assert_eq!(names.len(), 2);
    ///         (here.core() < 7).then_some(()).ok_or("there are too many cores")
    ///     }
    /// });
    /// assert_eq!(told.unwrap().cores.len(), 2);
    /// ```
    pub fn run<F, Fut>(mut self, begin: F) -> Result<Report, Error>
    where
        F: Fn(Here) -> Fut + Send + Sync,
        Fut: Future + 'static,
        Fut::Output: Termination,
    {
        if self.queues.is_empty() {
            self = self.queue("default", 1000);
        }
        let journal = self.setup.journal.clone();
        self.check()?;
        let notes = self.notes.unwrap_or_else(|| journal.notes(self.places));
        let config = Config { cores: self.cores, places: self.places, burst: self.burst, notes, journal: journal.linked(), form: Form::Bytes };
        let (house, mut cores, mut outside) = House::open(&config)?;
        self.setup.takers = takers(&journal, &config)?;
        outside.keep(&self.setup.takers[self.cores as usize]);
        let ports = cores.iter_mut().map(Port::new).collect();
        let (queues, ending) = (std::mem::take(&mut self.queues), Ending::new(self.cores));
        let shared = Arc::new(Shared { ports, queues, places: self.places, ending, barrier: Barrier::default() });
        // Before a core runs, since it may call the others at once.
        for core in &mut cores {
            core.keep(&self.setup.takers[core.number() as usize]);
            make_queues(core, &shared.queues)?;
            shared.ports[core.number() as usize].tell(core);
        }
        let mut stops = self.signals.map(Stops::new).transpose()?;
        let setup = &self.setup;
        let cores = std::thread::scope(|scope| {
            let threads = cores.into_iter().map(|core| {
                // The first core watches for signals.
                let (shared, begin, stops) = (Arc::clone(&shared), &begin, stops.take());
                let name = format!("core {}", core.number());
                let fails = Arc::clone(&shared);
                let thread = std::thread::Builder::new().name(name).spawn_scoped(scope, move || serve(core, shared, setup, stops, begin));
                thread.inspect_err(|_| fails.ending.fail())
            });
            let threads: Vec<_> = threads.collect();
            shared.ending.wait();
            let closed = outside.close_all(Mode::Return);
            shared.ending.close();
            shared.ring_all();
            let ended: Vec<_> = threads.into_iter().map(|it| it.map(|it| it.join().unwrap_or_else(|panic| resume_unwind(panic)))).collect();
            let cores = ended.into_iter().map(|it| it.map_err(Error::Io).and_then(|it| it)).collect::<Result<Vec<_>, _>>();
            cores.and_then(|it| closed.map_err(Error::from).map(|()| it))
        })?;
        let report = self.end(house, cores, outside, &shared, &journal)?;
        match shared.ending.failure() {
            None => Ok(report),
            Some(Failure::Error(error)) => Err(Error::Begin(error)),
            Some(Failure::Panic(panic)) => resume_unwind(panic),
        }
    }

    fn end(
        &self,
        house: House<Job>,
        mut cores: Vec<Core<Job>>,
        mut outside: Outside<Job>,
        shared: &Shared,
        journal: &Journal,
    ) -> Result<Report, Error> {
        outside.hand_on(&self.setup.takers[self.cores as usize])?;
        let newest = cores.iter_mut().map(|it| it.newest_of(journal)).chain([outside.newest_of(journal)]);
        let newest = newest.filter_map(Result::transpose).collect::<Result<_, _>>()?;
        let journals = house.end(cores, outside).map_err(|(error, ..)| error)?;
        let (audit, text) = judge(journal, journals)?;
        journal::end(journal, &self.setup.takers)?;
        Ok(Report { cores: shared.stats(), audit, journal: text, newest, parts: parts(journal, self.cores) })
    }

    /// What the library would refuse later, and with fewer words.
    fn check(&self) -> Result<(), Error> {
        let queues = self.queues.len();
        let wrong = [
            (!(1..=16).contains(&self.cores), format!("an executor has 1 to 16 cores, and not {}", self.cores)),
            (queues > 256, format!("a core has at most 256 queues, and not {queues}")),
            (!(2..=1024).contains(&self.places), format!("a link has 2 to 1024 places, and not {}", self.places)),
            (self.places as usize <= queues, format!("{queues} queues want more than {} places", self.places)),
            (!(1..=64).contains(&self.burst), format!("a burst is 1 to 64, and not {}", self.burst)),
            (self.notes.is_some_and(|it| it < self.places + 64), format!("a journal wants 64 notes more than a link has places ({})", self.places)),
            (matches!(&self.setup.pin, Pin::List(all) if all.len() != self.cores as usize), "a pin names one processor for each core".to_owned()),
        ];
        let shares = self.queues.iter().find(|it| !(1..=10_000).contains(&it.shares));
        let shares = shares.map(|it| (true, format!("shares are 1 to 10000, and not {} ({})", it.shares, it.name)));
        match wrong.into_iter().chain(shares).find(|(is_wrong, _)| *is_wrong) {
            Some((_, text)) => Err(Error::Setup(text)),
            None => Ok(()),
        }
    }
}

/// What a future of [`Builder::run`] is told of where it is.
///
/// ```
/// use fairexec_rt::{Executor, Queue};
///
/// Executor::builder().cores(2).queue("requests", 1000).queue("background", 100).run(|here| async move {
///     assert!(here.core() < here.cores());
///     assert_eq!(here.queue("background"), Some(Queue::new(1)));
///     assert_eq!(here.handle().cores(), 2);
/// })?;
/// # Ok::<(), fairexec_rt::Error>(())
/// ```
#[derive(Clone)]
pub struct Here {
    core: u32,
    shared: Arc<Shared>,
}

impl Here {
    pub(crate) fn new(core: u32, shared: Arc<Shared>) -> Here {
        Here { core, shared }
    }

    /// The number of this core.
    pub fn core(&self) -> u32 {
        self.core
    }

    /// How many cores there are.
    pub fn cores(&self) -> u32 {
        self.shared.cores()
    }

    /// The queue of this name.
    pub fn queue(&self, name: &str) -> Option<Queue> {
        self.shared.queues.iter().position(|it| it.name == name).map(|it| Queue(it as u32))
    }

    /// Waits until each core waits here, round by round. A future that is dropped counts all the same.
    ///
    /// ```
    /// use fairexec_rt::Executor;
    /// use std::sync::atomic::{AtomicU32, Ordering::SeqCst};
    ///
    /// static OPENED: AtomicU32 = AtomicU32::new(0);
    /// Executor::builder().cores(3).run(|here| async move {
    ///     OPENED.fetch_add(1, SeqCst);
    ///     // No core calls another one that isn't ready for it.
    ///     here.barrier().await;
    ///     assert_eq!(OPENED.load(SeqCst), 3);
    /// })?;
    /// # Ok::<(), fairexec_rt::Error>(())
    /// ```
    pub async fn barrier(&self) {
        self.shared.barrier.wait(self.cores()).await;
    }

    /// The executor, for other threads.
    pub fn handle(&self) -> Handle {
        Handle(Arc::clone(&self.shared))
    }
}
