//! The thread of a core, and the future of `Builder::run` that it starts.

use crate::builder::{Here, Setup};
use crate::drive::Driver;
use crate::journal::Notes;
use crate::local::{on_core, Job, Local};
use crate::own::clock;
use crate::reactor::Reactor;
use crate::shared::{Queue, QueueSetup, Shared};
use crate::signal::Stops;
use crate::stop::Failure;
use crate::task::spawn_local;
use crate::Error;
use fairexec::linked::{Answer, Core, Outcome, Ticket};
use futures_lite::future::FutureExt;
use std::error::Error as AnyError;
use std::future::Future;
use std::panic::AssertUnwindSafe;
use std::sync::Arc;

/// What a future of [`Builder::run`](crate::Builder::run) may come to: nothing, or a `Result` whose error ends the executor.
///
/// ```
/// use fairexec_rt::{net::TcpListener, Error, Executor, Here};
/// use std::io;
///
/// async fn begin(_: Here) -> io::Result<()> {
///     TcpListener::bind("127.0.0.1:no port")?;
///     Ok(())
/// }
///
/// let told = Executor::builder().cores(2).run(begin).unwrap_err();
/// assert!(matches!(told, Error::Begin(_)));
/// ```
pub trait Termination: sealed::Sealed {
    #[doc(hidden)]
    fn error(self) -> Option<Box<dyn AnyError + Send + Sync>>;
}

mod sealed {
    pub trait Sealed {}
    impl Sealed for () {}
    impl<E> Sealed for Result<(), E> {}
}

impl Termination for () {
    fn error(self) -> Option<Box<dyn AnyError + Send + Sync>> {
        None
    }
}

impl<E: Into<Box<dyn AnyError + Send + Sync>>> Termination for Result<(), E> {
    fn error(self) -> Option<Box<dyn AnyError + Send + Sync>> {
        self.err().map(E::into)
    }
}

/// Tells as a future of `run` ends, also by a drop.
struct Rooted(Arc<Shared>);

impl Drop for Rooted {
    fn drop(&mut self) {
        self.0.ending.root_ended();
    }
}

/// Starts the future of this core. Its panic or its error ends the executor.
fn start<Fut>(shared: &Arc<Shared>, root: Fut)
where
    Fut: Future + 'static,
    Fut::Output: Termination,
{
    let rooted = Rooted(Arc::clone(shared));
    let task = spawn_local(Queue::FIRST, async move {
        let rooted = rooted;
        let failure = match AssertUnwindSafe(root).catch_unwind().await {
            Ok(told) => told.error().map(Failure::Error),
            Err(panic) => Some(Failure::Panic(panic)),
        };
        if let Some(failure) = failure {
            rooted.0.ending.fail_by(failure);
        }
    });
    task.detach();
}

/// An order of a core to itself, with its answer.
fn order(core: &mut Core<Job>, make: impl FnOnce(&mut Core<Job>) -> Result<Ticket, fairexec::Error>) -> Result<(), Error> {
    let ticket = make(core)?;
    core.deliver()?;
    core.collect()?;
    match core.redeem(&ticket)? {
        Outcome::Answered(Answer::SharesSet | Answer::Created(_)) => Ok(()),
        Outcome::Answered(answer) => Err(Error::Setup(format!("a queue isn't made: {answer:?}"))),
        Outcome::Done(_) | Outcome::Back(..) => unreachable!("an order is answered"),
    }
}

pub(crate) fn make_queues(core: &mut Core<Job>, queues: &[QueueSetup]) -> Result<(), Error> {
    let number = core.number();
    order(core, |it| it.set_shares(number, 0, queues[0].shares))?;
    queues[1..].iter().try_for_each(|queue| order(core, |it| it.create(number, queue.shares)))
}

/// The thread of a core that ends, also by a panic.
struct Leaving<'a>(&'a Local);

impl Drop for Leaving<'_> {
    fn drop(&mut self) {
        self.0.shared.ports[self.0.number as usize].close();
        self.0.drop_tasks();
    }
}

/// The thread of a core. One that fails ends the others.
pub(crate) fn serve<F, Fut>(mut core: Core<Job>, shared: Arc<Shared>, setup: &Setup, stops: Option<Stops>, begin: &F) -> Result<Core<Job>, Error>
where
    F: Fn(Here) -> Fut,
    Fut: Future + 'static,
    Fut::Output: Termination,
{
    struct Failing(Option<Arc<Shared>>);
    impl Drop for Failing {
        fn drop(&mut self) {
            if let Some(shared) = self.0.take() {
                shared.ending.fail();
            }
        }
    }
    let mut failing = Failing(Some(Arc::clone(&shared)));
    let number = core.number();
    setup.pin.apply(number)?;
    let (reactor, bell) = Reactor::new(setup.reactor_every)?;
    // A ring that fails has no end of the wait, and nobody else to tell. An eventfd fails if the process has closed it.
    core.set_bell(move || bell.wake().expect("an eventfd takes a ring"));
    core.set_clock(clock);
    core.set_round_time(setup.round.as_nanos() as u64);
    on_core(Local::new(number, Arc::clone(&shared), reactor), |local| {
        // However the core ends: nobody waits for a task of it, or for what is in its mail.
        let _leaving = Leaving(local);
        let mut driver = Driver::new(local, &mut core, setup);
        let here = Here::new(number, Arc::clone(&shared));
        start(&shared, begin(here));
        if let Some(stops) = stops {
            stops.watch()?;
        }
        driver.run()
    })?;
    core.hand_on(&setup.takers[number as usize])?;
    failing.0 = None;
    Ok(core)
}
