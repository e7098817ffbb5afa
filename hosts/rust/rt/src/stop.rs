//! How an executor stops, and what tasks ask of it as a whole.

use crate::call::{Call, Start};
use crate::local::{here, with_here, Order};
use crate::report::CoreStats;
use crate::shared::{check_shares, lock, Queue};
use std::any::Any;
use std::error::Error;
use std::future::{ready, Future};
use std::marker::PhantomData;
use std::pin::Pin;
use std::sync::atomic::{AtomicBool, Ordering};
use std::sync::{Condvar, Mutex, PoisonError};
use std::task::{Context, Poll};
use std::time::{Duration, Instant};

/// Why a future of `run` ends the executor.
pub(crate) enum Failure {
    Panic(Box<dyn Any + Send>),
    Error(Box<dyn Error + Send + Sync>),
}

/// How far the executor is from its end.
struct State {
    /// Futures of `run` that haven't ended.
    roots: u32,
    /// When the grace of a stop is over, if one was asked for.
    deadline: Option<Instant>,
    /// Whether a core or a future of `run` failed.
    has_failed: bool,
    /// What the first of these futures came to.
    failure: Option<Failure>,
    /// By the core, whether it has no task and waits for no call.
    is_quiet: Vec<bool>,
}

/// Tells the thread of `run` when to close the cores, and the cores that a stop was asked for or that they are closing.
pub(crate) struct Ending {
    state: Mutex<State>,
    changed: Condvar,
    is_stopping: AtomicBool,
    is_closing: AtomicBool,
}

impl Ending {
    pub(crate) fn new(cores: u32) -> Ending {
        let state = State { roots: cores, deadline: None, has_failed: false, failure: None, is_quiet: vec![false; cores as usize] };
        Ending { state: Mutex::new(state), changed: Condvar::new(), is_stopping: AtomicBool::new(false), is_closing: AtomicBool::new(false) }
    }

    fn change(&self, change: impl FnOnce(&mut State)) {
        change(&mut lock(&self.state));
        self.changed.notify_one();
    }

    pub(crate) fn stop(&self, grace: Duration) {
        let deadline = Instant::now().checked_add(grace);
        self.is_stopping.store(true, Ordering::SeqCst);
        // A second stop may shorten the grace. A grace that no clock comes to is as long as the tasks need.
        self.change(|it| it.deadline = [it.deadline, deadline].into_iter().flatten().min());
    }

    pub(crate) fn root_ended(&self) {
        self.change(|it| it.roots -= 1);
    }

    pub(crate) fn fail(&self) {
        self.change(|it| it.has_failed = true);
    }

    /// A future of `run` failed. The first one is told.
    pub(crate) fn fail_by(&self, failure: Failure) {
        self.change(|it| {
            it.has_failed = true;
            it.failure.get_or_insert(failure);
        });
    }

    /// What the first future that failed came to.
    pub(crate) fn failure(&self) -> Option<Failure> {
        lock(&self.state).failure.take()
    }

    /// A core that is called tells that it isn't quiet before who called it learns of an outcome. So of two cores one is not quiet until the
    /// other one is, and all are quiet at one time only if nothing is left to do.
    pub(crate) fn set_quiet(&self, core: u32, is_quiet: bool) {
        self.change(|it| it.is_quiet[core as usize] = is_quiet);
    }

    pub(crate) fn is_stopping(&self) -> bool {
        self.is_stopping.load(Ordering::SeqCst)
    }

    pub(crate) fn is_closing(&self) -> bool {
        self.is_closing.load(Ordering::SeqCst)
    }

    pub(crate) fn close(&self) {
        self.is_closing.store(true, Ordering::SeqCst);
    }

    /// Waits until the cores are to be closed: one failed, or all futures of `run` have ended, and behind a stop all tasks, too, or its grace
    /// is over.
    pub(crate) fn wait(&self) {
        let mut state = lock(&self.state);
        loop {
            let may_end = state.roots == 0 && (!self.is_stopping() || state.is_quiet.iter().all(|it| *it));
            let left = state.deadline.map(|it| it.saturating_duration_since(Instant::now()));
            if state.has_failed || may_end || left.is_some_and(|it| it.is_zero()) {
                return;
            }
            let longest = left.unwrap_or(Duration::from_secs(3600));
            state = self.changed.wait_timeout(state, longest).unwrap_or_else(PoisonError::into_inner).0;
        }
    }
}

/// Asks all cores to stop. [`stopping`] is told at once, and the executor ends when no task is left, or when the grace is over: then each task that
/// is left is dropped.
///
/// # Panics
///
/// Outside a task. Other threads have [`Handle::stop`](crate::Handle::stop).
///
/// ```
/// use fairexec_rt::{sleep, spawn_local, stop, stopping, Executor, Queue};
/// use std::time::Duration;
///
/// Executor::builder().cores(2).run(|here| async move {
///     spawn_local(Queue::FIRST, async {
///         stopping().await;
///         // It has a second to tidy up.
///         sleep(Duration::from_millis(1)).await;
///     });
///     if here.core() == 0 {
///         stop(Duration::from_secs(1));
///     }
/// })?;
/// # Ok::<(), fairexec_rt::Error>(())
/// ```
pub fn stop(grace: Duration) {
    here(|it| {
        it.shared.ending.stop(grace);
        it.shared.ring_all();
    });
}

/// Ends once [`stop`] was called: see [`stopping`].
///
/// ```
/// use fairexec_rt::{sleep, stop, stopping, Executor, Stopping};
/// use futures_lite::future;
/// use std::time::Duration;
///
/// struct Server(Stopping);
/// Executor::builder().run(|_| async {
///     let mut server = Server(stopping());
///     assert!(future::poll_once(&mut server.0).await.is_none());
///     stop(Duration::from_secs(1));
///     server.0.await;
/// })?;
/// # Ok::<(), fairexec_rt::Error>(())
/// ```
#[must_use = "a future does nothing unless it is awaited"]
pub struct Stopping {
    // Its place among those that wait.
    waits: Option<usize>,
    stays: PhantomData<*const ()>,
}

/// Ends once [`stop`] was called. A server that accepts connections stops accepting them then.
///
/// ```
/// use fairexec_rt::{sleep, stop, stopping, Executor};
/// use futures_lite::future;
/// use std::time::Duration;
///
/// Executor::builder().cores(2).run(|here| async move {
///     if here.core() == 0 {
///         stop(Duration::from_secs(1));
///     }
///     // Whatever it is that a server does, up to the stop.
///     future::or(stopping(), async { sleep(Duration::from_secs(3600)).await }).await;
/// })?;
/// # Ok::<(), fairexec_rt::Error>(())
/// ```
pub fn stopping() -> Stopping {
    Stopping { waits: None, stays: PhantomData }
}

impl Future for Stopping {
    type Output = ();

    /// # Panics
    ///
    /// Outside a task.
    fn poll(mut self: Pin<&mut Self>, cx: &mut Context<'_>) -> Poll<()> {
        here(|it| {
            if it.shared.ending.is_stopping() {
                return Poll::Ready(());
            }
            let mut waiting = it.stopping.borrow_mut();
            match self.waits.and_then(|place| waiting.get_mut(place)) {
                Some(waker) if waker.will_wake(cx.waker()) => {}
                Some(waker) => *waker = cx.waker().clone(),
                None => self.waits = Some(waiting.insert(cx.waker().clone())),
            }
            Poll::Pending
        })
    }
}

impl Drop for Stopping {
    fn drop(&mut self) {
        if let Some(place) = self.waits.take() {
            // The waker is dropped behind the borrow.
            let _waker = with_here(|it| it.stopping.borrow_mut().try_remove(place));
        }
    }
}

/// Gives a queue of a core these shares, 1 to 10000, by an order to that core.
///
/// # Panics
///
/// Outside a task, and if there is no such core or queue or the shares are out of their range.
///
/// ```
/// use fairexec_rt::{set_shares, stats, Executor, Queue};
///
/// Executor::builder().cores(2).queue("requests", 1000).queue("background", 100).run(|here| async move {
///     set_shares(here.core(), Queue::new(1), 300).await.unwrap();
///     assert_eq!(stats().len(), 2);
/// })?;
/// # Ok::<(), fairexec_rt::Error>(())
/// ```
pub fn set_shares(core: u32, queue: Queue, shares: u32) -> Call<()> {
    check_shares(shares);
    here(|it| {
        it.check(core, queue);
        let (told, call) = Start::new(|| ready(()));
        it.orders.borrow_mut().push_back(Order { core, queue: queue.0, shares, told });
        call
    })
}

/// The counts of all cores, some 20 ms old at most, or up to a second with many queues.
///
/// # Panics
///
/// Outside a task. Other threads have [`Handle::stats`](crate::Handle::stats).
///
/// ```
/// use fairexec_rt::{stats, Executor};
///
/// Executor::builder().cores(2).queue("requests", 1000).run(|_| async {
///     for it in stats().iter().flat_map(|core| &core.queues) {
///         println!("{} had {:?} in {} turns", it.name, it.time, it.picks);
///     }
/// })?;
/// # Ok::<(), fairexec_rt::Error>(())
/// ```
pub fn stats() -> Vec<CoreStats> {
    here(|it| it.shared.stats())
}
