//! Tasks of one core.

use crate::local::{here, with_here, Home, Local};
use crate::shared::{Mail, Queue};
use async_task::{FallibleTask, Runnable};
use futures_lite::future::FutureExt;
use std::any::Any;
use std::fmt;
use std::future::Future;
use std::panic::AssertUnwindSafe;
use std::pin::Pin;
use std::sync::atomic::{AtomicBool, Ordering};
use std::sync::{Arc, Mutex, PoisonError};
use std::task::{Context, Poll, Waker};
use std::thread::{self, ThreadId};

type Panic = Box<dyn Any + Send>;

/// Why a task has no value: it was dropped before its end, or it panicked.
///
/// ```
/// use fairexec_rt::{spawn_local, Executor, Queue};
///
/// Executor::builder().run(|_| async {
///     let error = spawn_local(Queue::FIRST, async { panic!("it ends alone") }).await.map(|()| "").unwrap_err();
///     assert!(error.is_panic() && !error.is_cancelled());
///     assert_eq!(error.into_panic().unwrap().downcast_ref(), Some(&"it ends alone"));
/// })?;
/// # Ok::<(), fairexec_rt::Error>(())
/// ```
pub struct JoinError(Option<Mutex<Panic>>);

impl JoinError {
    /// Whether it was aborted, or dropped as its core ended.
    pub fn is_cancelled(&self) -> bool {
        self.0.is_none()
    }

    /// Whether it panicked.
    pub fn is_panic(&self) -> bool {
        self.0.is_some()
    }

    /// What it panicked with, for `std::panic::resume_unwind`.
    pub fn into_panic(self) -> Option<Box<dyn Any + Send + 'static>> {
        self.0.map(|it| it.into_inner().unwrap_or_else(PoisonError::into_inner))
    }
}

impl fmt::Debug for JoinError {
    fn fmt(&self, f: &mut fmt::Formatter<'_>) -> fmt::Result {
        f.write_str(if self.is_panic() { "JoinError::Panic" } else { "JoinError::Cancelled" })
    }
}

impl fmt::Display for JoinError {
    fn fmt(&self, f: &mut fmt::Formatter<'_>) -> fmt::Result {
        f.write_str(if self.is_panic() { "the task panicked" } else { "the task was dropped before its end" })
    }
}

impl std::error::Error for JoinError {}

impl From<JoinError> for std::io::Error {
    fn from(error: JoinError) -> std::io::Error {
        std::io::Error::other(error)
    }
}

/// What a task comes to. The task runs on if this is dropped.
///
/// ```
/// use fairexec_rt::{sleep, spawn_local, Executor, Queue};
/// use std::time::Duration;
///
/// Executor::builder().run(|_| async {
///     spawn_local(Queue::FIRST, async { println!("nobody waits for this") }).detach();
///     let sleeps = spawn_local(Queue::FIRST, sleep(Duration::from_secs(3600)));
///     sleeps.abort();
///     assert_eq!(spawn_local(Queue::FIRST, async { "told" }).await.unwrap(), "told");
/// })?;
/// # Ok::<(), fairexec_rt::Error>(())
/// ```
pub struct JoinHandle<T> {
    // None once it was let go.
    task: Option<FallibleTask<Result<T, Panic>>>,
    has_ended: Arc<AtomicBool>,
}

impl<T> JoinHandle<T> {
    /// Drops the task, at its next turn if it doesn't run. Its value is lost if it has ended.
    pub fn abort(mut self) {
        drop(self.task.take());
    }

    /// Lets the task run on. To drop the handle does the same.
    pub fn detach(self) {}

    /// Whether the task has ended, by its value, by a panic or as it was dropped. Then the handle has what it came to.
    ///
    /// ```
    /// use fairexec_rt::{sleep, spawn_local, yield_now, Executor, Queue};
    /// use std::time::Duration;
    ///
    /// Executor::builder().run(|_| async {
    ///     let sleeps = spawn_local(Queue::FIRST, sleep(Duration::from_secs(3600)));
    ///     let ends = spawn_local(Queue::FIRST, async { 42 });
    ///     while !ends.is_finished() {
    ///         yield_now().await;
    ///     }
    ///     assert_eq!((ends.await.unwrap(), sleeps.is_finished()), (42, false));
    /// })?;
    /// # Ok::<(), fairexec_rt::Error>(())
    /// ```
    pub fn is_finished(&self) -> bool {
        self.has_ended.load(Ordering::Acquire)
    }
}

impl<T> Drop for JoinHandle<T> {
    fn drop(&mut self) {
        if let Some(task) = self.task.take() {
            task.detach();
        }
    }
}

impl<T> Future for JoinHandle<T> {
    type Output = Result<T, JoinError>;

    fn poll(mut self: Pin<&mut Self>, cx: &mut Context<'_>) -> Poll<Self::Output> {
        let Some(task) = &mut self.task else { return Poll::Ready(Err(JoinError(None))) };
        task.poll(cx).map(|told| match told {
            Some(Ok(value)) => Ok(value),
            Some(Err(panic)) => Err(JoinError(Some(Mutex::new(panic)))),
            None => Err(JoinError(None)),
        })
    }
}

/// The place of a task among those of its core, which is free again once its future is dropped.
struct Alive {
    number: usize,
    // Of a task that has a handle.
    has_ended: Option<Arc<AtomicBool>>,
}

impl Drop for Alive {
    fn drop(&mut self) {
        if let Some(it) = &self.has_ended {
            it.store(true, Ordering::Release);
        }
        // The waker is dropped behind the borrow.
        let _waker = with_here(|it| it.alive.borrow_mut().try_remove(self.number));
    }
}

/// The right to poll a task once. To drop it drops the task.
pub(crate) struct Turn {
    // None once it was used.
    runnable: Option<Runnable>,
    pub(crate) task: usize,
    thread: ThreadId,
}

impl Turn {
    /// Polls the task.
    pub(crate) fn run(mut self) {
        if let Some(runnable) = self.runnable.take() {
            runnable.run();
        }
    }
}

impl Drop for Turn {
    fn drop(&mut self) {
        // A core that failed leaves tasks in its links and its mail, whose futures no other thread may drop. They are forgotten.
        if self.runnable.is_some() && self.thread != thread::current().id() {
            std::mem::forget(self.runnable.take());
        }
    }
}

/// Where a task goes when it was woken.
struct Place {
    home: Arc<Home>,
    queue: u32,
    task: usize,
}

impl Place {
    fn take(&self, runnable: Runnable) {
        let home = &self.home;
        let mut turn = Some(Turn { runnable: Some(runnable), task: self.task, thread: home.thread });
        with_here(|it| {
            if Arc::ptr_eq(&it.home, home) {
                it.take_woken(self.queue, turn.take().expect("it is taken once"));
            } else if it.is_answer.get() && Arc::ptr_eq(&it.shared, &home.shared) {
                let mail = turn.take().map(|turn| Mail::Woken(self.queue, turn));
                it.answered[home.core as usize].borrow_mut().extend(mail);
            }
        });
        if let Some(turn) = turn {
            home.shared.ports[home.core as usize].leave(Mail::Woken(self.queue, turn));
        }
    }
}

/// A task that was made and not handed in yet.
fn make<T: 'static>(
    local: &Local,
    queue: u32,
    has_ended: Option<Arc<AtomicBool>>,
    future: impl Future<Output = T> + 'static,
) -> (Turn, FallibleTask<Result<T, Panic>>) {
    let mut all = local.alive.borrow_mut();
    let entry = all.vacant_entry();
    let number = entry.key();
    let alive = Alive { number, has_ended };
    let place = Place { home: Arc::clone(&local.home), queue, task: number };
    let future = async move {
        let _alive = alive;
        AssertUnwindSafe(future).catch_unwind().await
    };
    let (runnable, task) = async_task::spawn_local(future, move |runnable| place.take(runnable));
    entry.insert(runnable.waker());
    (Turn { runnable: Some(runnable), task: number, thread: local.home.thread }, task.fallible())
}

/// Starts a task in a queue of this core. It needn't be `Send`, and never leaves this thread. A panic of the task ends the task alone.
///
/// # Panics
///
/// Outside a task, and if there is no such queue.
///
/// ```
/// use fairexec_rt::{spawn_local, yield_now, Executor, Queue};
///
/// Executor::builder().run(|_| async {
///     let ends = spawn_local(Queue::FIRST, async { 6 * 7 });
///     let panics = spawn_local(Queue::FIRST, async { panic!("it ends alone") });
///     let waits = spawn_local(Queue::FIRST, std::future::pending::<()>());
///     assert_eq!(ends.await.unwrap(), 42);
///     assert!(panics.await.unwrap_err().is_panic());
///     waits.abort();
///     yield_now().await;
/// })?;
/// # Ok::<(), fairexec_rt::Error>(())
/// ```
pub fn spawn_local<T: 'static>(queue: Queue, future: impl Future<Output = T> + 'static) -> JoinHandle<T> {
    here(|it| {
        it.check(it.number, queue);
        let has_ended = Arc::new(AtomicBool::new(false));
        let (turn, task) = make(it, queue.0, Some(Arc::clone(&has_ended)), future);
        it.hand_in(queue.0, turn);
        JoinHandle { task: Some(task), has_ended }
    })
}

/// A task that nobody asks for and that wasn't handed in yet, with its waker.
pub(crate) fn detached(local: &Local, queue: u32, future: impl Future<Output = ()> + 'static) -> (Turn, Waker) {
    let (turn, task) = make(local, queue, None, future);
    task.detach();
    let waker = local.alive.borrow()[turn.task].clone();
    (turn, waker)
}
