//! Futures: what a task runs, and what it comes to.

use super::seat::this_thread;
use std::fmt;
use std::future::Future;
use std::mem::ManuallyDrop;
use std::pin::Pin;
use std::sync::{Arc, Mutex, MutexGuard, PoisonError};
use std::task::{Context, Poll, Waker};

pub(super) fn lock<T>(of: &Mutex<T>) -> MutexGuard<'_, T> {
    of.lock().unwrap_or_else(PoisonError::into_inner)
}

/// What a task runs. One thread alone polls and drops a future that isn't `Send`.
pub(super) struct Body {
    future: ManuallyDrop<Pin<Box<dyn Future<Output = ()>>>>,
    // The thread of a future that isn't `Send`.
    thread: Option<u64>,
}

// SAFETY: a future that isn't `Send` is polled and dropped where `is_here` alone, so on the thread that made it. No two threads have one number.
unsafe impl Send for Body {}

impl Body {
    /// A future that any thread may use.
    pub(super) fn sent(future: impl Future<Output = ()> + Send + 'static) -> Body {
        Body { future: ManuallyDrop::new(Box::pin(future)), thread: None }
    }

    /// A future of this thread.
    pub(super) fn local(future: impl Future<Output = ()> + 'static) -> Body {
        Body { future: ManuallyDrop::new(Box::pin(future)), thread: Some(this_thread()) }
    }

    pub(super) fn poll(&mut self, cx: &mut Context<'_>) -> Poll<()> {
        assert!(self.is_here(), "a local task runs on the thread on which it was spawned");
        self.future.as_mut().poll(cx)
    }

    /// Whether this thread may use it.
    fn is_here(&self) -> bool {
        !self.thread.is_some_and(|it| it != this_thread())
    }
}

impl Drop for Body {
    fn drop(&mut self) {
        // Else it is forgotten.
        if self.is_here() {
            // SAFETY: it is dropped once, and nobody uses it any more.
            unsafe { ManuallyDrop::drop(&mut self.future) };
        }
    }
}

/// The task was dropped before its end: its core or its queue handed it back or was closed, or it panicked.
///
/// ```
/// use fairexec::linked::{Cancelled, Task};
///
/// let (task, join) = Task::new(async { 42 });
/// drop(task);
/// assert_eq!(join.take(), Some(Err(Cancelled)));
/// ```
#[derive(Clone, Copy, PartialEq, Eq, Debug)]
pub struct Cancelled;

impl fmt::Display for Cancelled {
    fn fmt(&self, f: &mut fmt::Formatter<'_>) -> fmt::Result {
        f.write_str("the task was dropped before its end")
    }
}

impl std::error::Error for Cancelled {}

struct Joined<T> {
    value: Option<Result<T, Cancelled>>,
    waker: Option<Waker>,
}

/// What a task comes to. It is a future, and may be dropped: the task runs on.
///
/// ```
/// use fairexec::linked::{spawn, Config, House, Join};
/// use fairexec::Mode;
///
/// let (_house, mut cores, mut outside) = House::open(&Config::default())?;
/// let (ticket, join): (_, Join<u64>) = outside.spawn(0, 0, async {
///     let half = spawn(0, 0, async { 21 });
///     2 * half.await.expect("it ends")
/// })?;
/// outside.detach(ticket)?;
/// outside.close_all(Mode::Finish)?;
/// while cores[0].step_tasks()?.is_some() {}
/// assert_eq!(join.take(), Some(Ok(42)));
/// # Ok::<(), fairexec::Error>(())
/// ```
pub struct Join<T>(Arc<Mutex<Joined<T>>>);

impl<T> Join<T> {
    /// What the task came to, if it ended and this wasn't asked before.
    pub fn take(&self) -> Option<Result<T, Cancelled>> {
        lock(&self.0).value.take()
    }
}

impl<T> Future for Join<T> {
    type Output = Result<T, Cancelled>;

    fn poll(self: Pin<&mut Self>, cx: &mut Context<'_>) -> Poll<Self::Output> {
        let mut joined = lock(&self.0);
        joined.waker = Some(cx.waker().clone());
        joined.value.take().map_or(Poll::Pending, Poll::Ready)
    }
}

/// Tells who joins: at the end of the task, or as it is dropped before.
pub(super) struct Ending<T>(Option<Arc<Mutex<Joined<T>>>>);

/// Both sides of a task that has no value yet.
pub(super) fn ending<T>() -> (Ending<T>, Join<T>) {
    let joined = Arc::new(Mutex::new(Joined { value: None, waker: None }));
    (Ending(Some(Arc::clone(&joined))), Join(joined))
}

impl<T> Ending<T> {
    /// Runs a future, and tells what it comes to.
    pub(super) async fn told_by(mut self, future: impl Future<Output = T>) {
        self.tell(Ok(future.await));
    }

    fn tell(&mut self, value: Result<T, Cancelled>) {
        let Some(joined) = self.0.take() else { return };
        let waker = {
            let mut joined = lock(&joined);
            joined.value = Some(value);
            joined.waker.take()
        };
        if let Some(waker) = waker {
            waker.wake();
        }
    }
}

impl<T> Drop for Ending<T> {
    fn drop(&mut self) {
        self.tell(Err(Cancelled));
    }
}
