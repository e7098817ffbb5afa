//! How a task that computes lets others run.

use crate::local::{here, Local};
use fairexec::wall_clock;
use std::future::poll_fn;
use std::task::Poll;
use std::time::Duration;

/// Lets other tasks run: this one goes to the tail of its queue.
///
/// ```
/// use fairexec_rt::{spawn_local, yield_now, Executor, Queue};
/// use std::{cell::Cell, rc::Rc};
///
/// Executor::builder().run(|_| async {
///     let has_run = Rc::new(Cell::new(false));
///     let other = Rc::clone(&has_run);
///     spawn_local(Queue::FIRST, async move { other.set(true) });
///     while !has_run.get() {
///         yield_now().await;
///     }
/// })?;
/// # Ok::<(), fairexec_rt::Error>(())
/// ```
pub async fn yield_now() {
    let mut was_polled = false;
    poll_fn(move |cx| {
        if std::mem::replace(&mut was_polled, true) {
            return Poll::Ready(());
        }
        cx.waker().wake_by_ref();
        Poll::Pending
    })
    .await;
}

/// How long the run of this task has gone on.
///
/// # Panics
///
/// Outside a task.
///
/// ```
/// use fairexec_rt::{ran_for, yield_now, Executor};
/// use std::time::Duration;
///
/// Executor::builder().run(|_| async {
///     std::thread::sleep(Duration::from_millis(2));
///     assert!(ran_for() >= Duration::from_millis(1));
///     yield_now().await;
///     println!("the next run took {:?} so far", ran_for());
/// })?;
/// # Ok::<(), fairexec_rt::Error>(())
/// ```
pub fn ran_for() -> Duration {
    Duration::from_nanos(here(|it| wall_clock().saturating_sub(it.began.get())))
}

/// Ends the slice of a task that computes: it lets others run if its run is as long as the slice of its queue, which
/// [`Builder::slice`](crate::Builder::slice) says, or if something came meanwhile for a queue that had nothing to run. Nothing is broken off without
/// it, and no shares help a task that waits behind a long run. So a loop in a background task calls this each time around.
///
/// # Panics
///
/// Outside a task.
///
/// ```
/// use fairexec_rt::{ran_for, yield_if_needed, Executor};
/// use std::time::Duration;
///
/// Executor::builder().queue("background", 100).slice(Duration::from_micros(5)).run(|_| async {
///     for _ in 0..1000 {
///         // A part of what it computes.
///         yield_if_needed().await;
///     }
///     println!("this run took {:?} so far", ran_for());
/// })?;
/// # Ok::<(), fairexec_rt::Error>(())
/// ```
pub async fn yield_if_needed() {
    if here(Local::is_over) {
        yield_now().await;
    }
}

impl Local {
    /// A run of the library begins.
    pub(crate) fn begin(&self, queue: u32) {
        self.began.set(wall_clock());
        self.queue.set(queue);
        self.slice.set(self.shared.queues[queue as usize].slice);
    }

    /// Whether the run that goes on has to end: its slice is over, or something came meanwhile.
    fn is_over(&self) -> bool {
        let now = wall_clock();
        now.saturating_sub(self.began.get()) >= self.slice.get()
            || self.shared.ports[self.number as usize].has_some()
            || (self.reactor.asks(now) && self.finds_some())
    }

    /// Asks the reactor in the middle of a run. Whether a task can go on now in another queue, which had none.
    #[cold]
    fn finds_some(&self) -> bool {
        let idle = || (0..).zip(&self.ready).filter(|(queue, it)| *queue != self.queue.get() && it.borrow().is_empty()).count();
        let before = idle();
        // An error comes again behind this run.
        let _ = self.reactor.wait(Duration::ZERO, Duration::MAX);
        self.reactor.wake();
        idle() < before
    }
}
