//! Timers. Their clock is that of the runs, in nanoseconds: a timer is late by one run or by the time in which the reactor isn't asked.

use crate::local::{here, with_here};
use fairexec::wall_clock;
use std::cell::{Cell, RefCell};
use std::collections::BTreeMap;
use std::fmt;
use std::future::{poll_fn, Future};
use std::marker::PhantomData;
use std::pin::{pin, Pin};
use std::task::{Context, Poll, Waker};
use std::time::{Duration, Instant};

/// The timers of a core, by their deadlines.
#[derive(Default)]
pub(crate) struct Timers {
    waiting: RefCell<BTreeMap<(u64, u64), Waker>>,
    count: Cell<u64>,
}

impl Timers {
    /// Wakes each timer whose time has come.
    pub(crate) fn fire(&self, now: u64) {
        while let Some(waker) = self.take_due(now) {
            waker.wake();
        }
    }

    fn take_due(&self, now: u64) -> Option<Waker> {
        let mut waiting = self.waiting.borrow_mut();
        let first = waiting.first_entry().filter(|it| it.key().0 <= now)?;
        Some(first.remove())
    }

    /// How long it is until the next one.
    pub(crate) fn next_after(&self, now: u64) -> Option<Duration> {
        self.waiting.borrow().first_key_value().map(|(&(deadline, _), _)| Duration::from_nanos(deadline.saturating_sub(now)))
    }

    /// Forgets all.
    pub(crate) fn clear(&self) {
        let all = std::mem::take(&mut *self.waiting.borrow_mut());
        drop(all);
    }
}

/// A future that ends at a time. It stays on its core.
///
/// ```
/// use fairexec_rt::{sleep, Executor};
/// use std::time::{Duration, Instant};
///
/// Executor::builder().run(|_| async {
///     let (began, mut ends) = (Instant::now(), sleep(Duration::from_secs(3600)));
///     ends.reset(Duration::from_millis(2));
///     ends.await;
///     assert!(began.elapsed() < Duration::from_secs(60));
/// })?;
/// # Ok::<(), fairexec_rt::Error>(())
/// ```
pub struct Sleep {
    deadline: u64,
    // Its place among the timers, while it waits.
    waits: Option<(u64, Waker)>,
    stays: PhantomData<*const ()>,
}

fn after(time: Duration) -> u64 {
    wall_clock().saturating_add(u64::try_from(time.as_nanos()).unwrap_or(u64::MAX))
}

/// Ends behind so much time.
///
/// ```
/// use fairexec_rt::{sleep, Executor};
/// use std::time::{Duration, Instant};
///
/// Executor::builder().run(|_| async {
///     let began = Instant::now();
///     sleep(Duration::from_millis(3)).await;
///     assert!(began.elapsed() >= Duration::from_millis(2));
/// })?;
/// # Ok::<(), fairexec_rt::Error>(())
/// ```
#[must_use = "a future does nothing unless it is awaited"]
pub fn sleep(time: Duration) -> Sleep {
    Sleep { deadline: after(time), waits: None, stays: PhantomData }
}

/// Ends at this time, at once if it is over.
///
/// ```
/// use fairexec_rt::{sleep_until, Executor};
/// use std::time::{Duration, Instant};
///
/// Executor::builder().run(|_| async {
///     let end = Instant::now() + Duration::from_millis(3);
///     sleep_until(end).await;
///     assert!(Instant::now() > end - Duration::from_millis(1));
///     sleep_until(end).await;
/// })?;
/// # Ok::<(), fairexec_rt::Error>(())
/// ```
pub fn sleep_until(time: Instant) -> Sleep {
    sleep(time.saturating_duration_since(Instant::now()))
}

impl Sleep {
    /// Moves the deadline to so much time from now.
    pub fn reset(&mut self, time: Duration) {
        self.leave();
        self.deadline = after(time);
    }

    fn leave(&mut self) {
        if let Some((number, _)) = self.waits.take() {
            let _waker = with_here(|it| it.timers.waiting.borrow_mut().remove(&(self.deadline, number)));
        }
    }
}

impl Future for Sleep {
    type Output = ();

    /// # Panics
    ///
    /// Outside a task.
    fn poll(mut self: Pin<&mut Self>, cx: &mut Context<'_>) -> Poll<()> {
        if wall_clock() >= self.deadline {
            self.leave();
            return Poll::Ready(());
        }
        if !self.waits.as_ref().is_some_and(|(_, waker)| waker.will_wake(cx.waker())) {
            self.leave();
            let number = here(|it| {
                let number = it.timers.count.replace(it.timers.count.get() + 1);
                it.timers.waiting.borrow_mut().insert((self.deadline, number), cx.waker().clone());
                number
            });
            self.waits = Some((number, cx.waker().clone()));
        }
        Poll::Pending
    }
}

impl Drop for Sleep {
    fn drop(&mut self) {
        self.leave();
    }
}

/// The time was over before the future ended. It becomes an error of reads and writes by `?`.
///
/// ```
/// use fairexec_rt::{timeout, Executor};
/// use std::{future::pending, io, time::Duration};
///
/// let told = Executor::builder().run(|_| async {
///     timeout(Duration::from_millis(1), pending::<()>()).await?;
///     io::Result::Ok(())
/// });
/// assert_eq!(told.unwrap_err().to_string(), io::Error::from(io::ErrorKind::TimedOut).to_string());
/// ```
#[derive(Clone, Copy, PartialEq, Eq, Debug)]
pub struct Elapsed;

impl fmt::Display for Elapsed {
    fn fmt(&self, f: &mut fmt::Formatter<'_>) -> fmt::Result {
        f.write_str("the time is over")
    }
}

impl std::error::Error for Elapsed {}

impl From<Elapsed> for std::io::Error {
    fn from(_: Elapsed) -> std::io::Error {
        std::io::ErrorKind::TimedOut.into()
    }
}

/// What a future comes to, if it ends in time. Else it is dropped.
///
/// # Errors
///
/// `Elapsed`.
///
/// ```
/// use fairexec_rt::{timeout, Elapsed, Executor};
/// use std::time::Duration;
///
/// Executor::builder().run(|_| async {
///     assert_eq!(timeout(Duration::from_secs(9), async { 42 }).await, Ok(42));
///     assert_eq!(timeout(Duration::from_millis(1), std::future::pending::<()>()).await, Err(Elapsed));
/// })?;
/// # Ok::<(), fairexec_rt::Error>(())
/// ```
pub async fn timeout<F: Future>(time: Duration, future: F) -> Result<F::Output, Elapsed> {
    let mut sleep = sleep(time);
    let mut future = pin!(future);
    poll_fn(|cx| match future.as_mut().poll(cx) {
        Poll::Ready(value) => Poll::Ready(Ok(value)),
        Poll::Pending => Pin::new(&mut sleep).poll(cx).map(|()| Err(Elapsed)),
    })
    .await
}

/// Ticks in even distances: see [`interval`].
///
/// ```
/// use fairexec_rt::{interval, sleep, Executor, Interval};
/// use std::time::{Duration, Instant};
///
/// Executor::builder().run(|_| async {
///     let (began, mut ticks): (_, Interval) = (Instant::now(), interval(Duration::from_millis(20)));
///     sleep(Duration::from_millis(50)).await;
///     // The first tick comes at once. The second was missed, so the third is next.
///     ticks.tick().await;
///     ticks.tick().await;
///     assert!(began.elapsed() >= Duration::from_millis(59));
/// })?;
/// # Ok::<(), fairexec_rt::Error>(())
/// ```
pub struct Interval {
    every: u64,
    sleep: Sleep,
}

/// Ticks each time so much time is over, for the first time after that time. A tick that nobody awaited in time comes at once, and those between
/// it and now are left out.
///
/// # Panics
///
/// If the time is 0.
///
/// ```
/// use fairexec_rt::{interval, Executor};
/// use std::time::{Duration, Instant};
///
/// Executor::builder().run(|_| async {
///     let (began, mut ticks) = (Instant::now(), interval(Duration::from_millis(2)));
///     for _ in 0..3 {
///         ticks.tick().await;
///     }
///     assert!(began.elapsed() >= Duration::from_millis(5));
/// })?;
/// # Ok::<(), fairexec_rt::Error>(())
/// ```
pub fn interval(every: Duration) -> Interval {
    assert!(!every.is_zero(), "an interval has a length");
    Interval { every: u64::try_from(every.as_nanos()).unwrap_or(u64::MAX), sleep: sleep(every) }
}

impl Interval {
    /// The next tick.
    pub async fn tick(&mut self) {
        (&mut self.sleep).await;
        let over = wall_clock().saturating_sub(self.sleep.deadline) / self.every;
        self.sleep.deadline = self.sleep.deadline.saturating_add(self.every.saturating_mul(over + 1));
    }
}
