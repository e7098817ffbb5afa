//! Calls from one core to another.

use crate::local::{here, wake_together, Local};
use crate::shared::{lock, Queue};
use std::any::Any;
use std::arch::x86_64::{_mm_prefetch, _MM_HINT_ET0};
use std::cell::UnsafeCell;
use std::fmt;
use std::future::Future;
use std::marker::PhantomData;
use std::panic::{catch_unwind, resume_unwind, AssertUnwindSafe, RefUnwindSafe};
use std::pin::Pin;
use std::sync::atomic::{AtomicBool, Ordering};
use std::sync::{Arc, Mutex};
use std::task::{Context, Poll, Waker};

/// Why a call has no answer.
///
/// ```
/// use fairexec_rt::{stop, submit, CallError, Executor, Queue};
/// use std::{future::pending, time::Duration};
///
/// Executor::builder().cores(2).run(|here| async move {
///     // The grace is over at once, so the core of the call is closed, and this one.
///     stop(Duration::ZERO);
///     let told = submit(1 - here.core(), Queue::FIRST, pending::<()>).await;
///     assert_eq!(told, Err(CallError::Dropped));
/// })?;
/// # Ok::<(), fairexec_rt::Error>(())
/// ```
#[derive(Clone, Copy, PartialEq, Eq, Debug)]
#[non_exhaustive]
pub enum CallError {
    /// It was dropped before its end: the core that it went to is closing, or has ended.
    Dropped,
    /// Its future panicked.
    Panicked,
}

impl fmt::Display for CallError {
    fn fmt(&self, f: &mut fmt::Formatter<'_>) -> fmt::Result {
        f.write_str(match self {
            CallError::Dropped => "the call was dropped before its end: its core is closing",
            CallError::Panicked => "the call panicked",
        })
    }
}

impl std::error::Error for CallError {}

impl From<CallError> for std::io::Error {
    fn from(error: CallError) -> std::io::Error {
        std::io::Error::other(error)
    }
}

/// What both sides of a call share, and its work, all in one place of memory.
struct Both<T, W: ?Sized = dyn Any> {
    is_given_up: AtomicBool,
    answer: Mutex<Answer<T>>,
    // It is the callee's. Once there is no `Start` any more it has ended, and has nothing to drop.
    work: UnsafeCell<W>,
}

struct Answer<T> {
    value: Option<Result<T, CallError>>,
    // Of who awaits the answer.
    caller: Option<Waker>,
    // Of the task that makes it, once that waits.
    callee: Option<Waker>,
}

// SAFETY: one `Start` alone uses the work. It has a function that is `Send`, by the bounds of `Start::new`, until the first poll: from then on it is a
// `Started`, which stays on its thread. The answer is `Send`.
unsafe impl<T: Send, W: ?Sized> Send for Both<T, W> {}
// SAFETY: as above.
unsafe impl<T: Send, W: ?Sized> Sync for Both<T, W> {}

// A panic of the work ends it, and nothing is left half done under the lock.
impl<T, W: ?Sized> RefUnwindSafe for Both<T, W> {}

impl<T, W: ?Sized> Both<T, W> {
    fn tell(&self, value: Result<T, CallError>) {
        let (caller, _callee) = {
            let mut answer = lock(&self.answer);
            answer.value = Some(value);
            (answer.caller.take(), answer.callee.take())
        };
        if let Some(caller) = caller {
            wake_together(caller);
        }
    }

    /// Whether nobody wants the answer. Else the task of this waker waits, and is woken when nobody wants it any more.
    fn is_given_up_or_wakes(&self, cx: &Context<'_>) -> bool {
        let mut answer = lock(&self.answer);
        if !answer.callee.as_ref().is_some_and(|it| it.will_wake(cx.waker())) {
            answer.callee = Some(cx.waker().clone());
        }
        // It is set under the lock.
        self.is_given_up.load(Ordering::Relaxed)
    }
}

/// What a call to a core comes to: a future that may be awaited on any thread.
///
/// A call that is dropped is given up. If it didn't begin, its function isn't called. If its future waits, that is dropped at its next turn. A run
/// that has begun goes on until it waits, and what was done before stays done.
///
/// ```
/// use fairexec_rt::{submit, timeout, CallError, Executor, Queue};
/// use std::{future::pending, time::Duration};
///
/// Executor::builder().cores(2).run(|here| async move {
///     let other = (here.core() + 1) % 2;
///     let panics = submit(other, Queue::FIRST, || async { panic!("the caller is told") });
///     assert_eq!(panics.await, Err::<(), _>(CallError::Panicked));
///     // Who waits no longer gives the call up, and its future is dropped.
///     let waits = submit(other, Queue::FIRST, || pending::<()>());
///     assert!(timeout(Duration::from_millis(1), waits).await.is_err());
/// })?;
/// # Ok::<(), fairexec_rt::Error>(())
/// ```
#[must_use = "a call that is dropped is given up"]
pub struct Call<T>(
    // None once it was answered.
    Option<Arc<Both<T>>>,
);

impl<T> Future for Call<T> {
    type Output = Result<T, CallError>;

    fn poll(self: Pin<&mut Self>, cx: &mut Context<'_>) -> Poll<Self::Output> {
        let Some(shared) = &self.0 else { return Poll::Pending };
        let value = {
            let mut answer = lock(&shared.answer);
            if answer.value.is_none() && !answer.caller.as_ref().is_some_and(|it| it.will_wake(cx.waker())) {
                answer.caller = Some(cx.waker().clone());
            }
            answer.value.take()
        };
        value.map_or(Poll::Pending, |value| {
            self.get_mut().0 = None;
            Poll::Ready(value)
        })
    }
}

impl<T> Drop for Call<T> {
    fn drop(&mut self) {
        let Some(shared) = &self.0 else { return };
        let (callee, _caller) = {
            let mut answer = lock(&shared.answer);
            shared.is_given_up.store(true, Ordering::Release);
            (answer.callee.take(), answer.caller.take())
        };
        if let Some(callee) = callee {
            callee.wake();
        }
    }
}

/// The work of a call: its function, then the future that this makes, until that has ended or nobody wants the answer.
enum Step<M, F> {
    Makes(M),
    Waits(F),
    Ended,
}

impl<M: FnOnce() -> F, F: Future> Step<M, F> {
    /// Polls the future. It is made before, if that wasn't done.
    ///
    /// # Safety
    ///
    /// The step isn't moved from now on.
    unsafe fn poll(&mut self, cx: &mut Context<'_>) -> Poll<F::Output> {
        if let Step::Makes(_) = self {
            if let Step::Makes(make) = std::mem::replace(self, Step::Ended) {
                *self = Step::Waits(make());
            }
        }
        match self {
            // SAFETY: as the caller says, and a future is dropped where it stands.
            Step::Waits(future) => unsafe { Pin::new_unchecked(future) }.poll(cx),
            Step::Makes(_) | Step::Ended => Poll::Pending,
        }
    }
}

/// The callee's side of a call, whose answer may have any type.
trait Work: Send + Sync {
    /// Polls the work. It tells its answer if it ends.
    ///
    /// # Safety
    ///
    /// The caller has the `Start` of this, and calls nothing else here meanwhile. All polls and `end` are on one thread.
    unsafe fn poll(&self, cx: &mut Context<'_>) -> Poll<()>;

    /// Drops what is left of the work, and tells that the call was dropped if it told no answer.
    ///
    /// # Safety
    ///
    /// As `poll`. If that wasn't called, it may be on any thread.
    unsafe fn end(&self);
}

impl<M: FnOnce() -> F, F: Future> Work for Both<F::Output, Step<M, F>>
where
    F::Output: Send,
{
    unsafe fn poll(&self, cx: &mut Context<'_>) -> Poll<()> {
        // SAFETY: as the caller says.
        let step = unsafe { &mut *self.work.get() };
        if !self.is_given_up.load(Ordering::Acquire) {
            // SAFETY: it stands in its `Arc` until the end.
            match catch_unwind(AssertUnwindSafe(|| unsafe { step.poll(cx) })) {
                Ok(Poll::Pending) if !self.is_given_up_or_wakes(cx) => return Poll::Pending,
                Ok(Poll::Pending) => {}
                Ok(Poll::Ready(value)) => self.tell(Ok(value)),
                Err(_) => self.tell(Err(CallError::Panicked)),
            }
        }
        *step = Step::Ended;
        Poll::Ready(())
    }

    unsafe fn end(&self) {
        // SAFETY: as the caller says.
        let step = unsafe { &mut *self.work.get() };
        if let Step::Ended = step {
            return;
        }
        // It is dropped before that is told.
        let dropped = catch_unwind(AssertUnwindSafe(|| *step = Step::Ended));
        self.tell(Err(CallError::Dropped));
        dropped.unwrap_or_else(|panic| resume_unwind(panic));
    }
}

/// A call on its way: it is started in a queue of the core that it comes to. One that is dropped tells that the call was.
pub(crate) struct Start(Arc<dyn Work>);

impl Start {
    pub(crate) fn new<F, T>(make: impl FnOnce() -> F + Send + 'static) -> (Start, Call<T>)
    where
        F: Future<Output = T> + 'static,
        T: Send + 'static,
    {
        let answer = Mutex::new(Answer { value: None, caller: None, callee: None });
        let both = Arc::new(Both { is_given_up: AtomicBool::new(false), answer, work: UnsafeCell::new(Step::Makes(make)) });
        (Start(Arc::<Both<T, Step<_, F>>>::clone(&both)), Call(Some(both)))
    }

    /// Fetches its lines from the core that sent it, to be written to, while calls before it run. Else each is waited for.
    pub(crate) fn fetch(&self) {
        // The counts of an `Arc` stand before its value.
        let (counts, value) = (2 * size_of::<usize>(), Arc::as_ptr(&self.0));
        for line in (0..counts + size_of_val(&*self.0)).step_by(64) {
            // SAFETY: a hint. Nothing is read or written.
            unsafe { _mm_prefetch::<_MM_HINT_ET0>(value.cast::<i8>().wrapping_sub(counts).wrapping_add(line)) };
        }
    }

    /// Starts it on this core, in this queue, whose run it is.
    pub(crate) fn start(self, local: &Local, queue: u32) {
        local.start_now(queue, Started(self, PhantomData));
    }
}

impl Drop for Start {
    fn drop(&mut self) {
        // SAFETY: this is the `Start`, and that of a `Started` is dropped on its thread.
        unsafe { self.0.end() }
    }
}

/// A call that was started. It stays on its thread.
pub(crate) struct Started(Start, PhantomData<*const ()>);

impl Future for Started {
    type Output = ();

    fn poll(self: Pin<&mut Self>, cx: &mut Context<'_>) -> Poll<()> {
        // SAFETY: this has the `Start`, and stays on the thread of the first poll.
        unsafe { self.0 .0.poll(cx) }
    }
}

/// The link to a core is full. The function comes back.
///
/// ```
/// use fairexec_rt::{try_submit, yield_now, Executor, Queue};
///
/// Executor::builder().cores(2).places(2).run(|here| async move {
///     let mut calls = Vec::new();
///     for number in 0..100 {
///         let mut told = try_submit(1 - here.core(), Queue::FIRST, move || async move { number });
///         while let Err(full) = told {
///             yield_now().await;
///             told = try_submit(1 - here.core(), Queue::FIRST, full.0);
///         }
///         calls.extend(told);
///     }
///     for (number, call) in calls.into_iter().enumerate() {
///         assert_eq!(call.await, Ok(number));
///     }
/// })?;
/// # Ok::<(), fairexec_rt::Error>(())
/// ```
pub struct Full<M>(pub M);

impl<M> fmt::Debug for Full<M> {
    fn fmt(&self, f: &mut fmt::Formatter<'_>) -> fmt::Result {
        f.write_str("Full")
    }
}

impl<M> fmt::Display for Full<M> {
    fn fmt(&self, f: &mut fmt::Formatter<'_>) -> fmt::Result {
        f.write_str("the link to the core is full")
    }
}

impl<M> std::error::Error for Full<M> {}

/// Calls a function on a core, in a queue of it. The future that it makes is polled there, and needn't be `Send`. The order goes by the link of the
/// library behind this run; a link that is full takes it later.
///
/// # Panics
///
/// Outside a task, and if there is no such core or queue. Other threads have [`Handle::submit`](crate::Handle::submit).
///
/// ```
/// use fairexec_rt::{submit, Executor, Queue};
/// use std::rc::Rc;
///
/// Executor::builder().cores(2).run(|here| async move {
///     let call = submit((here.core() + 1) % 2, Queue::FIRST, || async { *Rc::new(42) });
///     assert_eq!(call.await, Ok(42));
/// })?;
/// # Ok::<(), fairexec_rt::Error>(())
/// ```
pub fn submit<F, T>(core: u32, queue: Queue, make: impl FnOnce() -> F + Send + 'static) -> Call<T>
where
    F: Future<Output = T> + 'static,
    T: Send + 'static,
{
    let (start, call) = Start::new(make);
    here(|it| {
        it.check(core, queue);
        it.send(core, queue.0, start);
    });
    call
}

/// The same, if the link takes it now.
///
/// # Errors
///
/// `Full`, with the function: as many calls to that core as the link has places didn't begin yet, or their outcomes weren't seen.
///
/// # Panics
///
/// As `submit`.
///
/// ```
/// use fairexec_rt::{try_submit, Executor, Queue};
///
/// Executor::builder().cores(2).places(2).run(|here| async move {
///     let other = (here.core() + 1) % 2;
///     let calls: Vec<_> = (0..2).map(|it| try_submit(other, Queue::FIRST, move || async move { it }).unwrap()).collect();
///     assert!(try_submit(other, Queue::FIRST, || async { 2 }).is_err());
///     for (it, call) in calls.into_iter().enumerate() {
///         assert_eq!(call.await, Ok(it));
///     }
/// })?;
/// # Ok::<(), fairexec_rt::Error>(())
/// ```
pub fn try_submit<F, T, M>(core: u32, queue: Queue, make: M) -> Result<Call<T>, Full<M>>
where
    F: Future<Output = T> + 'static,
    T: Send + 'static,
    M: FnOnce() -> F + Send + 'static,
{
    let is_full = here(|it| {
        it.check(core, queue);
        it.is_full(core)
    });
    if is_full {
        return Err(Full(make));
    }
    Ok(submit(core, queue, make))
}
