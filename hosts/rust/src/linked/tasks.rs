//! Futures on the cores of a house.

use super::actor::Ticket;
use super::core::Core;
use super::futures::{ending, Body, Join};
use super::lanes::Bell;
use super::names::{Name, Step};
use super::outside::Outside;
use crate::error::Error;
use std::cell::RefCell;
use std::collections::VecDeque;
use std::future::Future;
use std::panic::{catch_unwind, resume_unwind, AssertUnwindSafe};
use std::sync::atomic::{AtomicBool, Ordering};
use std::sync::Arc;
use std::task::{Context, Poll, Wake, Waker};

/// A job that is a future. A poll is a run. A task that waits is parked, and its waker, which may be called on any thread, sends a wake.
///
/// It has no timer. What wakes it is the waker that each part of the future was polled with, and a timer of the core knows the job alone. The crate
/// `fairexec-rt` has futures that sleep.
///
/// ```
/// use fairexec::linked::{yield_now, Config, House, Outcome, Task};
/// use fairexec::Mode;
///
/// let (_house, mut cores, mut outside) = House::open(&Config::default())?;
/// let (task, join) = Task::new(async {
///     yield_now().await;
///     "forty-two"
/// });
/// let ticket = outside.submit(0, 0, task).map_err(|(error, _)| error)?;
/// outside.close_all(Mode::Finish)?;
/// cores[0].run_tasks()?;
/// assert!(matches!(outside.wait_for(&ticket)?, Outcome::Done(_)));
/// assert_eq!(join.take(), Some(Ok("forty-two")));
/// # Ok::<(), fairexec::Error>(())
/// ```
pub struct Task {
    body: Body,
    waking: Option<Arc<Waking>>,
}

/// The waker of one task.
struct Waking {
    name: Name,
    // Whether it was called since the task was polled last.
    is_called: AtomicBool,
    bells: Arc<[Bell]>,
}

impl Wake for Waking {
    fn wake(self: Arc<Self>) {
        self.wake_by_ref();
    }

    fn wake_by_ref(self: &Arc<Self>) {
        if !self.is_called.swap(true, Ordering::AcqRel) {
            self.bells[self.name.to as usize].list(self.name);
        }
    }
}

/// What the tasks spawned that a core polls: tasks that aren't submitted yet, with their core and queue.
struct Spawned {
    core: u32,
    tasks: VecDeque<(u32, u32, Task)>,
}

thread_local! {
    // Of the core that polls a task on this thread.
    static SPAWNED: RefCell<Option<Spawned>> = const { RefCell::new(None) };
}

fn with_spawned(call: impl FnOnce(&mut Spawned)) {
    SPAWNED.with_borrow_mut(|it| call(it.as_mut().expect("a task spawns")));
}

impl Task {
    /// A future as a job, and what it comes to.
    pub fn new<T: Send + 'static>(future: impl Future<Output = T> + Send + 'static) -> (Task, Join<T>) {
        let (ending, join) = ending();
        (Task { body: Body::sent(ending.told_by(future)), waking: None }, join)
    }

    /// The same of a future that stays on this thread. Who makes it hands it to the core of this thread.
    fn local<T: 'static>(future: impl Future<Output = T> + 'static) -> (Task, Join<T>) {
        let (ending, join) = ending();
        (Task { body: Body::local(ending.told_by(future)), waking: None }, join)
    }

    /// One run.
    fn poll(&mut self, name: Name, bells: &Arc<[Bell]>) -> Step {
        // A task that came back may be submitted again, under another name and to another house.
        let kept = self.waking.take().filter(|it| it.name == name && Arc::ptr_eq(&it.bells, bells));
        let waking = self.waking.insert(kept.unwrap_or_else(|| Arc::new(Waking { name, is_called: AtomicBool::new(false), bells: Arc::clone(bells) })));
        // This poll sees what was done before each call of the waker until now. One that comes later has a poll of its own.
        waking.is_called.swap(false, Ordering::AcqRel);
        let waker = Waker::from(Arc::clone(waking));
        match self.body.poll(&mut Context::from_waker(&waker)) {
            Poll::Ready(()) => Step::Done(0),
            Poll::Pending => Step::Park,
        }
    }
}

/// Starts a task on a core of the house, this one or another. It is called by a task, and tells at once what the new one comes to. The order
/// goes out behind the run; a link that is full takes it later. A task holds its place of the link until it ends: tasks that wait for more tasks
/// than there are places wait for ever.
///
/// # Panics
///
/// Outside a task. There [`Outside::spawn`] starts one.
///
/// ```
/// use fairexec::linked::{spawn, Config, House};
/// use fairexec::Mode;
///
/// let (_house, mut cores, mut outside) = House::open(&Config::default())?;
/// let (_ticket, join) = outside.spawn(0, 0, async {
///     let all = [1, 2, 3].map(|it| spawn(0, 0, async move { it * it }));
///     let mut sum = 0;
///     for it in all {
///         sum += it.await.unwrap_or_default();
///     }
///     sum
/// })?;
/// outside.close_all(Mode::Finish)?;
/// cores[0].run_tasks()?;
/// assert_eq!(join.take(), Some(Ok(14)));
/// # Ok::<(), fairexec::Error>(())
/// ```
pub fn spawn<T: Send + 'static>(core: u32, queue: u32, future: impl Future<Output = T> + Send + 'static) -> Join<T> {
    let (task, join) = Task::new(future);
    with_spawned(|it| it.tasks.push_back((core, queue, task)));
    join
}

/// Starts a task on the core of the task that calls this. Its future needn't be `Send`, and neither need what it comes to. It is polled and dropped on
/// this thread alone: if its core goes to another thread, its next poll there panics, and a drop there forgets it.
///
/// # Panics
///
/// Outside a task. There [`Core::spawn_local`] starts one.
///
/// ```
/// use fairexec::linked::{spawn_local, yield_now, Config, House};
/// use fairexec::Mode;
/// use std::{cell::Cell, rc::Rc};
///
/// let (_house, mut cores, mut outside) = House::open(&Config::default())?;
/// let (_ticket, join) = outside.spawn(0, 0, async {
///     // A task that waits for a local one is local, too.
///     drop(spawn_local(0, async {
///         let count = Rc::new(Cell::new(0));
///         let [first, second] = [20, 22].map(|it| {
///             let count = Rc::clone(&count);
///             spawn_local(0, async move {
///                 yield_now().await;
///                 count.set(count.get() + it);
///                 count
///             })
///         });
///         assert!(Rc::ptr_eq(&first.await.unwrap(), &second.await.unwrap()));
///         assert_eq!(count.get(), 42);
///     }));
/// })?;
/// outside.close_all(Mode::Finish)?;
/// cores[0].run_tasks()?;
/// assert_eq!(join.take(), Some(Ok(())));
/// # Ok::<(), fairexec::Error>(())
/// ```
pub fn spawn_local<T: 'static>(queue: u32, future: impl Future<Output = T> + 'static) -> Join<T> {
    let (task, join) = Task::local(future);
    with_spawned(|it| it.tasks.push_back((it.core, queue, task)));
    join
}

/// Lets other jobs run: the task goes to the tail of its queue.
///
/// ```
/// use fairexec::linked::{yield_now, Config, House};
/// use fairexec::Mode;
///
/// let (_house, mut cores, mut outside) = House::open(&Config::default())?;
/// outside.spawn(0, 0, yield_now()).map(drop)?;
/// outside.close_all(Mode::Finish)?;
/// cores[0].run_tasks()?;
/// assert_eq!(cores[0].stats_of(0)?.picks, 2);
/// # Ok::<(), fairexec::Error>(())
/// ```
pub async fn yield_now() {
    let mut was_polled = false;
    std::future::poll_fn(move |cx| {
        if std::mem::replace(&mut was_polled, true) {
            return Poll::Ready(());
        }
        cx.waker().wake_by_ref();
        Poll::Pending
    })
    .await
}

impl Core<Task> {
    /// Runs tasks until the core is drained. A core that has nothing to do sleeps. A panic of a task goes on after the task was dropped.
    ///
    /// Behind a panic or an error this may be called again, and goes on: each waker that was called still wakes its task, and what tasks spawned
    /// is still submitted.
    ///
    /// # Errors
    ///
    /// `BadNumber` if links have a single place, since tasks and their wakes share that from a core to itself; `JournalFull`, `Spent`.
    pub fn run_tasks(&mut self) -> Result<(), Error> {
        while let Some(did) = self.step_tasks()? {
            if !did {
                self.sleep();
            }
        }
        self.rest();
        Ok(())
    }

    /// One round of [`run_tasks`](Core::run_tasks), for a host that waits by itself, as by [`wait_by`](Core::wait_by). Whether anything
    /// happened, or `None` once the core is drained.
    ///
    /// # Errors
    ///
    /// As `run_tasks`.
    pub fn step_tasks(&mut self) -> Result<Option<bool>, Error> {
        if self.actor.lanes.places() < 2 {
            return Err(Error::BadNumber);
        }
        if self.has_ended() && self.spawned.iter().all(VecDeque::is_empty) {
            return Ok(None);
        }
        let bells = Arc::clone(self.actor.lanes.bells());
        let mut did = self.send_wakes(&bells[self.number() as usize])?;
        did |= self.round_of_tasks(&bells)?;
        did |= self.submit_spawned()?;
        Ok(Some(did))
    }

    /// Starts a task on this core, as [`spawn_local`] does, before the core runs or between two steps.
    ///
    /// ```
    /// use fairexec::linked::{Config, House};
    /// use fairexec::Mode;
    /// use std::rc::Rc;
    ///
    /// let (_house, mut cores, mut outside) = House::open(&Config::default())?;
    /// let shared = Rc::new(42);
    /// let join = cores[0].spawn_local(0, { let shared = Rc::clone(&shared); async move { shared } });
    /// assert_eq!(cores[0].step_tasks()?, Some(true));
    /// outside.close_all(Mode::Finish)?;
    /// cores[0].run_tasks()?;
    /// assert_eq!(join.take(), Some(Ok(shared)));
    /// # Ok::<(), fairexec::Error>(())
    /// ```
    pub fn spawn_local<T: 'static>(&mut self, queue: u32, future: impl Future<Output = T> + 'static) -> Join<T> {
        let (task, join) = Task::local(future);
        let own = self.number();
        self.spawned[own as usize].push_back((queue, task));
        join
    }

    /// Sends a wake for each task whose waker was called. Those for which the link or the journal has no place wait.
    fn send_wakes(&mut self, bell: &Bell) -> Result<bool, Error> {
        let mut did = false;
        while let Some(name) = bell.first_woken() {
            match self.wake(name) {
                Ok(ticket) => {
                    bell.forget_first();
                    self.detach(ticket)?;
                }
                // The core takes no order any more: its gate is shut.
                Err(Error::Closed) => bell.forget_first(),
                Err(Error::Full) => break,
                Err(error) => return Err(error),
            }
            did = true;
        }
        Ok(did)
    }

    /// One round. What its tasks spawned waits to be submitted, also if one of them panics.
    fn round_of_tasks(&mut self, bells: &Arc<[Bell]>) -> Result<bool, Error> {
        let needs_own_gate = !self.spawned[self.number() as usize].is_empty();
        // A task may run another house on this thread.
        let outer = SPAWNED.replace(Some(Spawned { core: self.number(), tasks: VecDeque::new() }));
        let ended = catch_unwind(AssertUnwindSafe(|| self.round_with(needs_own_gate, |task, cx| task.poll(cx.name(), bells))));
        for (to, queue, task) in SPAWNED.replace(outer).into_iter().flat_map(|it| it.tasks) {
            // There is no other core: the task is dropped.
            if let Some(spawned) = self.spawned.get_mut(to as usize) {
                spawned.push_back((queue, task));
            }
        }
        ended.unwrap_or_else(|panic| resume_unwind(panic))
    }

    /// Submits what was spawned. A task that is refused for good is dropped, which its `Join` tells.
    fn submit_spawned(&mut self) -> Result<bool, Error> {
        let mut did = false;
        for to in 0..self.actor.lanes.cores() {
            while let Some((queue, task)) = self.spawned[to as usize].pop_front() {
                match self.submit(to, queue, task) {
                    Ok(ticket) => self.detach(ticket)?,
                    Err((error @ (Error::Full | Error::JournalFull), task)) => {
                        self.spawned[to as usize].push_front((queue, task));
                        if error == Error::Full {
                            break;
                        }
                        return Err(error);
                    }
                    Err(_) => {}
                }
                did = true;
            }
        }
        Ok(did)
    }
}

impl Outside<Task> {
    /// Starts a task on a core. Its ticket is the right to ask whether it ended; `Join` has what it came to.
    ///
    /// # Errors
    ///
    /// As `submit`, and the future is dropped. [`Task::new`] and `submit` in place of this call give the task back.
    pub fn spawn<T: Send + 'static>(&mut self, core: u32, queue: u32, future: impl Future<Output = T> + Send + 'static) -> Result<(Ticket, Join<T>), Error> {
        let (task, join) = Task::new(future);
        let ticket = self.submit(core, queue, task).map_err(|(error, _)| error)?;
        Ok((ticket, join))
    }
}

#[cfg(test)]
mod tests {
    use super::super::futures::lock;
    use crate::linked::{Config, House};
    use crate::{Error, Mode};
    use std::future::poll_fn;
    use std::sync::{Arc, Mutex};
    use std::task::{Poll, Waker};

    #[test]
    fn a_waker_that_is_kept_frees_what_it_has() -> Result<(), Error> {
        let (house, mut cores, mut outside) = House::open(&Config { places: 4, ..Config::default() })?;
        let bells = Arc::downgrade(cores[0].actor.lanes.bells());
        let kept = Arc::new(Mutex::new(None::<Waker>));
        let keeps = Arc::clone(&kept);
        let (_, join) = outside.spawn(0, 0, poll_fn(move |cx| {
            // It wakes itself in its last run, too.
            cx.waker().wake_by_ref();
            lock(&keeps).replace(cx.waker().clone()).map_or(Poll::Pending, |_| Poll::Ready(7))
        }))?;
        outside.close_all(Mode::Finish)?;
        cores[0].run_tasks()?;
        drop(house.end(cores, outside).map_err(|(error, ..)| error)?);
        assert_eq!(join.take(), Some(Ok(7)));
        let waker = lock(&kept).take().expect("it was polled");
        for _ in 0..3 {
            waker.wake_by_ref();
        }
        assert_eq!(bells.strong_count(), 1);
        waker.wake();
        assert_eq!(bells.strong_count(), 0);
        Ok(())
    }

    #[test]
    fn the_waker_of_a_task_that_never_ends_frees_what_it_has() -> Result<(), Error> {
        let (house, mut cores, mut outside) = House::open(&Config { places: 4, notes: 16, ..Config::default() })?;
        let bells = Arc::downgrade(cores[0].actor.lanes.bells());
        let alive = Arc::new(());
        let held = Arc::clone(&alive);
        drop(outside.spawn(0, 0, poll_fn(move |cx| {
            cx.waker().wake_by_ref();
            let _held = &held;
            Poll::<()>::Pending
        }))?);
        assert_eq!(cores[0].run_tasks(), Err(Error::JournalFull));
        assert_eq!((bells.upgrade().is_some(), Arc::strong_count(&alive)), (true, 2));
        drop((house, cores, outside));
        assert_eq!((bells.strong_count(), Arc::strong_count(&alive)), (0, 1));
        Ok(())
    }
}
