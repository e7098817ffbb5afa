//! Futures on a core. A task that waits is no job, and its waker, which may be called on any thread, makes it one again.

use crate::core::{Mode, Step};
use crate::error::Error;
use crate::house::{House, Turn};
use crate::stats::{CoreStats, QueueStats};
use std::future::Future;
use std::pin::Pin;
use std::sync::atomic::{AtomicBool, Ordering};
use std::sync::{Arc, Condvar, Mutex, PoisonError, Weak};
use std::task::{Context, Poll, Wake, Waker};

type BoxedFuture = Pin<Box<dyn Future<Output = ()> + Send>>;

/// The wakers that were called since the core looked.
#[derive(Default)]
struct Woken {
    list: Mutex<Vec<Arc<Waking>>>,
    rings: Condvar,
}

/// The waker of one task.
struct Waking {
    place: usize,
    // Whether the task is a job of the core, or is about to be one.
    is_queued: AtomicBool,
    // Weak, since the list has wakers: neither keeps the other when the tasks are dropped.
    woken: Weak<Woken>,
}

impl Wake for Waking {
    fn wake(self: Arc<Self>) {
        if self.is_queued.swap(true, Ordering::AcqRel) {
            return;
        }
        if let Some(woken) = self.woken.upgrade() {
            woken.list.lock().unwrap_or_else(PoisonError::into_inner).push(self);
            woken.rings.notify_one();
        }
    }
}

struct Task {
    // It is out while it is polled.
    future: Option<BoxedFuture>,
    queue: u32,
    waking: Arc<Waking>,
}

/// A house whose jobs are futures. Each poll of a task is a job of one run, and its queue is charged for it.
///
/// A task that waits is no job, so no timer of a house can wake it: a future that waits for a time has its waker called, as by another thread. The crate
/// `fairexec-rt` has futures that sleep.
pub struct Tasks {
    house: House<usize>,
    tasks: Vec<Option<Task>>,
    // Where the next task looks for a place first.
    hint: usize,
    woken: Arc<Woken>,
}

impl Tasks {
    /// Opens a house with room for this many tasks, 1 to 131070.
    ///
    /// # Errors
    ///
    /// `BadNumber`, `NoMemory`.
    pub fn open(tasks: u32) -> Result<Tasks, Error> {
        let house = House::open(tasks)?;
        let tasks = (0..tasks).map(|_| None).collect();
        Ok(Tasks { house, tasks, hint: 0, woken: Arc::default() })
    }

    /// See `Core::create`.
    ///
    /// # Errors
    ///
    /// `BadShares`, `Closed`, `TooMany`, `NoMemory`.
    pub fn create(&mut self, shares: u32) -> Result<u32, Error> {
        self.house.create(shares)
    }

    /// See `Core::set_shares`.
    ///
    /// # Errors
    ///
    /// `BadShares`, `Full`, `Spent`, `NoQueue`.
    pub fn set_shares(&mut self, queue: u32, shares: u32) -> Result<(), Error> {
        self.house.set_shares(queue, shares)
    }

    /// Closes a queue. A task of it that waits is dropped when its waker is called.
    ///
    /// # Errors
    ///
    /// `NoQueue`, `Closed`.
    pub fn close_queue(&mut self, queue: u32, mode: Mode) -> Result<(), Error> {
        self.house.close_queue(queue, mode)
    }

    /// Closes the core, with the same result for each task.
    ///
    /// # Errors
    ///
    /// `Closed`.
    pub fn close(&mut self, mode: Mode) -> Result<(), Error> {
        self.house.close(mode)
    }

    /// See `Core::stats`. A task that waits isn't held.
    pub fn stats(&mut self) -> CoreStats {
        self.house.stats()
    }

    /// See `Core::stats_of`. Each poll of a task is a job that is done.
    ///
    /// # Errors
    ///
    /// `NoQueue`.
    pub fn stats_of(&mut self, queue: u32) -> Result<QueueStats, Error> {
        self.house.stats_of(queue)
    }

    /// How many tasks aren't done.
    pub fn count(&self) -> usize {
        self.tasks.iter().flatten().count()
    }

    /// Starts a task in this queue.
    ///
    /// # Errors
    ///
    /// `Full` if there are as many tasks as there is room for; `Closed`, `Spent`, `NoQueue`. The future is dropped: a host that wants to keep it
    /// asks `count` first.
    pub fn spawn(&mut self, queue: u32, future: impl Future<Output = ()> + Send + 'static) -> Result<(), Error> {
        let mut places = (self.hint..self.tasks.len()).chain(0..self.hint);
        let place = places.find(|&it| self.tasks[it].is_none()).ok_or(Error::Full)?;
        self.hint = place + 1;
        self.house.submit(queue, place).map_err(|(error, _)| error)?;
        let waking = Arc::new(Waking { place, is_queued: AtomicBool::new(true), woken: Arc::downgrade(&self.woken) });
        self.tasks[place] = Some(Task { future: Some(Box::pin(future)), queue, waking });
        Ok(())
    }

    /// Polls one task, if one is ready: the answer. It doesn't wait. A panic of a task goes on after the task was dropped.
    ///
    /// # Errors
    ///
    /// `Spent`.
    pub fn turn(&mut self) -> Result<bool, Error> {
        self.admit_woken(false);
        let tasks = &mut self.tasks;
        let turn = self.house.run_turn(|&mut place, _| {
            poll(&mut tasks[place]);
            Step::Done
        })?;
        match turn {
            Turn::Back(place) => self.tasks[place] = None,
            Turn::Done(_) | Turn::Yielded | Turn::Parked => {}
            Turn::Idle => return Ok(false),
        }
        Ok(true)
    }

    /// Polls until no task is left. Where none is ready the thread waits for a waker.
    ///
    /// # Errors
    ///
    /// `Spent`.
    pub fn run(&mut self) -> Result<(), Error> {
        while self.count() > 0 {
            if !self.turn()? {
                self.admit_woken(true);
            }
        }
        Ok(())
    }

    /// Makes jobs of the tasks whose wakers were called. A task that the core refuses is dropped: its queue
    /// was closed meanwhile, or the core is spent.
    fn admit_woken(&mut self, wait: bool) {
        let mut list = self.woken.list.lock().unwrap_or_else(PoisonError::into_inner);
        while wait && list.is_empty() {
            list = self.woken.rings.wait(list).unwrap_or_else(PoisonError::into_inner);
        }
        let called = std::mem::take(&mut *list);
        drop(list);
        for waking in called {
            let slot = &mut self.tasks[waking.place];
            // The place may have another task by now.
            let Some(task) = slot.as_ref().filter(|task| Arc::ptr_eq(&task.waking, &waking)) else { continue };
            if self.house.submit(task.queue, waking.place).is_err() {
                *slot = None;
            }
        }
    }
}

/// Polls a task that is there. It leaves if it is done, or if the poll panics.
fn poll(slot: &mut Option<Task>) {
    let Some(mut task) = slot.take() else { return };
    let Some(mut future) = task.future.take() else { return };
    // This poll sees what was done before each call of the waker until now. One that comes later, also during the poll, makes a job of its own.
    task.waking.is_queued.swap(false, Ordering::AcqRel);
    let waker = Waker::from(Arc::clone(&task.waking));
    if future.as_mut().poll(&mut Context::from_waker(&waker)) == Poll::Pending {
        task.future = Some(future);
        *slot = Some(task);
    }
}

/// Lets other jobs run: the task goes to the tail of its queue.
pub async fn again() {
    let mut was_polled = false;
    std::future::poll_fn(move |cx| {
        if std::mem::replace(&mut was_polled, true) {
            return Poll::Ready(());
        }
        cx.waker().wake_by_ref();
        Poll::Pending
    })
    .await
}
