//! Futures on a core: they wait for wakers, share the core, and are dropped.

use fairexec::{again, Error, Mode, Tasks};
use std::future::Future;
use std::panic::{catch_unwind, AssertUnwindSafe};
use std::pin::Pin;
use std::sync::{Arc, Mutex};
use std::task::{Context, Poll, Waker};

/// A place for one value, which another thread fills.
#[derive(Default)]
struct Promise(Mutex<(Option<u64>, Option<Waker>)>);

impl Promise {
    fn fill(&self, value: u64) {
        let mut inside = self.0.lock().unwrap();
        inside.0 = Some(value);
        if let Some(waker) = inside.1.take() {
            waker.wake();
        }
    }
}

struct Filled(Arc<Promise>);

impl Future for Filled {
    type Output = u64;

    fn poll(self: Pin<&mut Self>, cx: &mut Context<'_>) -> Poll<u64> {
        let mut inside = self.0 .0.lock().unwrap();
        inside.1 = Some(cx.waker().clone());
        inside.0.take().map_or(Poll::Pending, Poll::Ready)
    }
}

#[test]
fn a_task_waits_for_another_thread() -> Result<(), Error> {
    let mut tasks = Tasks::open(64)?;
    let sum = Arc::new(Mutex::new(0));
    let promises: Vec<_> = (0..64).map(|_| Arc::new(Promise::default())).collect();
    for promise in &promises {
        let (promise, sum) = (Arc::clone(promise), Arc::clone(&sum));
        tasks.spawn(0, async move {
            let value = Filled(promise).await;
            again().await;
            *sum.lock().unwrap() += value;
        })?;
    }
    assert_eq!(tasks.spawn(0, async {}), Err(Error::Full));
    let filler = std::thread::spawn(move || {
        for (value, promise) in promises.iter().enumerate() {
            promise.fill(value as u64);
        }
    });
    tasks.run()?;
    filler.join().unwrap();
    assert_eq!(*sum.lock().unwrap(), 64 * 63 / 2);
    assert_eq!(tasks.stats().held, 0);
    Ok(())
}

#[test]
fn tasks_on_two_threads_talk() {
    let (left, right) = (Arc::new(Promise::default()), Arc::new(Promise::default()));
    let ends = [(Arc::clone(&left), Arc::clone(&right), true), (right, left, false)];
    let threads = ends.map(|(mine, other, begins)| {
        std::thread::spawn(move || {
            let mut tasks = Tasks::open(1).unwrap();
            tasks
                .spawn(0, async move {
                    for round in 0..1_000 {
                        if begins {
                            other.fill(round);
                        }
                        assert_eq!(Filled(Arc::clone(&mine)).await, round);
                        if !begins {
                            other.fill(round);
                        }
                    }
                })
                .unwrap();
            tasks.run().unwrap();
        })
    });
    for thread in threads {
        thread.join().unwrap();
    }
}

#[test]
fn tasks_share_the_core_by_their_queues() -> Result<(), Error> {
    let mut tasks = Tasks::open(2)?;
    let background = tasks.create(100)?;
    for queue in [0, background] {
        tasks.spawn(queue, async {
            for _ in 0..10 {
                again().await;
            }
        })?;
    }
    tasks.run()?;
    assert_eq!(tasks.stats_of(0)?.picks, 11);
    assert_eq!(tasks.stats_of(background)?.picks, 11);
    Ok(())
}

#[test]
fn what_a_task_has_is_dropped_with_it() -> Result<(), Error> {
    let token = Arc::new(());
    let mut tasks = Tasks::open(4)?;
    let promise = Arc::new(Promise::default());
    for _ in 0..4 {
        let (token, promise) = (Arc::clone(&token), Arc::clone(&promise));
        tasks.spawn(0, async move {
            Filled(promise).await;
            drop(token);
        })?;
    }
    assert_eq!(Arc::strong_count(&token), 5);
    while tasks.turn()? {}
    // One of them is woken, but not yet a job.
    promise.fill(1);
    drop(tasks);
    assert_eq!(Arc::strong_count(&token), 1);
    // A waker of a task that is gone does nothing.
    promise.fill(2);
    assert_eq!(Arc::strong_count(&promise), 1);
    Ok(())
}

#[test]
fn a_panic_ends_the_task() -> Result<(), Error> {
    let token = Arc::new(());
    let mut tasks = Tasks::open(2)?;
    let kept = Arc::clone(&token);
    tasks.spawn(0, async move {
        let _kept = kept;
        again().await;
        panic!("a task's own");
    })?;
    tasks.spawn(0, again())?;
    assert!(catch_unwind(AssertUnwindSafe(|| tasks.run())).is_err());
    assert_eq!((Arc::strong_count(&token), tasks.count()), (1, 1));
    tasks.run()?;
    assert_eq!(tasks.count(), 0);
    Ok(())
}

#[test]
fn a_closed_queue_drops_its_tasks() -> Result<(), Error> {
    let token = Arc::new(());
    let mut tasks = Tasks::open(2)?;
    let promise = Arc::new(Promise::default());
    for waits in [false, true] {
        let (token, promise) = (Arc::clone(&token), Arc::clone(&promise));
        tasks.spawn(0, async move {
            if waits {
                Filled(promise).await;
            }
            again().await;
            drop(token);
        })?;
    }
    assert!(tasks.turn()? && tasks.turn()?);
    tasks.close(Mode::Return)?;
    promise.fill(1);
    tasks.run()?;
    assert_eq!(Arc::strong_count(&token), 1);
    Ok(())
}
