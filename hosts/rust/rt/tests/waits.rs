//! Tasks that wait aren't inside a core: any number of them wait in flat memory, and no fill of a link stops a wake.

use fairexec_rt::{chan, fs, sleep_until, spawn_local, submit, timeout, yield_now, Executor, JoinHandle, Journal, Queue};
use std::alloc::{GlobalAlloc, Layout, System};
use std::cell::Cell;
use std::future::{poll_fn, Future};
use std::pin::pin;
use std::rc::Rc;
use std::sync::atomic::{AtomicUsize, Ordering::SeqCst};
use std::sync::{Mutex, PoisonError};
use std::task::{Poll, Waker};
use std::time::{Duration, Instant};

/// The system's memory, and how much of it is asked for.
struct Counts;

static ASKED: AtomicUsize = AtomicUsize::new(0);

// SAFETY: each call is the system's.
unsafe impl GlobalAlloc for Counts {
    unsafe fn alloc(&self, layout: Layout) -> *mut u8 {
        ASKED.fetch_add(layout.size(), SeqCst);
        // SAFETY: as the caller says.
        unsafe { System.alloc(layout) }
    }

    unsafe fn dealloc(&self, at: *mut u8, layout: Layout) {
        ASKED.fetch_sub(layout.size(), SeqCst);
        // SAFETY: as the caller says.
        unsafe { System.dealloc(at, layout) }
    }
}

#[global_allocator]
static COUNTS: Counts = Counts;

/// These tests count the memory of the process, so one runs at a time.
static ALONE: Mutex<()> = Mutex::new(());

const LONG: Duration = Duration::from_secs(60);
const BACKGROUND: Queue = Queue::new(1);

/// A future whose polls are counted.
async fn counted<F: Future>(future: F, polls: &Cell<usize>) -> F::Output {
    let mut future = pin!(future);
    poll_fn(|cx| {
        polls.set(polls.get() + 1);
        future.as_mut().poll(cx)
    })
    .await
}

/// So many tasks wait, half of them for a channel and half for a time. Each is woken once, and done. The bytes that a task took while it waited, or
/// nothing if the time was over before all waited.
async fn wait_for_all(count: usize, time: Duration) -> Option<usize> {
    let (polls, done) = (Rc::new([Cell::new(0), Cell::new(0)]), Rc::new(Cell::new(0)));
    let (sender, receiver) = chan::local(1);
    let before = ASKED.load(SeqCst);
    let end = Instant::now() + time;
    let tasks: Vec<JoinHandle<()>> = (0..count)
        .map(|number| {
            let (polls, done, receiver) = (Rc::clone(&polls), Rc::clone(&done), receiver.clone());
            spawn_local(Queue::FIRST, async move {
                if number % 2 == 0 {
                    counted(receiver.recv(), &polls[0]).await.unwrap();
                } else {
                    counted(sleep_until(end), &polls[1]).await;
                }
                done.set(done.get() + 1);
            })
        })
        .collect();
    while polls[0].get() + polls[1].get() < count {
        yield_now().await;
    }
    let (waiting, all_wait) = (ASKED.load(SeqCst) - before, done.get() == 0);
    for _ in 0..count / 2 {
        sender.send(()).await.unwrap();
    }
    for it in tasks {
        it.await.unwrap();
    }
    assert_eq!(done.get(), count);
    all_wait.then(|| {
        assert_eq!(polls[1].get(), count);
        // A receiver of `async-channel` that got its value hands the wake on, so the next one may be woken once more than it needs.
        assert!((count..=count + count / 2).contains(&polls[0].get()), "{} polls", polls[0].get());
        waiting / count
    })
}

#[test]
fn a_hundred_thousand_tasks_wait_in_flat_memory() {
    let _alone = ALONE.lock().unwrap_or_else(PoisonError::into_inner);
    let report = Executor::builder().places(1024).run(|_| async {
        let mut rounds = Vec::new();
        for (count, mut time) in [(10_000, Duration::from_millis(500)), (100_000, Duration::from_secs(3)), (100_000, Duration::from_secs(3))] {
            let task = loop {
                if let Some(task) = wait_for_all(count, time).await {
                    break task;
                }
                // This machine is busy.
                time *= 2;
            };
            rounds.push((count, task, ASKED.load(SeqCst)));
        }
        println!("tasks, bytes of each, bytes behind all: {rounds:?}");
        let [(_, few, _), (_, many, first), (_, _, second)] = rounds[..] else { unreachable!() };
        // A task, its future, its waker and its place among those of the core.
        assert!(few < 700 && many < 700, "{few} and {many} bytes");
        // A second round asks for nothing that the first one didn't leave.
        assert!(second <= first + (1 << 16), "{first} and then {second} bytes");
    });
    assert_eq!(report.unwrap().cores[0].tasks, 0);
}

/// Places of a link, and tasks of one core that wait at once.
const PLACES: [u32; 3] = [2, 64, 1024];
const WAITING: usize = 2500;

/// Each of these tasks waits until its waker was called, and then it is done. The wakers, once all wait.
async fn all_wait() -> (Vec<Waker>, Vec<JoinHandle<()>>) {
    let wakers = Rc::new(Cell::new(Vec::new()));
    let tasks = (0..WAITING).map(|_| {
        let wakers = Rc::clone(&wakers);
        let mut has_waited = false;
        spawn_local(
            Queue::FIRST,
            poll_fn(move |cx| {
                if std::mem::replace(&mut has_waited, true) {
                    return Poll::Ready(());
                }
                let mut all = wakers.take();
                all.push(cx.waker().clone());
                wakers.set(all);
                Poll::Pending
            }),
        )
    });
    let tasks = tasks.collect();
    loop {
        let all = wakers.take();
        if all.len() == WAITING {
            return (all, tasks);
        }
        wakers.set(all);
        yield_now().await;
    }
}

/// A core with few places, on which all of these tasks end in time. `wakes` wakes them.
fn all_are_woken<F: Future<Output = ()> + 'static>(wakes: impl Fn(Vec<Waker>) -> F + Send + Sync + Copy + 'static) {
    let _alone = ALONE.lock().unwrap_or_else(PoisonError::into_inner);
    for places in PLACES {
        let report = Executor::builder().cores(2).places(places).journal(Journal::Keep).run(move |here| async move {
            if here.core() == 1 {
                return;
            }
            let (wakers, tasks) = all_wait().await;
            wakes(wakers).await;
            for it in tasks {
                timeout(LONG, it).await.expect("it is woken").unwrap();
            }
        });
        assert!(report.unwrap().is_sound());
    }
}

#[test]
fn tasks_that_one_task_wakes() {
    all_are_woken(|wakers| async move { wakers.into_iter().for_each(Waker::wake) });
}

#[test]
fn tasks_that_another_thread_wakes() {
    all_are_woken(|wakers| fs::unblock(move || wakers.into_iter().for_each(Waker::wake)));
}

#[test]
fn tasks_that_another_core_wakes() {
    all_are_woken(|wakers| async move { submit(1, Queue::FIRST, || async move { wakers.into_iter().for_each(Waker::wake) }).await.unwrap() });
}

#[test]
fn tasks_that_wake_each_other_in_a_row() {
    all_are_woken(|wakers| async move {
        let (mut sender, first) = chan::local(1);
        for waker in wakers {
            let (next, receiver) = chan::local(1);
            let sends = std::mem::replace(&mut sender, next);
            spawn_local(Queue::FIRST, async move {
                receiver.recv().await.unwrap();
                waker.wake();
                sends.send(()).await.unwrap();
            });
        }
        sender.send(()).await.unwrap();
        timeout(LONG, first.recv()).await.expect("it is woken").unwrap();
    });
}

/// Tasks that never wait are as many as would fill each link, and all of them go on. So does one that is woken meanwhile.
#[test]
fn tasks_that_always_can_go_on_keep_none_out() {
    let _alone = ALONE.lock().unwrap_or_else(PoisonError::into_inner);
    for places in [3, 64, 1024] {
        let builder = Executor::builder().queue("requests", 1000).queue("background", 100).places(places).journal(Journal::Keep).notes(1 << 22);
        let report = builder.run(|_| async {
            for queue in [Queue::FIRST, BACKGROUND] {
                let (runs, is_over) = (Rc::new(vec![Cell::new(0); WAITING]), Rc::new(Cell::new(false)));
                let (sender, receiver) = chan::local(1);
                let woken = spawn_local(queue, async move { receiver.recv().await.unwrap() });
                let tasks = (0..WAITING).map(|number| {
                    let (runs, is_over) = (Rc::clone(&runs), Rc::clone(&is_over));
                    spawn_local(queue, async move {
                        while !is_over.get() {
                            runs[number].set(runs[number].get() + 1);
                            yield_now().await;
                        }
                    })
                });
                let tasks: Vec<_> = tasks.collect();
                let began = Instant::now();
                while runs.iter().any(|it| it.get() < 3) {
                    assert!(began.elapsed() < LONG, "{} tasks have no turn", runs.iter().filter(|it| it.get() == 0).count());
                    yield_now().await;
                }
                sender.send(()).await.unwrap();
                timeout(LONG, woken).await.expect("it is woken").unwrap();
                is_over.set(true);
                for it in tasks {
                    it.await.unwrap();
                }
            }
        });
        assert!(report.unwrap().is_sound());
    }
}
