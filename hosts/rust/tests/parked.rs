//! Jobs that wait keep no wake from their core, and local tasks stay on their thread.

use fairexec::linked::{spawn, spawn_local, yield_now, Answer, Cancelled, Config, Cx, House, Opened, Outcome, Step, Task};
use fairexec::{Error, Mode};
use std::cell::RefCell;
use std::future::poll_fn;
use std::panic::{catch_unwind, AssertUnwindSafe};
use std::rc::Rc;
use std::sync::{mpsc, Arc, Mutex};
use std::task::{Poll, Waker};
use std::thread::{self, ThreadId};
use std::time::{Duration, Instant};

const PLACES: u32 = 1024;

/// A job that waits once.
fn run(job: &mut u64, _: &mut Cx<'_, u64>) -> Step {
    *job += 1;
    if *job == 1 { Step::Park } else { Step::Done(*job) }
}

#[test]
fn jobs_that_wait_leave_a_place_for_wakes() -> Result<(), Error> {
    for places in [2, 3, PLACES] {
        let (_house, mut cores, _outside) = House::open(&Config { places, ..Config::default() })?;
        let core = &mut cores[0];
        let mut jobs = Vec::new();
        let refused = loop {
            match core.submit(0, 0, 0) {
                Ok(ticket) => jobs.push(ticket),
                Err((error, _)) => break error,
            }
        };
        assert_eq!((refused, jobs.len()), (Error::Full, places as usize - 1));
        while core.round(run)? {}
        assert_eq!(core.stats_of(0)?.waiting, u64::from(places) - 1);
        for job in jobs {
            let wake = core.wake(job.name())?;
            while core.round(run)? {}
            assert_eq!(core.redeem(&wake)?, Outcome::Answered(Answer::Woken));
            assert_eq!(core.redeem(&job)?, Outcome::Done(2));
        }
    }
    Ok(())
}

#[test]
fn more_tasks_wait_than_there_are_places() -> Result<(), Error> {
    let began = Instant::now();
    let (house, mut cores, mut outside): Opened<_> = House::open(&Config { places: PLACES, ..Config::default() })?;
    let wakers: Arc<Mutex<Vec<Waker>>> = Arc::default();
    let all = Arc::clone(&wakers);
    // 2,500 connections of one core. Each waits until somebody calls its waker.
    let (ticket, join) = outside.spawn(0, 0, async move {
        let tasks: Vec<_> = (0..2500)
            .map(|_| {
                let (all, mut has_waited) = (Arc::clone(&all), false);
                spawn(0, 0, poll_fn(move |cx| {
                    if std::mem::replace(&mut has_waited, true) {
                        return Poll::Ready(());
                    }
                    all.lock().expect("no panic").push(cx.waker().clone());
                    Poll::Pending
                }))
            })
            .collect();
        for it in tasks {
            it.await.expect("it is woken");
        }
    })?;
    let mut core = cores.remove(0);
    let thread = thread::spawn(move || core.run_tasks().map(|()| core));
    let mut woken = 0;
    while woken < 2500 {
        let some = std::mem::take(&mut *wakers.lock().expect("no panic"));
        woken += some.len();
        some.into_iter().for_each(Waker::wake);
        assert!(began.elapsed() < Duration::from_secs(300), "{woken} waited");
        thread::sleep(Duration::from_millis(1));
    }
    outside.wait_for(&ticket).map(drop)?;
    outside.close_all(Mode::Finish)?;
    let core = thread.join().expect("it ends")?;
    assert_eq!(join.take(), Some(Ok(())));
    assert!(house.end(vec![core], outside).map_err(|(error, ..)| error)?.audit()?.is_sound);
    Ok(())
}

/// A value that is dropped on the thread that made it, and counted while it lives.
struct Stays {
    thread: ThreadId,
    _alive: Arc<()>,
}

impl Stays {
    fn new(alive: &Arc<()>) -> Stays {
        Stays { thread: thread::current().id(), _alive: Arc::clone(alive) }
    }
}

impl Drop for Stays {
    fn drop(&mut self) {
        assert_eq!(thread::current().id(), self.thread);
    }
}

// Two tasks share what has no lock, and another thread wakes them.
#[test]
fn local_tasks_share_what_needs_no_lock() -> Result<(), Error> {
    let (house, mut cores, mut outside): Opened<Task> = House::open(&Config::default())?;
    let alive = Arc::new(());
    let seen = Rc::new(RefCell::new(Vec::new()));
    let (gives, takes): (Vec<_>, Vec<_>) = (0..2).map(|_| mpsc::channel::<Waker>()).unzip();
    let joins: Vec<_> = (0..).zip(gives).map(|(number, gives)| {
        let (seen, stays) = (Rc::clone(&seen), Stays::new(&alive));
        cores[0].spawn_local(0, async move {
            for round in 0..100 {
                let mut was_polled = false;
                poll_fn(|cx| {
                    if std::mem::replace(&mut was_polled, true) {
                        return Poll::Ready(());
                    }
                    gives.send(cx.waker().clone()).expect("it is taken");
                    Poll::Pending
                })
                .await;
                seen.borrow_mut().push((round, number));
            }
            // What a task comes to needn't be `Send` either, and it may start more.
            (spawn_local(0, async move { stays }).await, Rc::clone(&seen))
        })
    }).collect();
    let wakes = thread::spawn(move || {
        for _ in 0..100 {
            takes.iter().for_each(|it| it.recv().expect("it is given").wake());
        }
    });
    outside.close_all(Mode::Finish)?;
    cores[0].run_tasks()?;
    wakes.join().expect("no panic");
    assert_eq!((seen.borrow().len(), Arc::strong_count(&alive)), (200, 3));
    for join in joins {
        let (stays, all) = join.take().expect("it ended").expect("it came to its end");
        assert!(stays.is_ok() && Rc::ptr_eq(&all, &seen));
    }
    assert_eq!(Arc::strong_count(&alive), 1);
    assert!(house.end(cores, outside).map_err(|(error, ..)| error)?.audit()?.is_sound);
    Ok(())
}

// A core that closes drops its local tasks, on its thread. On another thread it polls none, and drops none.
#[test]
fn a_local_task_stays_on_its_thread() -> Result<(), Error> {
    for is_moved in [false, true] {
        if is_moved && std::env::var_os("CARGO_TARGET_X86_64_UNKNOWN_LINUX_GNU_RUNNER").is_some() {
            // What isn't dropped is a leak, which valgrind would tell.
            continue;
        }
        let (house, mut cores, mut outside): Opened<Task> = House::open(&Config::default())?;
        let (alive, mut core) = (Arc::new(()), cores.remove(0));
        let stays = Stays::new(&alive);
        let join = core.spawn_local(0, async move {
            let _stays = stays;
            loop {
                yield_now().await;
            }
        });
        for _ in 0..10 {
            core.step_tasks()?;
        }
        if is_moved {
            let told = thread::spawn(move || catch_unwind(AssertUnwindSafe(|| while core.step_tasks().expect("it runs").is_some() {})));
            let told = told.join().expect("the panic is caught");
            assert_eq!(told.unwrap_err().downcast_ref(), Some(&"a local task runs on the thread on which it was spawned"));
            assert!(join.take().is_none());
        } else {
            outside.close_all(Mode::Return)?;
            core.run_tasks()?;
            assert_eq!(join.take(), Some(Err(Cancelled)));
            assert!(house.end(vec![core], outside).is_ok());
        }
        assert_eq!(Arc::strong_count(&alive), if is_moved { 2 } else { 1 });
    }
    Ok(())
}
