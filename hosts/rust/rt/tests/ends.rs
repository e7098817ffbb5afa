//! What the futures of `run` come to.

use fairexec_rt::{chan, sleep, spawn_local, stop, stopping, yield_now, CallError, Error, Executor, Journal, Queue};
use futures_lite::future::block_on;
use std::future::pending;
use std::io;
use std::panic::catch_unwind;
use std::sync::atomic::{AtomicU32, Ordering::SeqCst};
use std::sync::mpsc;
use std::time::{Duration, Instant};

const HOUR: Duration = Duration::from_secs(3600);

#[test]
fn an_error_ends_all_cores() {
    let began = Instant::now();
    let told = Executor::builder().cores(3).run(|here| async move {
        if here.core() == 1 {
            return Err(io::Error::other("the port is taken"));
        }
        // It would wait for core 1.
        here.barrier().await;
        spawn_local(Queue::FIRST, sleep(HOUR)).await.map_err(io::Error::other)
    });
    assert!(matches!(&told, Err(Error::Begin(error)) if error.is::<io::Error>()), "{told:?}");
    assert_eq!(told.unwrap_err().to_string(), "the port is taken");
    assert!(began.elapsed() < Duration::from_secs(60));
}

#[test]
fn the_first_error_is_told() {
    let told = Executor::builder().run(|_| async { Err::<(), _>("one") }).unwrap_err();
    assert_eq!(told.to_string(), "one");
    let told = Executor::builder().cores(2).run(|here| async move {
        if here.core() == 1 {
            sleep(HOUR).await;
        }
        Err::<(), _>(format!("core {}", here.core()))
    });
    assert_eq!(told.unwrap_err().to_string(), "core 0");
}

#[test]
fn a_panic_goes_on_where_the_executor_was_run() {
    static DROPPED: AtomicU32 = AtomicU32::new(0);
    struct Dropped;
    impl Drop for Dropped {
        fn drop(&mut self) {
            DROPPED.fetch_add(1, SeqCst);
        }
    }
    let told = catch_unwind(|| {
        Executor::builder().cores(2).run(|here| async move {
            let held = Dropped;
            spawn_local(Queue::FIRST, async move {
                let _held = held;
                sleep(HOUR).await;
            });
            assert!(here.core() == 1, "as it should");
            sleep(HOUR).await;
        })
    });
    assert_eq!(told.unwrap_err().downcast_ref(), Some(&"as it should"));
    assert_eq!(DROPPED.load(SeqCst), 2);
}

#[test]
fn a_future_that_is_dropped_is_no_error() {
    let report = Executor::builder().cores(2).journal(Journal::Keep).run(|here| async move {
        if here.core() == 0 {
            stop(Duration::from_millis(20));
        }
        stopping().await;
        sleep(HOUR).await;
        Err::<(), _>("nobody comes here")
    });
    assert!(report.unwrap().is_sound());
}

// The journal of core 1 gets full, and then core 1 fails. Threads that are no cores wait for a call and for a message.
#[test]
fn who_waits_for_a_core_that_fails_is_told() {
    let (tells, told) = mpsc::channel();
    let (sender, receiver) = chan::across::<()>(1);
    let run = Executor::builder().cores(2).places(8).journal(Journal::Keep).notes(400).run(|here| {
        let (tells, sender) = (tells.clone(), sender.clone());
        async move {
            if here.core() == 1 {
                // It never sends.
                spawn_local(Queue::FIRST, async move {
                    let _sender = sender;
                    pending::<()>().await
                });
                // The thread that calls has begun.
                here.barrier().await;
                loop {
                    yield_now().await;
                }
            }
            let handle = here.handle();
            std::thread::spawn(move || {
                let call = block_on(handle.submit(1, Queue::FIRST, pending::<()>));
                // The core has ended by now.
                let later = block_on(handle.submit(1, Queue::FIRST, pending::<()>));
                tells.send((call, later, block_on(handle.set_shares(1, Queue::FIRST, 500))))
            });
            here.barrier().await;
            pending::<()>().await
        }
    });
    assert!(matches!(run, Err(Error::Library(fairexec::Error::JournalFull))), "{run:?}");
    drop(sender);
    let dropped = Err(CallError::Dropped);
    assert_eq!(told.recv_timeout(Duration::from_secs(60)), Ok((dropped, dropped, dropped)));
    assert!(block_on(receiver.recv()).is_err());
}

// A panic of what the host gave the runtime ends the thread of a core in the middle of a round. A task that has the sender is inside, and didn't run.
#[test]
fn who_waits_for_a_core_that_panics_is_told() {
    let (sender, receiver) = chan::across::<()>(1);
    let told = catch_unwind(std::panic::AssertUnwindSafe(|| {
        let builder = Executor::builder().cores(2).slow_poll(Duration::from_secs(1), |_| panic!("as it should"));
        builder.run(|here| {
            let sender = sender.clone();
            async move {
                if here.core() == 1 {
                    spawn_local(Queue::FIRST, async move {
                        let _sender = sender;
                        pending::<()>().await
                    });
                    // The round is over, and the next one begins with this task.
                    std::thread::sleep(Duration::from_millis(1));
                    yield_now().await;
                    std::thread::sleep(Duration::from_millis(1100));
                }
                pending::<()>().await
            }
        })
    }));
    assert_eq!(told.unwrap_err().downcast_ref(), Some(&"as it should"));
    drop(sender);
    assert!(block_on(receiver.recv()).is_err());
}
