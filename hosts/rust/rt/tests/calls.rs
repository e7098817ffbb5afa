//! Calls between cores, and the end of all.

use fairexec_rt::{fs, set_shares, sleep, spawn_local, stats, stop, stopping, submit, try_submit, yield_now, CallError, Executor, Journal, Queue};
use std::future::poll_fn;
use std::rc::Rc;
use std::sync::atomic::{AtomicBool, AtomicU64, Ordering};
use std::sync::{mpsc, Arc, Mutex};
use std::task::{Context, Poll, Waker};
use std::thread;
use std::time::{Duration, Instant};

const BACKGROUND: Queue = Queue::new(1);

#[test]
fn calls_are_answered() {
    let report = Executor::builder()
        .cores(3)
        .journal(Journal::Keep)
        .run(|here| async move {
            let cores = here.cores();
            let calls: Vec<_> = (0..2000u64)
                .map(|it| {
                    submit((it % u64::from(cores)) as u32, Queue::FIRST, move || async move {
                        let local = Rc::new(it);
                        yield_now().await;
                        *local * 2
                    })
                })
                .collect();
            let mut sum = 0;
            for call in calls {
                sum += call.await.unwrap();
            }
            assert_eq!(sum, 2000 * 1999);
        })
        .unwrap();
    assert!(report.is_sound());
}

#[test]
fn a_call_that_panics_or_is_given_up_is_told() {
    let ran = Arc::new(AtomicU64::new(0));
    let counts = Arc::clone(&ran);
    Executor::builder()
        .cores(2)
        .run(move |here| {
            let counts = Arc::clone(&counts);
            async move {
                if here.core() == 1 {
                    return;
                }
                let panics = submit(1, Queue::FIRST, || async { panic!("as it should") });
                assert_eq!(panics.await, Err::<(), _>(CallError::Panicked));
                // It waits for ever, unless it is given up.
                let alive = Arc::new(());
                let held = Arc::clone(&alive);
                let call = submit(1, Queue::FIRST, move || async move {
                    let _held = held;
                    std::future::pending::<()>().await;
                });
                sleep(Duration::from_millis(10)).await;
                assert_eq!(Arc::strong_count(&alive), 2);
                drop(call);
                sleep(Duration::from_millis(10)).await;
                assert_eq!(Arc::strong_count(&alive), 1);
                // One that is given up before it begins isn't made.
                let counts_it = Arc::clone(&counts);
                drop(submit(1, Queue::FIRST, move || async move {
                    counts_it.fetch_add(1, Ordering::SeqCst);
                }));
                sleep(Duration::from_millis(10)).await;
            }
        })
        .unwrap();
    assert_eq!(ran.load(Ordering::SeqCst), 0);
}

#[test]
fn a_call_that_keeps_the_waker_of_its_first_poll_is_woken() {
    let (sender, receiver) = mpsc::channel::<(Arc<AtomicBool>, Waker)>();
    let wakes = thread::spawn(move || {
        for (number, (may_go, waker)) in receiver.into_iter().enumerate() {
            // Mostly it comes beside the polls, and at times far behind them.
            thread::sleep(Duration::from_micros(if number % 64 == 0 { 500 } else { 0 }));
            may_go.store(true, Ordering::SeqCst);
            waker.wake();
        }
    });
    let call = |core: u32| {
        let (may_go, mut sender) = (Arc::new(AtomicBool::new(false)), Some(sender.clone()));
        let wait = move |cx: &mut Context<'_>| {
            sender.take().into_iter().for_each(|it| it.send((Arc::clone(&may_go), cx.waker().clone())).unwrap());
            may_go.load(Ordering::SeqCst).then_some(()).map_or(Poll::Pending, Poll::Ready)
        };
        submit(core, Queue::FIRST, || poll_fn(wait))
    };
    Executor::builder()
        .cores(2)
        .run(|here| {
            let calls: Vec<_> = (0..4000).map(|_| call(1 - here.core())).collect();
            async move {
                for call in calls {
                    call.await.unwrap();
                }
            }
        })
        .unwrap();
    drop(sender);
    wakes.join().unwrap();
}

#[test]
fn a_full_link_gives_the_function_back() {
    Executor::builder()
        .cores(2)
        .places(8)
        .run(|here| async move {
            if here.core() == 1 {
                return;
            }
            let mut calls = Vec::new();
            let full = loop {
                match try_submit(1, Queue::FIRST, || async { 1 }) {
                    Ok(call) => calls.push(call),
                    Err(full) => break full,
                }
            };
            assert_eq!((calls.len(), full.to_string().as_str()), (8, "the link to the core is full"));
            for call in calls {
                assert_eq!(call.await, Ok(1));
            }
            // The link has room again once the core has seen the outcomes.
            let mut told = try_submit(1, Queue::FIRST, full.0);
            while let Err(full) = told {
                yield_now().await;
                told = try_submit(1, Queue::FIRST, full.0);
            }
        })
        .unwrap();
}

/// Calls to core 1 that spin for 5 µs each, once they may go, where a slice is 1 µs: 300 in the first queue, and one in the other.
async fn spin_on_core_1(begun: &Arc<Mutex<Vec<u32>>>) {
    let may_go = Arc::new(AtomicBool::new(false));
    let call = |queue, number: u32| {
        let (begun, may_go) = (Arc::clone(begun), Arc::clone(&may_go));
        submit(1, queue, move || async move {
            while !may_go.load(Ordering::SeqCst) {
                std::hint::spin_loop();
            }
            let began = Instant::now();
            while began.elapsed() < Duration::from_micros(5) {}
            begun.lock().unwrap().push(number);
        })
    };
    let calls: Vec<_> = (0..300).map(|it| call(Queue::FIRST, it)).chain([call(BACKGROUND, 300)]).collect();
    // By then they are in the link.
    sleep(Duration::from_millis(1)).await;
    may_go.store(true, Ordering::SeqCst);
    for call in calls {
        call.await.unwrap();
    }
}

#[test]
fn calls_that_go_together_begin_in_their_order_and_let_another_queue_run() {
    let begun = Arc::new(Mutex::new(Vec::new()));
    let tells = Arc::clone(&begun);
    let server = Executor::builder().cores(2).queue("requests", 1000).slice(Duration::from_micros(1)).queue("background", 1000);
    let report = server.journal(Journal::Keep).run(move |here| {
        let begun = Arc::clone(&tells);
        async move {
            if here.core() == 0 {
                spin_on_core_1(&begun).await;
            }
        }
    });
    assert!(report.unwrap().is_sound());
    let begun = begun.lock().unwrap();
    assert!(begun.iter().position(|it| *it == 300).unwrap() < 100, "{begun:?}");
    assert!(begun.iter().filter(|it| **it < 300).copied().eq(0..300), "{begun:?}");
}

#[test]
fn a_stop_leaves_tasks_their_grace() {
    let began = Instant::now();
    let ended = Arc::new(AtomicU64::new(0));
    let counts = Arc::clone(&ended);
    let report = Executor::builder()
        .cores(2)
        .journal(Journal::Keep)
        .run(move |here| {
            let counts = Arc::clone(&counts);
            async move {
                let quick = Arc::clone(&counts);
                spawn_local(Queue::FIRST, async move {
                    stopping().await;
                    sleep(Duration::from_millis(50)).await;
                    quick.fetch_add(1, Ordering::SeqCst);
                });
                spawn_local(Queue::FIRST, async {
                    sleep(Duration::from_secs(3600)).await;
                });
                if here.core() == 0 {
                    sleep(Duration::from_millis(20)).await;
                    stop(Duration::from_millis(300));
                }
                stopping().await;
            }
        })
        .unwrap();
    assert_eq!(ended.load(Ordering::SeqCst), 2);
    // Far less than the hour, also where much else runs.
    let took = began.elapsed();
    assert!((Duration::from_millis(300)..Duration::from_secs(60)).contains(&took), "{took:?}");
    assert!(report.is_sound());
}

#[test]
fn a_stop_ends_once_nothing_is_left() {
    let began = Instant::now();
    Executor::builder()
        .cores(4)
        .stop_on_signals(Duration::from_secs(60))
        .run(|here| async move {
            if here.core() == 0 {
                stop(Duration::from_secs(60));
            }
            stopping().await;
            let next = (here.core() + 1) % 4;
            spawn_local(Queue::FIRST, async move {
                for _ in 0..20 {
                    submit(next, Queue::FIRST, || async { sleep(Duration::from_millis(1)).await }).await.unwrap();
                }
            });
        })
        .unwrap();
    assert!(began.elapsed() < Duration::from_secs(20));
}

#[test]
fn shares_change_and_statistics_are_told() {
    Executor::builder()
        .cores(2)
        .places(4)
        .queue("first", 1000)
        .queue("background", 100)
        .run(|here| async move {
            assert_eq!(here.queue("background"), Some(BACKGROUND));
            if here.core() == 1 {
                return;
            }
            // These are more orders than the link has places.
            let orders: Vec<_> = (700..=777).map(|it| set_shares(1, BACKGROUND, it)).collect();
            for it in orders {
                it.await.unwrap();
            }
            sleep(Duration::from_millis(60)).await;
            // A core tells its statistics each 20 ms.
            assert_eq!(stats()[1].queues[1].shares, 777);
            assert_eq!(here.handle().stats().len(), 2);
        })
        .unwrap();
}

#[test]
fn other_threads_call_and_wake() {
    Executor::builder()
        .cores(2)
        .run(|here| async move {
            let handle = here.handle();
            let sum = fs::unblock(move || {
                (0..500u64)
                    .map(|it| futures_lite::future::block_on(handle.submit((it % 2) as u32, Queue::FIRST, move || async move { it })).unwrap())
                    .sum::<u64>()
            });
            assert_eq!(sum.await, 499 * 250);
        })
        .unwrap();
}
