//! Tasks of one core: they run by shares, wait, end, panic and are aborted.

use fairexec_rt::{interval, ran_for, sleep, spawn_local, timeout, yield_if_needed, yield_now, Elapsed, Executor, Journal, Queue};
use std::cell::{Cell, RefCell};
use std::rc::Rc;
use std::sync::atomic::{AtomicU64, Ordering};
use std::sync::{Arc, Mutex};
use std::time::{Duration, Instant};

const BACKGROUND: Queue = Queue::new(1);

#[test]
fn tasks_end_with_what_they_came_to() {
    let report = Executor::builder()
        .journal(Journal::Keep)
        .run(|_| async {
            let shared = Rc::new(Cell::new(0));
            let adds: Vec<_> = (1..=100)
                .map(|it| {
                    let shared = Rc::clone(&shared);
                    spawn_local(Queue::FIRST, async move {
                        yield_now().await;
                        shared.set(shared.get() + it);
                        it
                    })
                })
                .collect();
            let mut sum = 0;
            for add in adds {
                sum += add.await.unwrap();
            }
            assert_eq!((sum, shared.get()), (5050, 5050));
        })
        .unwrap();
    assert!(report.is_sound());
    assert!(report.journal.unwrap().starts_with("journal 1\ncores 1 cap "));
    // Each yield ends a turn.
    assert!(report.cores[0].turns > 100);
}

#[test]
fn a_panic_ends_its_task_alone() {
    Executor::builder()
        .run(|_| async {
            let panics = spawn_local(Queue::FIRST, async { panic!("as it should") });
            let payload = panics.await.unwrap_err().into_panic().expect("it panics");
            assert_eq!(*payload.downcast_ref::<&str>().unwrap(), "as it should");
            assert_eq!(spawn_local(Queue::FIRST, async { 7 }).await.unwrap(), 7);
        })
        .unwrap();
}

struct Dropped(Arc<AtomicU64>);

impl Drop for Dropped {
    fn drop(&mut self) {
        self.0.fetch_add(1, Ordering::SeqCst);
    }
}

#[test]
fn what_is_left_is_dropped() {
    let dropped = Arc::new(AtomicU64::new(0));
    let counts = Arc::clone(&dropped);
    let report = Executor::builder()
        .journal(Journal::Keep)
        .queue("first", 1000)
        .queue("background", 10)
        .run(move |_| {
            let counts = Arc::clone(&counts);
            async move {
                for _ in 0..3000 {
                    let held = Dropped(Arc::clone(&counts));
                    spawn_local(Queue::FIRST, async move {
                        let _held = held;
                        sleep(Duration::from_secs(3600)).await;
                    });
                }
                for _ in 0..50 {
                    let held = Dropped(Arc::clone(&counts));
                    spawn_local(BACKGROUND, async move {
                        let _held = held;
                        loop {
                            yield_now().await;
                        }
                    });
                }
                // One that is aborted is dropped at its next turn.
                let held = Dropped(Arc::clone(&counts));
                let before = counts.load(Ordering::SeqCst);
                let aborted = spawn_local(Queue::FIRST, async move {
                    let _held = held;
                    sleep(Duration::from_secs(3600)).await;
                });
                yield_now().await;
                aborted.abort();
                sleep(Duration::from_millis(20)).await;
                assert_eq!(counts.load(Ordering::SeqCst), before + 1);
            }
        })
        .unwrap();
    assert_eq!(dropped.load(Ordering::SeqCst), 3051);
    assert!(report.is_sound());
}

#[test]
fn a_handle_tells_whether_its_task_has_ended() {
    let kept = Arc::new(Mutex::new(None));
    let keeps = Arc::clone(&kept);
    let run = Executor::builder().run(move |_| {
        let keeps = Arc::clone(&keeps);
        async move {
            let ends = spawn_local(Queue::FIRST, async { 42 });
            let panics = spawn_local(Queue::FIRST, async { panic!("it ends alone") });
            let waits = spawn_local(Queue::FIRST, std::future::pending::<()>());
            assert!(!ends.is_finished() && !panics.is_finished());
            while !(ends.is_finished() && panics.is_finished()) {
                yield_now().await;
            }
            assert!(!waits.is_finished());
            assert!(ends.await.unwrap() == 42 && panics.await.unwrap_err().is_panic());
            *keeps.lock().unwrap() = Some(waits);
        }
    });
    run.unwrap();
    // It was dropped as its core ended.
    assert!(kept.lock().unwrap().take().unwrap().is_finished());
}

/// What a queue has of the time, ten to one beside another, in a run of a second.
fn part_of_ten_to_one() -> f64 {
    let report = Executor::builder()
        .queue("first", 1000)
        .queue("background", 100)
        .run(|_| async {
            let end = Instant::now() + Duration::from_secs(1);
            let works = |queue| {
                spawn_local(queue, async move {
                    while Instant::now() < end {
                        yield_if_needed().await;
                    }
                })
            };
            let all: Vec<_> = (0..8).map(|it| works(if it == 0 { Queue::FIRST } else { BACKGROUND })).collect();
            for it in all {
                it.await.unwrap();
            }
        })
        .unwrap();
    let [first, background] = [0, 1].map(|it| report.cores[0].queues[it].time.as_secs_f64());
    assert_eq!(report.cores[0].queues[1].name, "background");
    first / (first + background)
}

#[test]
fn queues_have_time_by_their_shares() {
    // Ten to one, except for the last run, which a busy machine may set aside for long. So the middle of five runs tells.
    let mut parts: Vec<_> = (0..5).map(|_| part_of_ten_to_one()).collect();
    parts.sort_by(f64::total_cmp);
    assert!((0.86..0.95).contains(&parts[2]), "{parts:?}");
}

#[test]
fn timers_are_not_early_and_not_very_late() {
    Executor::builder()
        .run(|_| async {
            let order = Rc::new(RefCell::new(Vec::new()));
            let waits: Vec<_> = [30, 10, 20]
                .into_iter()
                .map(|time| {
                    let order = Rc::clone(&order);
                    spawn_local(Queue::FIRST, async move {
                        let began = Instant::now();
                        sleep(Duration::from_millis(time)).await;
                        assert!(began.elapsed() >= Duration::from_millis(time) - Duration::from_micros(200));
                        order.borrow_mut().push(time);
                    })
                })
                .collect();
            for it in waits {
                it.await.unwrap();
            }
            assert_eq!(*order.borrow(), [10, 20, 30]);
            assert_eq!(timeout(Duration::from_millis(5), std::future::pending::<()>()).await, Err(Elapsed));
            assert_eq!(timeout(Duration::from_secs(5), async { 3 }).await, Ok(3));
            let (began, mut ticks) = (Instant::now(), interval(Duration::from_millis(4)));
            for _ in 0..5 {
                ticks.tick().await;
            }
            assert!(began.elapsed() >= Duration::from_millis(19), "{:?}", began.elapsed());
        })
        .unwrap();
}

#[test]
fn slow_runs_are_told() {
    let told = Arc::new(Mutex::new(Vec::new()));
    let keeps = Arc::clone(&told);
    Executor::builder()
        .queue("only", 1000)
        .slow_poll(Duration::from_millis(5), move |it| keeps.lock().unwrap().push((it.core, it.name, it.ran)))
        .run(|_| async {
            yield_now().await;
            std::thread::sleep(Duration::from_millis(8));
            assert!(ran_for() >= Duration::from_millis(7));
            yield_now().await;
        })
        .unwrap();
    let told = told.lock().unwrap();
    assert!(told.iter().any(|(core, name, ran)| (*core, name.as_str()) == (0, "only") && *ran >= Duration::from_millis(7)), "{told:?}");
}

#[test]
fn wrong_setups_are_told() {
    let refused = |builder: fairexec_rt::Builder| builder.run(|_| async {}).unwrap_err().to_string();
    assert_eq!(refused(Executor::builder().cores(17)), "an executor has 1 to 16 cores, and not 17");
    assert_eq!(refused(Executor::builder().queue("none", 0)), "shares are 1 to 10000, and not 0 (none)");
    assert_eq!(refused(Executor::builder().places(1)), "a link has 2 to 1024 places, and not 1");
    assert_eq!(refused(Executor::builder().notes(100)), "a journal wants 64 notes more than a link has places (512)");
}

#[test]
fn a_journal_that_is_kept_and_full_ends_the_run() {
    async fn for_ever() {
        loop {
            yield_now().await;
        }
    }
    let told = Executor::builder().places(8).journal(Journal::Keep).notes(200).run(|_| for_ever());
    assert_eq!(told.unwrap_err().to_string(), format!("the library: {}", fairexec::Error::JournalFull));
}

#[test]
fn the_newest_notes_are_told() {
    let run = |journal| {
        let report = Executor::builder().cores(2).places(8).journal(journal).run(|_| async {
            for _ in 0..500 {
                yield_now().await;
            }
        });
        report.unwrap()
    };
    assert!(run(Journal::Off).newest.is_empty());
    let newest = run(Journal::Last(100)).newest;
    assert_eq!(newest.iter().map(|it| it.lines().count()).collect::<Vec<_>>()[..2], [100, 100]);
    let all = run(Journal::Last(usize::MAX)).newest;
    assert_eq!(all.len(), 3);
    assert!(all[0].lines().count() > 1500 && all[0].lines().all(|it| it.starts_with("0 ")), "{}", all[0]);
}

/// How many notes the parts of a core have, and how many bytes of one that isn't whole yet. A part says whose it is, how many notes came before, how
/// many it has, and how many bytes these have.
fn notes_in(core: usize, mut rest: &[u8]) -> (u64, usize) {
    let mut notes = 0;
    while rest.len() > 29 {
        let [before, count, size] = [5, 13, 21].map(|at| u64::from_le_bytes(rest[at..at + 8].try_into().unwrap()));
        assert!(rest[..5] == *b"fxp1".iter().chain(&[core as u8]).copied().collect::<Vec<_>>() && before == notes && count > 0);
        let Some(behind) = rest.get(45 + size as usize..) else { break };
        (notes, rest) = (notes + count, behind);
    }
    (notes, rest.len())
}

#[test]
fn parts_have_every_note() {
    let folder = std::env::temp_dir().join(format!("fairexec-rt-parts-{}", std::process::id()));
    let report = Executor::builder().cores(2).journal(Journal::Parts(folder.clone())).run(|_| async {
        for _ in 0..500 {
            yield_now().await;
        }
    });
    let report = report.unwrap();
    let files: Vec<_> = report.parts.iter().map(|it| std::fs::read(it).unwrap()).collect();
    assert_eq!((files.len(), files[0].as_slice()), (4, b"fxh1\x02\x01\x00\x02".as_slice()));
    for core in 0..2 {
        let part = files[core + 1].as_slice();
        assert!(report.cores[core].journal_bytes <= part.len() as u64);
        let (notes, left) = notes_in(core, part);
        assert!(notes > 1500 && left == 0);
    }
    std::fs::remove_dir_all(folder).unwrap();
}

// Core 1 makes fewer notes than go on at once, and sleeps then.
#[test]
fn parts_grow_while_a_core_sleeps_and_have_an_end_behind_the_run() {
    let folder = std::env::temp_dir().join(format!("fairexec-rt-end-{}", std::process::id()));
    let (part, end) = (folder.join("part1"), folder.join("end"));
    // The second run finds what the first one left.
    for _ in 0..2 {
        let report = Executor::builder().cores(2).journal(Journal::Parts(folder.clone())).run(|here| {
            let (part, end) = (part.clone(), end.clone());
            async move {
                assert!(!end.exists());
                if here.core() == 1 {
                    for _ in 0..100 {
                        yield_now().await;
                    }
                    here.barrier().await;
                    return here.barrier().await;
                }
                here.barrier().await;
                let began = Instant::now();
                while notes_in(1, &std::fs::read(&part).unwrap()).0 < 300 {
                    assert!(began.elapsed() < Duration::from_secs(20));
                    sleep(Duration::from_millis(20)).await;
                }
                assert!(!end.exists());
                here.barrier().await;
            }
        });
        let report = report.unwrap();
        assert_eq!(std::fs::read_to_string(&end).unwrap(), "end\n");
        assert_eq!(report.parts.len(), 4);
        let (notes, left) = notes_in(1, &std::fs::read(&part).unwrap());
        assert!((300..1024).contains(&notes) && left == 0, "{notes}");
    }
    std::fs::remove_dir_all(folder).unwrap();
}
