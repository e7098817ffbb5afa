//! Logs: what was appended is there at the next start, up to where a crash tore it, and a compaction changes nothing of what they say.

use fairexec_rt::fs::{Fsync, Log};
use fairexec_rt::{sleep, spawn_local, stop, yield_now, Executor, Queue};
use std::cell::{Cell, RefCell};
use std::collections::BTreeMap;
use std::future::Future;
use std::path::{Path, PathBuf};
use std::rc::Rc;
use std::time::Duration;

const COMPACTION: Queue = Queue::new(1);

/// Runs a future on one core, with a folder that is gone afterwards.
fn with_folder<F: Future<Output = ()> + 'static>(name: &str, run: impl Fn(PathBuf) -> F + Send + Sync) {
    let folder = std::env::temp_dir().join(format!("fairexec-rt-{name}-{}", std::process::id()));
    let _ = std::fs::remove_dir_all(&folder);
    let told = Executor::builder().queue("requests", 1000).queue("compaction", 100).run(|_| run(folder.clone()));
    std::fs::remove_dir_all(&folder).unwrap();
    told.unwrap();
}

async fn records(folder: &Path) -> (Vec<Vec<u8>>, u64) {
    let mut all = Vec::new();
    let (_, torn) = Log::open(Queue::FIRST, folder, Fsync::Never, |it| all.push(it.to_vec())).await.unwrap();
    (all, torn)
}

/// A record of some length, by its number.
fn record(number: usize) -> Vec<u8> {
    vec![number as u8; number * 7 % 40]
}

#[test]
fn a_torn_tail_is_cut_off_at_each_byte() {
    with_folder("torn", |folder| async move {
        let (log, _) = Log::open(Queue::FIRST, folder.join("whole"), Fsync::Always, |_| {}).await.unwrap();
        let mut ends = vec![0];
        for number in 0..20 {
            log.append(&[&record(number)]);
            ends.push(log.len());
        }
        log.safe().await.unwrap();
        let bytes = std::fs::read(folder.join("whole/1")).unwrap();
        assert_eq!(bytes.len() as u64, log.len());
        for cut in 0..=bytes.len() {
            let torn = folder.join("torn");
            std::fs::create_dir_all(&torn).unwrap();
            std::fs::write(torn.join("1"), &bytes[..cut]).unwrap();
            let whole = ends.iter().filter(|it| **it <= cut as u64).count() - 1;
            let mut wanted: Vec<_> = (0..whole).map(record).collect();
            assert_eq!(records(&torn).await, (wanted.clone(), cut as u64 - ends[whole]));
            // It goes on behind that.
            let (log, _) = Log::open(Queue::FIRST, &torn, Fsync::Never, |_| {}).await.unwrap();
            log.append(&[b"be", b"hind"]);
            log.sync().await.unwrap();
            drop(log);
            wanted.push(b"behind".to_vec());
            assert_eq!(records(&torn).await, (wanted, 0));
        }
    });
}

#[test]
fn a_record_that_changed_is_no_record() {
    with_folder("changed", |folder| async move {
        let (log, _) = Log::open(Queue::FIRST, &folder, Fsync::Always, |_| {}).await.unwrap();
        (0..9).for_each(|it| log.append(&[&record(it)]));
        log.safe().await.unwrap();
        drop(log);
        let mut bytes = std::fs::read(folder.join("1")).unwrap();
        let at = 8 * 5 + (0..5).map(|it| record(it).len()).sum::<usize>();
        bytes[at + 10] ^= 1;
        std::fs::write(folder.join("1"), &bytes).unwrap();
        assert_eq!(records(&folder).await.0, (0..5).map(record).collect::<Vec<_>>());
        // Nor are zeroes, which a crash may leave behind the end.
        std::fs::write(folder.join("1"), [0; 4096]).unwrap();
        assert_eq!(records(&folder).await, (Vec::new(), 4096));
    });
}

#[test]
fn long_records_and_many_who_wait() {
    with_folder("long", |folder| async move {
        let (log, _) = Log::open(Queue::FIRST, &folder, Fsync::Always, |_| {}).await.unwrap();
        let tasks: Vec<_> = (0..200_usize)
            .map(|number| {
                let log = log.clone();
                spawn_local(Queue::FIRST, async move {
                    for part in 0..5 {
                        let size = if number == 7 { 3 << 20 } else { number };
                        log.append(&[&(number as u64).to_le_bytes(), &vec![part; size]]);
                        log.safe().await.unwrap();
                    }
                })
            })
            .collect();
        for it in tasks {
            it.await.unwrap();
        }
        drop(log);
        let (all, torn) = records(&folder).await;
        assert_eq!((all.len(), torn), (1000, 0));
        let parts: Vec<u8> = all.iter().filter(|it| it[..8] == 7_u64.to_le_bytes()).map(|it| *it.last().unwrap()).collect();
        assert_eq!(parts, [0, 1, 2, 3, 4]);
    });
}

type Numbers = BTreeMap<u8, u8>;

fn replay(numbers: &mut Numbers, record: &[u8]) {
    match record {
        [key, value] => _ = numbers.insert(*key, *value),
        [key] => _ = numbers.remove(key),
        _ => panic!("there is no such record"),
    }
}

async fn numbers(folder: &Path) -> Numbers {
    let mut all = Numbers::new();
    Log::open(Queue::FIRST, folder, Fsync::Never, |it| replay(&mut all, it)).await.unwrap();
    all
}

/// Compacts a log of numbers, unless it is to be broken off in the middle.
async fn compact(log: &Log, numbers: &RefCell<Numbers>, is_broken_off: bool) {
    let compaction = loop {
        // So many records that it pays.
        log.append(&[&[1, 1]]);
        numbers.borrow_mut().insert(1, 1);
        match log.compaction(0) {
            Some(it) => break it,
            None => yield_now().await,
        }
    };
    let mut new = compaction.begin(COMPACTION).await.unwrap();
    assert!(log.compaction(0).is_none(), "one goes on");
    for key in 0..=u8::MAX {
        if let Some(value) = numbers.borrow().get(&key) {
            new.append(&[&[key, *value]]);
        }
        new.step().await.unwrap();
        yield_now().await;
        if is_broken_off && key == 100 {
            return;
        }
    }
    new.end().await.unwrap();
}

#[test]
fn a_compaction_changes_nothing_of_what_a_log_says() {
    with_folder("compacted", |folder| async move {
        let (log, _) = Log::open(Queue::FIRST, &folder, Fsync::Always, |_| {}).await.unwrap();
        let wanted = Rc::new(RefCell::new(Numbers::new()));
        let is_paused = Rc::new(Cell::new(false));
        let (writes, told, pauses) = (log.clone(), Rc::clone(&wanted), Rc::clone(&is_paused));
        // They change while it is compacted.
        let changes = spawn_local(Queue::FIRST, async move {
            let mut dice = 88_172_645_463_325_252_u64;
            for _ in 0..20_000 {
                dice ^= dice << 13;
                dice ^= dice >> 7;
                dice ^= dice << 17;
                let (key, value) = (dice as u8, (dice >> 8) as u8);
                let record: &[u8] = if dice % 5 == 0 { &[key] } else { &[key, value] };
                writes.append(&[record]);
                replay(&mut told.borrow_mut(), record);
                yield_now().await;
                while pauses.get() {
                    sleep(Duration::from_micros(100)).await;
                }
            }
        });
        for round in 0..6 {
            is_paused.set(false);
            sleep(Duration::from_millis(3)).await;
            compact(&log, &wanted, round % 3 == 1).await;
            is_paused.set(true);
            log.sync().await.unwrap();
            let now = wanted.borrow().clone();
            assert_eq!(numbers_of_copy(&folder).await, now);
        }
        is_paused.set(false);
        changes.await.unwrap();
        log.safe().await.unwrap();
        assert_eq!(numbers_of_copy(&folder).await, *wanted.borrow());
        compact(&log, &wanted, false).await;
        assert!(log.len() <= 256 * 10, "{}", log.len());
        assert_eq!(numbers_of_copy(&folder).await, *wanted.borrow());
    });
}

/// What a start would find in the folder now.
async fn numbers_of_copy(folder: &Path) -> Numbers {
    let copy = folder.with_extension("copy");
    let _ = std::fs::remove_dir_all(&copy);
    std::fs::create_dir(&copy).unwrap();
    for it in std::fs::read_dir(folder).unwrap() {
        let it = it.unwrap();
        std::fs::copy(it.path(), copy.join(it.file_name())).unwrap();
    }
    let told = numbers(&copy).await;
    std::fs::remove_dir_all(&copy).unwrap();
    told
}

#[test]
fn what_nobody_waits_for_is_there_behind_a_stop() {
    for fsync in [Fsync::Always, Fsync::Every(Duration::from_secs(3600)), Fsync::Never] {
        let folder = std::env::temp_dir().join(format!("fairexec-rt-stopped-{}", std::process::id()));
        let at = folder.clone();
        let told = Executor::builder().run(move |_| {
            let folder = at.clone();
            async move {
                let (log, _) = Log::open(Queue::FIRST, &folder, fsync, |_| {}).await.unwrap();
                (0..1000).for_each(|it| log.append(&[&record(it)]));
                stop(Duration::from_secs(20));
            }
        });
        told.unwrap();
        let at = folder.clone();
        let told = Executor::builder().run(move |_| {
            let folder = at.clone();
            async move { assert_eq!(records(&folder).await.0, (0..1000).map(record).collect::<Vec<_>>()) }
        });
        told.unwrap();
        std::fs::remove_dir_all(folder).unwrap();
    }
}

#[test]
fn a_folder_has_one_log() {
    with_folder("busy", |folder| async move {
        let (log, _) = Log::open(Queue::FIRST, &folder, Fsync::Never, |_| {}).await.unwrap();
        log.append(&[b"kept"]);
        let told = Log::open(Queue::FIRST, &folder, Fsync::Never, |_| unreachable!()).await.err().unwrap();
        assert_eq!((told.kind(), told.to_string().as_str()), (std::io::ErrorKind::WouldBlock, "another log has this folder"));
        log.sync().await.unwrap();
        drop(log);
        assert_eq!(records(&folder).await, (vec![b"kept".to_vec()], 0));
    });
}
