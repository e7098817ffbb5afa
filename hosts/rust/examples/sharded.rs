//! A key-value store sharded over the cores of a house. Each core has a thread, and a part of the keys in a map without a lock. Requests have
//! 900 shares of a core, and the compaction of its log has 100. Clients are tasks on all cores: each sends its requests to the core of their
//! key, as tasks of their own, and awaits the answers. At the end it tells the shares, the waits and the audit's verdict.
//!
//!     cargo run --release --offline --example sharded [ROUNDS]

use fairexec::linked::{spawn, yield_now, Answer, Config, Core, House, Outcome, Outside, Task, Ticket};
use fairexec::{Error, Mode};
use std::cell::RefCell;
use std::collections::HashMap;
use std::thread;
use std::time::{Duration, Instant};

const CORES: u32 = 2;
const CLIENTS: u64 = 8;
const KEYS: u64 = 250;
/// How often each key is put and asked for, if that isn't told.
const ROUNDS: u64 = 6;
const REQUESTS: u32 = 0;
const COMPACTION: u32 = 1;
/// How many requests a client has outstanding.
const WINDOW: u64 = 25;

/// A core's part of the store: each entry that was put, in order, and where the last one of each key stands.
#[derive(Default)]
struct Part {
    log: Vec<(u64, u64)>,
    index: HashMap<u64, usize>,
    is_compacting: bool,
    compactions: u64,
    waits: Vec<Duration>,
}

thread_local!(static PART: RefCell<Part> = RefCell::default());

fn core_of(key: u64) -> u32 {
    (key % u64::from(CORES)) as u32
}

/// A request puts a value, or asks for one. It runs on the core of its key, and starts a compaction if half of the log is overwritten.
fn answer(key: u64, value: Option<u64>, since: Instant) -> Option<u64> {
    PART.with_borrow_mut(|part| {
        part.waits.push(since.elapsed());
        let Some(value) = value else { return part.index.get(&key).map(|&at| part.log[at].1) };
        part.index.insert(key, part.log.len());
        part.log.push((key, value));
        if part.log.len() > 2 * part.index.len() && !part.is_compacting {
            part.is_compacting = true;
            spawn(core_of(key), COMPACTION, compact());
        }
        Some(value)
    })
}

/// Drops overwritten entries from the log, some at each run.
async fn compact() {
    let (mut fresh, mut moved, mut at) = (Vec::new(), HashMap::new(), 0);
    loop {
        let is_over = PART.with_borrow_mut(|part| {
            for _ in 0..16 {
                let Some(&(key, value)) = part.log.get(at) else {
                    part.log = std::mem::take(&mut fresh);
                    part.index = std::mem::take(&mut moved);
                    part.is_compacting = false;
                    part.compactions += 1;
                    return true;
                };
                if part.index.get(&key) == Some(&at) {
                    moved.insert(key, fresh.len());
                    fresh.push((key, value));
                }
                at += 1;
            }
            false
        });
        if is_over {
            return;
        }
        yield_now().await;
    }
}

/// Puts the keys of this client and gets them. The answer: how many answers were right.
async fn client(number: u64, rounds: u64) -> u64 {
    let mut right = 0;
    for round in 0..rounds {
        for is_put in [true, false] {
            for first in (0..KEYS).step_by(WINDOW as usize) {
                let asked: Vec<_> = (first..first + WINDOW)
                    .map(|each| {
                        let (key, since) = (number * KEYS + each, Instant::now());
                        let value = key * 7 + round;
                        let put = is_put.then_some(value);
                        (value, spawn(core_of(key), REQUESTS, async move { answer(key, put, since) }))
                    })
                    .collect();
                for (value, told) in asked {
                    right += u64::from(told.await == Ok(Some(value)));
                }
            }
        }
    }
    right
}

fn tell(core: &mut Core<Task>) -> Result<(), Error> {
    let times = [core.stats_of(REQUESTS)?.time as f64, core.stats_of(COMPACTION)?.time as f64];
    let all = times[0] + times[1];
    let (number, first, second) = (core.number(), 100.0 * times[0] / all, 100.0 * times[1] / all);
    PART.with_borrow(|part| {
        let count = part.waits.len().max(1) as f64;
        let average = part.waits.iter().sum::<Duration>().as_secs_f64() * 1e6 / count;
        let longest = part.waits.iter().max().map_or(0.0, Duration::as_secs_f64) * 1e6;
        println!("core {number}: requests {first:.1} % of the time, compaction {second:.1} %; {count} requests waited {average:.1} us on average and {longest:.1} us at most; {} compactions", part.compactions);
    });
    Ok(())
}

fn serve(mut core: Core<Task>) -> Result<Core<Task>, Error> {
    core.run_tasks()?;
    tell(&mut core)?;
    Ok(core)
}

/// Makes the queues of a core.
fn make_queues(outside: &mut Outside<Task>, core: u32) -> Result<(), Error> {
    let shares = outside.set_shares(core, REQUESTS, 900)?;
    let queue = outside.create(core, 100)?;
    assert!(matches!(outside.wait_for(&shares)?, Outcome::Answered(Answer::SharesSet)));
    assert!(matches!(outside.wait_for(&queue)?, Outcome::Answered(Answer::Created(COMPACTION))));
    Ok(())
}

fn main() -> Result<(), Error> {
    let rounds = std::env::args().nth(1).map_or(ROUNDS, |it| it.parse().expect("a number of rounds"));
    let (house, cores, mut outside) = House::open(&Config { cores: CORES, places: 256, ..Config::default() })?;
    let threads: Vec<_> = cores.into_iter().map(|core| thread::spawn(|| serve(core))).collect();
    for core in 0..CORES {
        make_queues(&mut outside, core)?;
    }
    let clients: Vec<(Ticket, _)> = (0..CLIENTS).map(|number| outside.spawn(core_of(number), REQUESTS, client(number, rounds))).collect::<Result<_, _>>()?;
    let mut right = 0;
    for (ticket, join) in &clients {
        assert!(matches!(outside.wait_for(ticket)?, Outcome::Done(_)));
        right += join.take().and_then(Result::ok).unwrap_or(0);
    }
    outside.close_all(Mode::Finish)?;
    let cores = threads.into_iter().map(|it| it.join().expect("a core ends")).collect::<Result<_, _>>()?;
    let verdict = house.end(cores, outside).map_err(|(error, ..)| error)?.audit()?;
    let all = 2 * CLIENTS * KEYS * rounds;
    println!("{right} of {all} answers were right, and the journals are {}", if verdict.is_sound { "sound" } else { "not sound" });
    assert!(right == all && verdict.is_sound);
    Ok(())
}
