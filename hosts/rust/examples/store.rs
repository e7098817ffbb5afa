//! A key-value store on two cores. Each core has a thread, and a part of the keys in a map without a lock. Reads and writes have 900 shares
//! of the core, and the compaction of its log has 100. Clients are threads, which send their requests to the core of their key.
//!
//!     cargo run --release --offline --example store [ROUNDS]

use fairexec::{House, Job, Mode, Step, Turn};
use std::cell::RefCell;
use std::collections::HashMap;
use std::sync::mpsc::{channel, Receiver, RecvTimeoutError, Sender, TryRecvError};
use std::thread;
use std::time::{Duration, Instant};

const CORES: u64 = 2;
const CLIENTS: u64 = 4;
const KEYS: u64 = 500;
/// How often each key is put and asked for, if that isn't told.
const ROUNDS: u64 = 6;
const REQUESTS: u32 = 0;
/// How many requests a client has outstanding.
const WINDOW: u64 = 50;

enum Order {
    Put(u64, u64),
    Get(u64),
}

/// What a client asks, when it did, and where it waits for the answer: the key and its value, if there is one.
struct Request {
    order: Order,
    since: Instant,
    answers: Sender<(u64, Option<u64>)>,
}

/// A core's part of the store: each entry that was put, in order, and where the last one of each key stands.
#[derive(Default)]
struct Part {
    log: Vec<(u64, u64)>,
    index: HashMap<u64, usize>,
    fresh: Vec<(u64, u64)>,
    moved: HashMap<u64, usize>,
    compacted: usize,
    is_compacting: bool,
    compactions: u64,
    waits: Vec<Duration>,
}

thread_local!(static PART: RefCell<Part> = RefCell::default());

impl Part {
    fn put(&mut self, key: u64, value: u64) {
        self.index.insert(key, self.log.len());
        self.log.push((key, value));
    }

    fn get(&self, key: u64) -> Option<u64> {
        Some(self.log[*self.index.get(&key)?].1)
    }

    /// Whether half of the log is overwritten, and nothing compacts it.
    fn wants_compaction(&self) -> bool {
        !self.is_compacting && self.log.len() > 2 * self.index.len()
    }

    /// Drops overwritten entries from the log, some at each run.
    fn compact(&mut self) -> Step {
        for _ in 0..16 {
            let Some(&(key, value)) = self.log.get(self.compacted) else {
                self.log = std::mem::take(&mut self.fresh);
                self.index = std::mem::take(&mut self.moved);
                self.compacted = 0;
                self.is_compacting = false;
                self.compactions += 1;
                return Step::Done;
            };
            if self.index.get(&key) == Some(&self.compacted) {
                self.moved.insert(key, self.fresh.len());
                self.fresh.push((key, value));
            }
            self.compacted += 1;
        }
        Step::Yield
    }

    fn answer(&mut self, request: &Request) {
        self.waits.push(request.since.elapsed());
        let (key, value) = match request.order {
            Order::Put(key, value) => {
                self.put(key, value);
                (key, Some(value))
            }
            Order::Get(key) => (key, self.get(key)),
        };
        // A client that ended wants no answer.
        let _ = request.answers.send((key, value));
    }
}

/// Each request is a job of one run, which starts a compaction if one is due.
fn job_of(request: Request, compaction: u32) -> Job {
    Job::new(move |cx| {
        PART.with_borrow_mut(|part| {
            part.answer(&request);
            if part.wants_compaction() {
                let job = Job::new(|_| PART.with_borrow_mut(Part::compact));
                part.is_compacting = cx.submit(compaction, job).is_ok();
            }
        });
        Step::Done
    })
}

/// Serves until no client is left. The thread waits only while its core is idle.
fn serve(core: u64, requests: &Receiver<Request>) -> Result<(), fairexec::Error> {
    let mut house = House::open(1024)?;
    house.set_shares(REQUESTS, 900)?;
    let compaction = house.create(100)?;
    let mut is_idle = true;
    let mut is_open = true;
    while is_open || !is_idle {
        let next = match requests.try_recv() {
            Err(TryRecvError::Empty) if is_idle => requests.recv_timeout(Duration::from_millis(10)).map_err(|it| it == RecvTimeoutError::Disconnected),
            other => other.map_err(|it| it == TryRecvError::Disconnected),
        };
        match next {
            Ok(request) => {
                let mut job = job_of(request, compaction);
                // A full core works first.
                while let Err((fairexec::Error::Full, refused)) = house.submit(REQUESTS, job) {
                    house.turn()?;
                    job = refused;
                }
            }
            Err(is_over) => is_open = !is_over,
        }
        is_idle = matches!(house.turn()?, Turn::Idle);
    }
    house.close(Mode::Finish)?;
    tell(core, &mut house, compaction)
}

fn tell(core: u64, house: &mut House<Job>, compaction: u32) -> Result<(), fairexec::Error> {
    let times = [house.stats_of(REQUESTS)?.time as f64, house.stats_of(compaction)?.time as f64];
    let all = times[0] + times[1];
    let (first, second) = (100.0 * times[0] / all, 100.0 * times[1] / all);
    PART.with_borrow(|part| {
        let count = part.waits.len().max(1) as f64;
        let average = part.waits.iter().sum::<Duration>().as_secs_f64() * 1e6 / count;
        let longest = part.waits.iter().max().map_or(0.0, Duration::as_secs_f64) * 1e6;
        println!("core {core}: requests {first:.1} % of the time, compaction {second:.1} %; {count} requests waited {average:.1} us on average and {longest:.1} us at most; {} compactions", part.compactions);
    });
    Ok(())
}

/// Puts the keys of this client and gets them. The answer: how many answers were right.
fn drive(client: u64, cores: &[Sender<Request>], rounds: u64) -> u64 {
    let (answers, answered) = channel();
    let value_of = |key: u64, round: u64| key * 7 + round;
    let mut right = 0;
    for round in 0..rounds {
        for is_put in [true, false] {
            let (mut sent, mut received) = (0, 0);
            while received < KEYS {
                while sent < KEYS && sent < received + WINDOW {
                    let key = client * KEYS + sent;
                    let order = if is_put { Order::Put(key, value_of(key, round)) } else { Order::Get(key) };
                    let request = Request { order, since: Instant::now(), answers: answers.clone() };
                    cores[(key % CORES) as usize].send(request).expect("the core serves");
                    sent += 1;
                }
                let (key, value) = answered.recv().expect("the core answers");
                right += u64::from(value == Some(value_of(key, round)));
                received += 1;
            }
        }
    }
    right
}

fn main() {
    let rounds = std::env::args().nth(1).map_or(ROUNDS, |it| it.parse().expect("a number of rounds"));
    let (cores, servers): (Vec<_>, Vec<_>) = (0..CORES)
        .map(|core| {
            let (send, receive) = channel();
            (send, thread::spawn(move || serve(core, &receive)))
        })
        .unzip();
    let clients: Vec<_> = (0..CLIENTS)
        .map(|client| {
            let cores = cores.clone();
            thread::spawn(move || drive(client, &cores, rounds))
        })
        .collect();
    let right: u64 = clients.into_iter().map(|it| it.join().expect("a client ends")).sum();
    drop(cores);
    for server in servers {
        server.join().expect("a core ends").expect("no call is refused");
    }
    let all = 2 * CLIENTS * KEYS * rounds;
    println!("{right} of {all} answers were right");
    assert_eq!(right, all);
}
