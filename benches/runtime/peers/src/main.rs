// A job submitted from one thread to a worker on another, polled there once and redeemed, by tokio: each thread has a LocalSet on a
// runtime of its own, and two of tokio's bounded channels join them. The worker spawns a task for each job, which sends its answer back.
// There is one line of tasks, and there are no shares, no notes and no readings of the clock: so it stands beside `channels` of
// handwritten.rs, which has nothing beside the polls either.
//
// `local_sets` waits for what comes, so a thread without work sleeps. In `local_sets_awake` a task asks and yields until something came, so
// no thread sleeps.
use std::future::Future;
use std::hint::{black_box, spin_loop};
use std::pin::Pin;
use std::task::{Context, Poll};
use std::thread::{self, JoinHandle};
use std::time::{Duration, Instant};
use tokio::runtime::Builder;
use tokio::sync::mpsc::error::TryRecvError;
use tokio::sync::mpsc::{channel, Receiver, Sender};
use tokio::task::{spawn_local, yield_now, LocalSet};

// How many places a channel has.
const PLACES: usize = 64;

// A job that yields so often, and then answers.
struct Job {
    value: u64,
    yields: u64,
}

impl Future for Job {
    type Output = u64;

    fn poll(mut self: Pin<&mut Self>, context: &mut Context<'_>) -> Poll<u64> {
        if self.yields > 0 {
            self.yields -= 1;
            context.waker().wake_by_ref();
            return Poll::Pending;
        }
        Poll::Ready(black_box(self.value) + 1)
    }
}

// How a task waits for what comes.
#[derive(Clone, Copy)]
enum Way {
    Asleep,
    Awake,
}

async fn next<T>(end: &mut Receiver<T>, way: Way) -> Option<T> {
    match way {
        Way::Asleep => end.recv().await,
        Way::Awake => loop {
            match end.try_recv() {
                Ok(found) => return Some(found),
                Err(TryRecvError::Disconnected) => return None,
                Err(TryRecvError::Empty) => yield_now().await,
            }
        },
    }
}

// Runs this on a LocalSet of this thread, until it ends.
fn on_local_set<T>(work: impl Future<Output = T>) -> T {
    let runtime = Builder::new_current_thread().build().unwrap();
    LocalSet::new().block_on(&runtime, work)
}

async fn work(mut orders: Receiver<(u64, Job)>, outcomes: Sender<(u64, u64)>, way: Way) {
    while let Some((number, job)) = next(&mut orders, way).await {
        let outcomes = outcomes.clone();
        spawn_local(async move {
            let answer = job.await;
            outcomes.send((number, answer)).await.ok();
        });
    }
}

struct Front {
    orders: Sender<(u64, Job)>,
    outcomes: Receiver<(u64, u64)>,
    sent: u64,
    way: Way,
}

impl Front {
    async fn send(&mut self, value: u64) {
        self.sent += 1;
        self.orders.send((self.sent, Job { value, yields: 0 })).await.ok();
    }

    async fn redeem(&mut self) -> u64 {
        next(&mut self.outcomes, self.way).await.unwrap().1
    }
}

fn open(way: Way) -> (Front, JoinHandle<()>) {
    let (orders, orders_there) = channel(PLACES);
    let (outcomes_there, outcomes) = channel(PLACES);
    let worker = thread::spawn(move || on_local_set(work(orders_there, outcomes_there, way)));
    (Front { orders, outcomes, sent: 0, way }, worker)
}

// Makes one job that isn't measured, so that the worker's thread is at work.
async fn warm(front: &mut Front) {
    front.send(0).await;
    black_box(front.redeem().await);
}

// Nanoseconds for each of so many jobs, with so many outstanding.
async fn trips(mut front: Front, jobs: u64, outstanding: u64) -> f64 {
    warm(&mut front).await;
    let start = Instant::now();
    let mut sum = 0;
    for value in 0..jobs {
        if value >= outstanding {
            sum += front.redeem().await;
        }
        front.send(value).await;
    }
    for _ in 0..outstanding.min(jobs) {
        sum += front.redeem().await;
    }
    let taken = start.elapsed().as_nanos() as f64 / jobs as f64;
    assert_eq!(sum, jobs * (jobs + 1) / 2);
    taken
}

// Nanoseconds that each of so many jobs took, submitted one by one with a pause before each.
async fn paused(mut front: Front, jobs: u64, pause: Duration) -> f64 {
    warm(&mut front).await;
    let mut taken = Duration::ZERO;
    for value in 0..jobs {
        let begin = Instant::now();
        while begin.elapsed() < pause {
            spin_loop();
        }
        let start = Instant::now();
        front.send(value).await;
        black_box(front.redeem().await);
        taken += start.elapsed();
    }
    taken.as_nanos() as f64 / jobs as f64
}

// Nanoseconds of a poll of a job that yields so often, on a LocalSet of one thread.
async fn polls(count: u64) -> f64 {
    let start = Instant::now();
    black_box(spawn_local(Job { value: 0, yields: count }).await.unwrap());
    start.elapsed().as_nanos() as f64 / count as f64
}

fn each(name: &str, pause: Duration) {
    for (who, way) in [("local_sets", Way::Asleep), ("local_sets_awake", Way::Awake)] {
        let (front, worker) = open(way);
        let taken = on_local_set(async move {
            match name {
                "single" => trips(front, 20_000, 1).await,
                "trip_64" => trips(front, 200_000, 64).await,
                _ => paused(front, 1000, pause).await,
            }
        });
        worker.join().unwrap();
        println!("{who} {name} {taken:.1}");
    }
}

fn main() {
    let words: Vec<String> = std::env::args().skip(1).collect();
    let micros = words.get(1).map_or(0, |word| word.parse().unwrap());
    match words.first().map(String::as_str) {
        Some("polls") => println!("local_sets polls {:.1}", on_local_set(polls(1_000_000))),
        Some(name) => each(name, Duration::from_micros(micros)),
        None => (),
    }
}
