// A job submitted from one thread to a worker on another, polled there once and redeemed, by hand in Rust, as one writes it without
// proofs. The two threads are joined by a link of two words (as benches/ring has it, sequentially consistent), or by two of std's
// bounded channels. The worker takes what there is, puts it into a queue, makes one turn, gives the answer, and parks when nothing was
// to be done for as long as the runtime's worker waits. Its turns are bare: the first of one queue is polled. Or they are those of the runtime's worker:
// it picks the queue of least virtual runtime, reads the clock before the poll and after it, charges the queue, and writes notes. And
// the caller has nothing beside its end of the link, or it writes notes and keeps tickets, as the runtime's caller does.
use std::cell::UnsafeCell;
use std::collections::{BTreeSet, VecDeque};
use std::hint::{black_box, spin_loop};
use std::mem::MaybeUninit;
use std::sync::atomic::{AtomicBool, AtomicU64, Ordering::SeqCst};
use std::sync::mpsc::{sync_channel, Receiver, SyncSender, TryRecvError};
use std::sync::{Arc, OnceLock};
use std::thread::{self, JoinHandle, Thread};
use std::time::{Duration, Instant};

const GATE: u64 = 1 << 63;

// How many places a link has.
const PLACES: usize = 64;

// A worker parks after so many nanoseconds with nothing to do, if PATIENCE_NS doesn't say another number. The runtime's worker parks after
// 1024 idle rounds, which take as long in a house of one core (benches/worker).
const PATIENCE: u64 = 7_000;

// A worker that never parks.
const NEVER: u64 = u64::MAX;

// A job that yields so often, and then answers.
#[derive(Clone, Copy)]
struct Job {
    value: u64,
    yields: u64,
}

impl Job {
    fn poll(&mut self) -> Option<u64> {
        if self.yields > 0 {
            self.yields -= 1;
            return None;
        }
        Some(black_box(self.value) + 1)
    }
}

enum Taken {
    Job(u64, Job),
    Nothing,
    Shut,
}

trait Sending {
    fn send(&mut self, job: Job);
    fn collect(&mut self) -> Option<(u64, u64)>;
    // All that there is.
    fn collect_all(&mut self, mut each: impl FnMut(u64, u64)) {
        while let Some((number, answer)) = self.collect() {
            each(number, answer);
        }
    }
    fn shut(&mut self);
}

trait Receiving: Send + 'static {
    fn take(&mut self) -> Taken;
    fn give(&mut self, number: u64, answer: u64);
    // Waits, perhaps, until there is something to take.
    fn park(&mut self) -> Taken;
}

struct Board {
    accept: AtomicU64,
    given: AtomicU64,
    orders: [UnsafeCell<MaybeUninit<Job>>; PLACES],
    outcomes: [UnsafeCell<MaybeUninit<(u64, u64)>>; PLACES],
    asleep: AtomicBool,
    worker: OnceLock<Thread>,
}

unsafe impl Sync for Board {}
unsafe impl Send for Board {}

struct Out {
    board: Arc<Board>,
    sent: u64,
    got: u64,
}

struct In {
    board: Arc<Board>,
    taken: u64,
    given: u64,
}

impl Out {
    fn wake(&self) {
        if self.board.asleep.swap(false, SeqCst) {
            if let Some(worker) = self.board.worker.get() {
                worker.unpark();
            }
        }
    }
}

impl Sending for Out {
    fn send(&mut self, job: Job) {
        let place = self.sent as usize % PLACES;
        unsafe { (*self.board.orders[place].get()).write(job) };
        let found = self.board.accept.compare_exchange(self.sent, self.sent + 1, SeqCst, SeqCst);
        assert!(found.is_ok());
        self.sent += 1;
        self.wake();
    }

    fn collect(&mut self) -> Option<(u64, u64)> {
        if self.board.given.load(SeqCst) == self.got {
            return None;
        }
        let place = self.got as usize % PLACES;
        self.got += 1;
        Some(unsafe { (*self.board.outcomes[place].get()).assume_init_read() })
    }

    fn collect_all(&mut self, mut each: impl FnMut(u64, u64)) {
        let given = self.board.given.load(SeqCst);
        while self.got != given {
            let place = self.got as usize % PLACES;
            let (number, answer) = unsafe { (*self.board.outcomes[place].get()).assume_init_read() };
            each(number, answer);
            self.got += 1;
        }
    }

    fn shut(&mut self) {
        self.board.accept.fetch_or(GATE, SeqCst);
        self.wake();
    }
}

impl Receiving for In {
    fn take(&mut self) -> Taken {
        let word = self.board.accept.load(SeqCst);
        if word & !GATE == self.taken {
            return if word & GATE == 0 { Taken::Nothing } else { Taken::Shut };
        }
        let place = self.taken as usize % PLACES;
        self.taken += 1;
        Taken::Job(self.taken, unsafe { (*self.board.orders[place].get()).assume_init_read() })
    }

    fn give(&mut self, number: u64, answer: u64) {
        let place = self.given as usize % PLACES;
        unsafe { (*self.board.outcomes[place].get()).write((number, answer)) };
        self.given += 1;
        self.board.given.swap(self.given, SeqCst);
    }

    fn park(&mut self) -> Taken {
        self.board.worker.get_or_init(thread::current);
        self.board.asleep.store(true, SeqCst);
        // What came before the mark stood is found here; who comes later sees the mark.
        let taken = self.take();
        if matches!(taken, Taken::Nothing) {
            thread::park();
        }
        self.board.asleep.store(false, SeqCst);
        taken
    }
}

fn words() -> (Out, In) {
    let board = Arc::new(Board {
        accept: AtomicU64::new(0),
        given: AtomicU64::new(0),
        orders: std::array::from_fn(|_| UnsafeCell::new(MaybeUninit::uninit())),
        outcomes: std::array::from_fn(|_| UnsafeCell::new(MaybeUninit::uninit())),
        asleep: AtomicBool::new(false),
        worker: OnceLock::new(),
    });
    (Out { board: board.clone(), sent: 0, got: 0 }, In { board, taken: 0, given: 0 })
}

struct Front {
    orders: Option<SyncSender<(u64, Job)>>,
    outcomes: Receiver<(u64, u64)>,
    sent: u64,
}

struct Back {
    orders: Receiver<(u64, Job)>,
    outcomes: SyncSender<(u64, u64)>,
}

impl Sending for Front {
    fn send(&mut self, job: Job) {
        self.sent += 1;
        if let Some(orders) = &self.orders {
            orders.send((self.sent, job)).unwrap();
        }
    }

    fn collect(&mut self) -> Option<(u64, u64)> {
        self.outcomes.try_recv().ok()
    }

    fn shut(&mut self) {
        self.orders = None;
    }
}

impl Receiving for Back {
    fn take(&mut self) -> Taken {
        match self.orders.try_recv() {
            Ok((number, job)) => Taken::Job(number, job),
            Err(TryRecvError::Empty) => Taken::Nothing,
            Err(TryRecvError::Disconnected) => Taken::Shut,
        }
    }

    fn give(&mut self, number: u64, answer: u64) {
        self.outcomes.send((number, answer)).unwrap();
    }

    fn park(&mut self) -> Taken {
        match self.orders.recv() {
            Ok((number, job)) => Taken::Job(number, job),
            Err(_) => Taken::Shut,
        }
    }
}

fn channels() -> (Front, Back) {
    let (orders, orders_there) = sync_channel(PLACES);
    let (outcomes_there, outcomes) = sync_channel(PLACES);
    (Front { orders: Some(orders), outcomes, sent: 0 }, Back { orders: orders_there, outcomes: outcomes_there })
}

// What a worker does with the jobs that it took: one turn polls one of them, and tells the number and the answer of one that is done.
trait Turns: Send + 'static {
    fn put(&mut self, number: u64, job: Job);
    fn turn(&mut self) -> Option<Turn>;
}

enum Turn {
    Yielded,
    Done(u64, u64),
}

// A caller that keeps a journal and tickets, as the runtime's does: a note for each job that was sent, each outcome that came, and each
// that was asked for. An outcome waits in its ticket's place until it is asked for.
struct Booked<S> {
    out: S,
    journal: Vec<Note>,
    sent: u64,
    redeemed: u64,
    outcomes: [Option<u64>; PLACES],
}

impl<S: Sending> Booked<S> {
    fn new(out: S, notes: u64) -> Self {
        Booked { out, journal: touched(notes), sent: 0, redeemed: 0, outcomes: [None; PLACES] }
    }

    // The outcome of the oldest ticket, if it came.
    fn redeem(&mut self) -> Option<(u64, u64)> {
        let number = self.redeemed + 1;
        let answer = self.outcomes[number as usize % PLACES].take()?;
        self.journal.push([7, number, answer, 0, 0, 0]);
        self.redeemed = number;
        Some((number, answer))
    }
}

impl<S: Sending> Sending for Booked<S> {
    fn send(&mut self, job: Job) {
        self.out.send(job);
        self.sent += 1;
        self.journal.push([5, self.sent, 0, 0, 0, 0]);
    }

    fn collect(&mut self) -> Option<(u64, u64)> {
        if let Some(found) = self.redeem() {
            return Some(found);
        }
        let (journal, outcomes) = (&mut self.journal, &mut self.outcomes);
        self.out.collect_all(|number, answer| {
            journal.push([6, number, answer, 0, 0, 0]);
            outcomes[number as usize % PLACES] = Some(answer);
        });
        self.redeem()
    }

    fn shut(&mut self) {
        self.out.shut();
    }
}

// One queue, and its first is polled.
struct Bare {
    jobs: VecDeque<(u64, Job)>,
}

impl Bare {
    fn new() -> Self {
        Bare { jobs: VecDeque::with_capacity(PLACES) }
    }
}

impl Turns for Bare {
    fn put(&mut self, number: u64, job: Job) {
        self.jobs.push_back((number, job));
    }

    fn turn(&mut self) -> Option<Turn> {
        let (number, mut job) = self.jobs.pop_front()?;
        Some(match job.poll() {
            Some(answer) => Turn::Done(number, answer),
            None => {
                self.jobs.push_back((number, job));
                Turn::Yielded
            }
        })
    }
}

// A note takes as many bytes as the runtime's.
type Note = [u64; 6];

// A journal whose pages are written to before the measure begins, as the runtime's are.
fn touched(notes: u64) -> Vec<Note> {
    let mut journal = vec![[7; 6]; notes as usize];
    black_box(&mut journal).clear();
    journal
}

struct Queue {
    jobs: VecDeque<(u64, Job)>,
    shares: u64,
    runtime: u64,
}

// Queues with shares, of which the one of least virtual runtime, then least number, is picked; a clock, whose reading behind a poll is the
// next one's start unless a look found no turn since; and a journal, with a note for what was taken and three for a poll.
struct Fair {
    queues: Vec<Queue>,
    active: BTreeSet<(u64, usize)>,
    floor: u64,
    journal: Vec<Note>,
    base: Instant,
    last: Option<u64>,
}

impl Fair {
    fn new(notes: u64) -> Self {
        let queue = Queue { jobs: VecDeque::with_capacity(PLACES), shares: 1000, runtime: 0 };
        Fair { queues: vec![queue], active: BTreeSet::new(), floor: 0, journal: touched(notes), base: Instant::now(), last: None }
    }

    fn now(&self) -> u64 {
        self.base.elapsed().as_nanos() as u64
    }
}

impl Turns for Fair {
    fn put(&mut self, number: u64, job: Job) {
        self.journal.push([3, number, 0, 0, 0, 0]);
        let queue = &mut self.queues[0];
        if queue.jobs.is_empty() {
            queue.runtime = queue.runtime.max(self.floor);
            self.active.insert((queue.runtime, 0));
        }
        queue.jobs.push_back((number, job));
    }

    fn turn(&mut self) -> Option<Turn> {
        let last = self.last.take();
        let (runtime, place) = self.active.pop_first()?;
        self.floor = self.floor.max(runtime);
        let (number, mut job) = self.queues[place].jobs.pop_front()?;
        self.journal.push([0, place as u64, runtime, 0, 0, 0]);
        self.journal.push([1, number, 0, 0, 0, 0]);
        let before = last.unwrap_or_else(|| self.now());
        let answer = job.poll();
        let after = self.now();
        self.last = Some(after);
        let spent = (after - before).max(1);
        let queue = &mut self.queues[place];
        queue.runtime = runtime + (spent * 1000).div_ceil(queue.shares);
        let turn = match answer {
            Some(answer) => {
                self.journal.push([2, number, spent, answer, 0, 0]);
                Turn::Done(number, answer)
            }
            None => {
                self.journal.push([4, number, spent, 0, 0, 0]);
                queue.jobs.push_back((number, job));
                Turn::Yielded
            }
        };
        if !queue.jobs.is_empty() {
            self.active.insert((queue.runtime, place));
        }
        Some(turn)
    }
}

// One round: all that is there is taken, and one turn made. Whether anything was done, and whether no more comes.
fn round(end: &mut impl Receiving, turns: &mut impl Turns) -> (bool, bool) {
    let (mut done, mut shut) = (false, false);
    for _ in 0..PLACES {
        match end.take() {
            Taken::Job(number, job) => {
                turns.put(number, job);
                done = true;
            }
            Taken::Nothing => break,
            Taken::Shut => {
                shut = true;
                break;
            }
        }
    }
    if let Some(turn) = turns.turn() {
        if let Turn::Done(number, answer) = turn {
            end.give(number, answer);
        }
        done = true;
    }
    (done, shut)
}

fn work(mut end: impl Receiving, mut turns: impl Turns, patience: u64) {
    let mut idle = 0;
    loop {
        let (done, shut) = round(&mut end, &mut turns);
        if done {
            idle = 0;
        } else if shut {
            return;
        } else if idle < patience {
            idle += 1;
            spin_loop();
        } else {
            if let Taken::Job(number, job) = end.park() {
                turns.put(number, job);
            }
            idle = 0;
        }
    }
}

fn wait_for(out: &mut impl Sending) -> u64 {
    loop {
        if let Some((_, answer)) = out.collect() {
            return answer;
        }
        spin_loop();
    }
}

// Makes one job that isn't measured, so that the worker's thread is at work, as the runtime's measures do.
fn warm(out: &mut impl Sending) {
    out.send(Job { value: 0, yields: 0 });
    black_box(wait_for(out));
}

// Nanoseconds for each of so many jobs, with so many outstanding.
fn trips(mut out: impl Sending, worker: JoinHandle<()>, jobs: u64, outstanding: u64) -> f64 {
    warm(&mut out);
    let start = Instant::now();
    let mut sum = 0;
    for value in 0..jobs {
        if value >= outstanding {
            sum += wait_for(&mut out);
        }
        out.send(Job { value, yields: 0 });
    }
    for _ in 0..outstanding.min(jobs) {
        sum += wait_for(&mut out);
    }
    let taken = start.elapsed().as_nanos() as f64 / jobs as f64;
    assert_eq!(sum, jobs * (jobs + 1) / 2);
    out.shut();
    worker.join().unwrap();
    taken
}

// Nanoseconds that each of so many jobs took, submitted one by one with a pause before each.
fn paused(mut out: impl Sending, worker: JoinHandle<()>, jobs: u64, pause: Duration) -> f64 {
    warm(&mut out);
    let mut taken = Duration::ZERO;
    for value in 0..jobs {
        let begin = Instant::now();
        while begin.elapsed() < pause {
            spin_loop();
        }
        let start = Instant::now();
        out.send(Job { value, yields: 0 });
        black_box(wait_for(&mut out));
        taken += start.elapsed();
    }
    out.shut();
    worker.join().unwrap();
    taken.as_nanos() as f64 / jobs as f64
}

// How many idle rounds a worker makes in so many nanoseconds: by the middle of nine measures over an end on which nothing comes.
fn rounds_in(nanoseconds: u64, mut end: impl Receiving, mut turns: impl Turns) -> u64 {
    const ROUNDS: u64 = 2000;
    let mut times: Vec<u64> = Vec::new();
    for _ in 0..9 {
        let start = Instant::now();
        for _ in 0..ROUNDS {
            black_box(round(&mut end, &mut turns));
            spin_loop();
        }
        times.push(start.elapsed().as_nanos() as u64);
    }
    times.sort_unstable();
    nanoseconds * ROUNDS / times[4].max(1)
}

fn patience() -> u64 {
    std::env::var("PATIENCE_NS").map_or(PATIENCE, |word| word.parse().unwrap())
}

// How many idle rounds that is over words, and over channels, with these turns. The other end stays open meanwhile.
fn words_patience(turns: impl Turns) -> u64 {
    let (_out, inward) = words();
    rounds_in(patience(), inward, turns)
}

fn channels_patience(turns: impl Turns) -> u64 {
    let (_front, back) = channels();
    rounds_in(patience(), back, turns)
}

fn over_words(turns: impl Turns, patience: u64) -> (Out, JoinHandle<()>) {
    let (out, inward) = words();
    (out, thread::spawn(move || work(inward, turns, patience)))
}

fn over_channels(turns: impl Turns, patience: u64) -> (Front, JoinHandle<()>) {
    let (front, back) = channels();
    (front, thread::spawn(move || work(back, turns, patience)))
}

fn middle(rounds: usize, measure: impl Fn() -> f64) -> f64 {
    let mut times: Vec<f64> = (0..rounds).map(|_| measure()).collect();
    times.sort_by(f64::total_cmp);
    times[rounds / 2]
}

// One job polled so often on one thread, by the turns of a worker. Nanoseconds for each poll.
fn polls(count: u64) -> f64 {
    let mut turns = Fair::new(4 * count);
    turns.put(1, Job { value: 0, yields: count });
    let start = Instant::now();
    for _ in 0..count {
        black_box(turns.turn());
    }
    let taken = start.elapsed().as_nanos() as f64 / count as f64;
    black_box(&turns.journal);
    taken
}

// How many idle rounds before a worker parks, and how long the pause before each job is.
fn table(rounds: usize) {
    for patience in [0, 10, 30, 100, 300, 1000, 3000, 10_000, 30_000, NEVER] {
        for pause in [0, 1, 10, 100] {
            let taken = middle(rounds, || {
                let (out, worker) = over_words(Bare::new(), patience);
                paused(out, worker, 1000, Duration::from_micros(pause))
            });
            let rounds_of_idleness = if patience == NEVER { "never".to_string() } else { patience.to_string() };
            println!("idle {rounds_of_idleness} {pause} {taken:.1}");
        }
    }
}

// What is measured over a link: the nanoseconds of each of so many jobs.
trait Measure {
    fn jobs(&self) -> u64;
    fn take(&self, out: impl Sending, worker: JoinHandle<()>) -> f64;
}

// So many jobs, with so many outstanding.
struct Trips(u64, u64);

impl Measure for Trips {
    fn jobs(&self) -> u64 {
        self.0
    }

    fn take(&self, out: impl Sending, worker: JoinHandle<()>) -> f64 {
        trips(out, worker, self.0, self.1)
    }
}

// So many jobs, submitted one by one with a pause before each.
struct Paused(u64, Duration);

impl Measure for Paused {
    fn jobs(&self) -> u64 {
        self.0
    }

    fn take(&self, out: impl Sending, worker: JoinHandle<()>) -> f64 {
        paused(out, worker, self.0, self.1)
    }
}

// One measure over each kind of link and turn: a line with its name and the nanoseconds of a job.
fn each(name: &str, measure: impl Measure) {
    let jobs = measure.jobs() + 1;
    let fair = || Fair::new(4 * jobs);
    let (of_words, of_bare_words) = (words_patience(fair()), words_patience(Bare::new()));
    let (of_channels, of_bare_channels) = (channels_patience(fair()), channels_patience(Bare::new()));
    let (out, worker) = over_words(fair(), of_words);
    println!("turns {name} {:.1}", measure.take(out, worker));
    let (out, worker) = over_words(fair(), of_words);
    println!("booked {name} {:.1}", measure.take(Booked::new(out, 3 * jobs), worker));
    let (out, worker) = over_words(Bare::new(), of_bare_words);
    println!("words {name} {:.1}", measure.take(out, worker));
    let (out, worker) = over_channels(fair(), of_channels);
    println!("turned {name} {:.1}", measure.take(out, worker));
    let (out, worker) = over_channels(fair(), of_channels);
    println!("entered {name} {:.1}", measure.take(Booked::new(out, 3 * jobs), worker));
    let (out, worker) = over_channels(Bare::new(), of_bare_channels);
    println!("channels {name} {:.1}", measure.take(out, worker));
}

fn main() {
    let words: Vec<String> = std::env::args().skip(1).collect();
    let number = |place: usize, or: u64| words.get(place).map_or(or, |word| word.parse().unwrap());
    match words.first().map(String::as_str) {
        Some("single") => each("single", Trips(20_000, 1)),
        Some("trip_64") => each("trip_64", Trips(200_000, 64)),
        Some("idle") => each("idle", Paused(1000, Duration::from_micros(number(1, 0)))),
        Some("polls") => println!("turns polls {:.1}", polls(1_000_000)),
        _ => table(number(0, 9) as usize),
    }
}
