// A link of two words by hand in Rust: the same protocol as link_ring, as one writes it without proofs. It stands in four forms:
// with acquire and release, or with sequentially consistent steps as the kit's; with both words on one cache line, or apart. In two
// more forms, with the words apart, an end remembers what it saw, and looks again only once that is used up.
use std::cell::UnsafeCell;
use std::hint::spin_loop;
use std::mem::MaybeUninit;
use std::sync::atomic::{AtomicU64, Ordering};
use std::sync::Arc;
use std::time::Instant;

const GATE: u64 = 1 << 63;

// The jobs of one measure: with many outstanding, with one, and one way without an answer.
const JOBS: u64 = 64000;
const SINGLE: u64 = 10000;
const ONE_WAY: u64 = 60000;

// How often each measure is made, if the command line doesn't say.
const ROUNDS: usize = 31;

// A job: a number, or as large as a script job.
pub trait Load: Send + 'static {
    fn make(number: u64) -> Self;
    fn value(&self) -> u64;
}

impl Load for u64 {
    fn make(number: u64) -> Self {
        number
    }
    fn value(&self) -> u64 {
        *self
    }
}

pub struct Heavy {
    words: [u64; 65],
    value: u64,
}

impl Load for Heavy {
    fn make(number: u64) -> Self {
        Heavy { words: [number; 65], value: number }
    }
    fn value(&self) -> u64 {
        self.value
    }
}

#[allow(dead_code)]
pub enum Order<J> {
    Job(u8, J),
    Create(u16),
    SetShares(u8, u16),
}

#[allow(dead_code)]
pub enum Outcome<J> {
    Finished(u64),
    Returned(u8, Order<J>),
    Answered(u8),
}

pub trait Form: Send + Sync + 'static {
    const STRICT: bool;
    const REMEMBERS: bool;
    fn new() -> Self;
    fn accept(&self) -> &AtomicU64;
    fn given(&self) -> &AtomicU64;
}

macro_rules! form {
    ($name:ident, $strict:expr, $align:expr, $remembers:expr) => {
        #[repr(align($align))]
        struct Word(AtomicU64);
        pub struct $name {
            accept: Word,
            given: Word,
        }
        impl Form for $name {
            const STRICT: bool = $strict;
            const REMEMBERS: bool = $remembers;
            fn new() -> Self {
                $name { accept: Word(AtomicU64::new(0)), given: Word(AtomicU64::new(0)) }
            }
            fn accept(&self) -> &AtomicU64 {
                &self.accept.0
            }
            fn given(&self) -> &AtomicU64 {
                &self.given.0
            }
        }
    };
}

mod close {
    use super::*;
    form!(Close, false, 8, false);
}
mod close_strict {
    use super::*;
    form!(CloseStrict, true, 8, false);
}
mod apart {
    use super::*;
    form!(Apart, false, 128, false);
}
mod apart_strict {
    use super::*;
    form!(ApartStrict, true, 128, false);
}
mod remembers {
    use super::*;
    form!(Remembers, false, 128, true);
}
mod remembers_strict {
    use super::*;
    form!(RemembersStrict, true, 128, true);
}

struct Board<W, J> {
    words: W,
    orders: Box<[UnsafeCell<MaybeUninit<Order<J>>>]>,
    outcomes: Box<[UnsafeCell<MaybeUninit<(u64, Outcome<J>)>>]>,
}

unsafe impl<W: Form, J: Load> Sync for Board<W, J> {}

pub struct Out<W, J> {
    board: Arc<Board<W, J>>,
    capacity: u64,
    count: u64,
    collected: u64,
    shown: u64,
    redeemed: u64,
    next_order: usize,
    next_outcome: usize,
}

pub struct In<W, J> {
    board: Arc<Board<W, J>>,
    capacity: u64,
    taken: u64,
    given: u64,
    shown: u64,
    gate: u64,
    next_order: usize,
    next_outcome: usize,
}

#[allow(dead_code)]
pub enum SendError<J> {
    Closed(Order<J>, u64),
    Full(Order<J>),
}

fn open<W: Form, J: Load>(capacity: u64) -> (Out<W, J>, In<W, J>) {
    let board = Arc::new(Board {
        words: W::new(),
        orders: (0..capacity).map(|_| UnsafeCell::new(MaybeUninit::uninit())).collect(),
        outcomes: (0..capacity).map(|_| UnsafeCell::new(MaybeUninit::uninit())).collect(),
    });
    let other = board.clone();
    (
        Out { board, capacity, count: 0, collected: 0, shown: 0, redeemed: 0, next_order: 0, next_outcome: 0 },
        In { board: other, capacity, taken: 0, given: 0, shown: 0, gate: 0, next_order: 0, next_outcome: 0 },
    )
}

fn next(place: usize, capacity: u64) -> usize {
    if place + 1 == capacity as usize { 0 } else { place + 1 }
}

impl<W: Form, J: Load> Out<W, J> {
    fn send(&mut self, order: Order<J>) -> Result<u64, SendError<J>> {
        if self.count - self.redeemed == self.capacity {
            if self.board.words.accept().load(Ordering::Acquire) & GATE != 0 {
                return Err(SendError::Closed(order, self.count));
            }
            return Err(SendError::Full(order));
        }
        unsafe { (*self.board.orders.get_unchecked(self.next_order).get()).write(order) };
        let (hit, miss) = if W::STRICT { (Ordering::SeqCst, Ordering::SeqCst) } else { (Ordering::Release, Ordering::Relaxed) };
        match self.board.words.accept().compare_exchange(self.count, self.count + 1, hit, miss) {
            Ok(_) => {
                self.count += 1;
                self.next_order = next(self.next_order, self.capacity);
                Ok(self.count)
            }
            Err(_) => {
                let back = unsafe { (*self.board.orders.get_unchecked(self.next_order).get()).assume_init_read() };
                Err(SendError::Closed(back, self.count))
            }
        }
    }

    fn collect(&mut self) -> Option<(u64, Outcome<J>)> {
        if !W::REMEMBERS || self.shown == self.collected {
            let order = if W::STRICT { Ordering::SeqCst } else { Ordering::Acquire };
            self.shown = self.board.words.given().load(order);
            if self.shown == self.collected {
                return None;
            }
        }
        let found = unsafe { (*self.board.outcomes.get_unchecked(self.next_outcome).get()).assume_init_read() };
        self.collected += 1;
        self.next_outcome = next(self.next_outcome, self.capacity);
        Some(found)
    }
}

impl<W: Form, J: Load> In<W, J> {
    fn take(&mut self) -> Option<(u64, Order<J>)> {
        if !W::REMEMBERS || self.shown == self.taken + self.gate {
            let order = if W::STRICT { Ordering::SeqCst } else { Ordering::Acquire };
            self.shown = self.board.words.accept().load(order);
            if self.shown == self.taken + self.gate {
                return None;
            }
        }
        let found = unsafe { (*self.board.orders.get_unchecked(self.next_order).get()).assume_init_read() };
        self.taken += 1;
        self.next_order = next(self.next_order, self.capacity);
        Some((self.taken, found))
    }

    fn give(&mut self, number: u64, outcome: Outcome<J>) {
        unsafe { (*self.board.outcomes.get_unchecked(self.next_outcome).get()).write((number, outcome)) };
        self.given += 1;
        if W::STRICT {
            self.board.words.given().swap(self.given, Ordering::SeqCst);
        } else {
            self.board.words.given().store(self.given, Ordering::Release);
        }
        self.next_outcome = next(self.next_outcome, self.capacity);
    }

    fn shut(&mut self) -> u64 {
        let last = self.board.words.accept().fetch_or(GATE, Ordering::SeqCst);
        self.gate = GATE;
        self.shown = last + GATE;
        last
    }
}

fn send<W: Form, J: Load>(end: &mut Out<W, J>, number: u64) -> bool {
    end.send(Order::Job(0, J::make(number))).is_ok()
}

fn collect<W: Form, J: Load>(end: &mut Out<W, J>) -> Option<u64> {
    let (_number, outcome) = end.collect()?;
    end.redeemed += 1;
    match outcome {
        Outcome::Finished(value) => Some(value),
        _ => Some(0),
    }
}

fn serve<W: Form, J: Load>(end: &mut In<W, J>) -> bool {
    let Some((number, order)) = end.take() else { return false };
    let outcome = match order {
        Order::Job(_, job) => Outcome::Finished(job.value()),
        Order::Create(_) => Outcome::Answered(0),
        Order::SetShares(_, _) => Outcome::Answered(1),
    };
    end.give(number, outcome);
    true
}

fn take<W: Form, J: Load>(end: &mut In<W, J>) -> Option<u64> {
    match end.take()?.1 {
        Order::Job(_, job) => Some(job.value()),
        _ => Some(0),
    }
}

// Waits a little in place, and then lets other threads run.
fn pause(tries: u64) {
    if tries % 256 == 255 {
        std::thread::yield_now();
    } else {
        spin_loop();
    }
}

fn wait_to_send<W: Form, J: Load>(end: &mut Out<W, J>, number: u64) {
    for tries in 0.. {
        if send(end, number) {
            return;
        }
        pause(tries);
    }
}

fn wait_for_answer<W: Form, J: Load>(end: &mut Out<W, J>) -> u64 {
    for tries in 0.. {
        if let Some(answer) = collect(end) {
            return answer;
        }
        pause(tries);
    }
    0
}

fn wait_to_serve<W: Form, J: Load>(end: &mut In<W, J>) {
    for tries in 0.. {
        if serve(end) {
            return;
        }
        pause(tries);
    }
}

fn wait_to_take<W: Form, J: Load>(end: &mut In<W, J>) -> u64 {
    for tries in 0.. {
        if let Some(number) = take(end) {
            return number;
        }
        pause(tries);
    }
    0
}

#[inline(never)]
fn send_all<W: Form, J: Load>(mut end: Out<W, J>, jobs: u64, credits: u64) -> u64 {
    let mut sum = 0u64;
    for number in 0..jobs {
        if number >= credits {
            sum = sum.wrapping_add(wait_for_answer(&mut end));
        }
        wait_to_send(&mut end, number);
    }
    for _ in 0..credits.min(jobs) {
        sum = sum.wrapping_add(wait_for_answer(&mut end));
    }
    sum
}

#[inline(never)]
fn serve_all<W: Form, J: Load>(mut end: In<W, J>, jobs: u64) -> In<W, J> {
    for _ in 0..jobs {
        wait_to_serve(&mut end);
    }
    end
}

#[inline(never)]
fn send_one_way<W: Form, J: Load>(mut end: Out<W, J>, jobs: u64) -> Out<W, J> {
    for number in 0..jobs {
        wait_to_send(&mut end, number);
    }
    end
}

#[inline(never)]
fn take_all<W: Form, J: Load>(mut end: In<W, J>, jobs: u64) -> u64 {
    let mut sum = 0u64;
    for _ in 0..jobs {
        sum = sum.wrapping_add(wait_to_take(&mut end));
    }
    sum
}

#[inline(never)]
fn turn_all<W: Form, J: Load>(mut front: Out<W, J>, mut behind: In<W, J>, turns: u64, credits: u64) -> u64 {
    let mut sum = 0u64;
    for turn in 0..turns {
        let first = turn * credits;
        for index in 0..credits {
            send(&mut front, first + index);
        }
        for _ in 0..credits {
            serve(&mut behind);
        }
        for _ in 0..credits {
            sum = sum.wrapping_add(collect(&mut front).unwrap_or(0));
        }
    }
    sum
}

// The first so many steps of a batch: sends so many jobs, takes them, answers them instead, and redeems all answers.
#[inline(never)]
fn step_all<W: Form, J: Load>(mut front: Out<W, J>, mut behind: In<W, J>, credits: u64, steps: u64) -> u64 {
    let mut sum = 0u64;
    for number in 0..credits {
        send(&mut front, number);
    }
    if steps == 2 {
        for _ in 0..credits {
            sum = sum.wrapping_add(take(&mut behind).unwrap_or(0));
        }
    }
    if steps > 2 {
        for _ in 0..credits {
            serve(&mut behind);
        }
    }
    if steps > 3 {
        for _ in 0..credits {
            sum = sum.wrapping_add(collect(&mut front).unwrap_or(0));
        }
    }
    sum
}

// The nanoseconds of one measure, and a sum that must agree with that of the others. The thread that is started sends, as in the
// ring's program: one way, who starts first decides whether the receiver follows from slot to slot or runs behind.
type Measured = (u128, u64);

fn trips<W: Form, J: Load>(capacity: u64, jobs: u64, credits: u64) -> Measured {
    let (front, behind) = open::<W, J>(capacity);
    let start = Instant::now();
    let other = std::thread::spawn(move || send_all(front, jobs, credits));
    let mut behind = serve_all(behind, jobs);
    let sum = other.join().unwrap();
    let taken = start.elapsed().as_nanos();
    assert_eq!(behind.shut(), jobs);
    (taken, sum)
}

fn one_way<W: Form, J: Load>(jobs: u64) -> Measured {
    let (front, behind) = open::<W, J>(jobs);
    let start = Instant::now();
    let other = std::thread::spawn(move || send_one_way(front, jobs));
    let sum = take_all(behind, jobs);
    let _front = other.join().unwrap();
    (start.elapsed().as_nanos(), sum)
}

// The thread that is started takes, so the sender is ahead of it from the beginning.
fn behind<W: Form, J: Load>(jobs: u64) -> Measured {
    let (front, behind) = open::<W, J>(jobs);
    let start = Instant::now();
    let other = std::thread::spawn(move || take_all(behind, jobs));
    let _front = send_one_way(front, jobs);
    let sum = other.join().unwrap();
    (start.elapsed().as_nanos(), sum)
}

fn alone<W: Form, J: Load>(jobs: u64) -> Measured {
    let (front, behind) = open::<W, J>(64);
    let start = Instant::now();
    let sum = turn_all(front, behind, jobs / 64, 64);
    (start.elapsed().as_nanos(), sum)
}

// The same of many batches of 64 jobs on one thread, each through a link of its own.
fn steps<W: Form, J: Load>(jobs: u64, steps: u64) -> Measured {
    let start = Instant::now();
    let mut sum = 0;
    for _ in 0..jobs / 64 {
        let (front, behind) = open::<W, J>(64);
        sum = step_all(front, behind, 64, steps);
    }
    (start.elapsed().as_nanos(), sum)
}

fn line(name: &str, jobs: u64, measure: impl Fn() -> Measured) {
    let mut words = std::env::args().skip(1);
    if !name.starts_with(&words.next().unwrap_or_default()) {
        return;
    }
    let rounds = words.next().map_or(ROUNDS, |word| word.parse().unwrap());
    let mut times = Vec::new();
    let mut sum = 0;
    for _ in 0..rounds {
        let (taken, found) = measure();
        times.push(taken);
        sum = found;
    }
    times.sort();
    let each = |taken: u128| taken as f64 / jobs as f64;
    println!("{name} {:.1} {:.1} {sum}", each(times[0]), each(times[rounds / 2]));
}

fn all<W: Form>(name: &str) {
    line(&format!("{name} one_way"), ONE_WAY, || one_way::<W, u64>(ONE_WAY));
    line(&format!("{name} behind"), ONE_WAY, || behind::<W, u64>(ONE_WAY));
    line(&format!("{name} trip_64"), JOBS, || trips::<W, u64>(64, JOBS, 64));
    line(&format!("{name} trip_1024"), JOBS, || trips::<W, u64>(1024, JOBS, 1024));
    line(&format!("{name} single"), SINGLE, || trips::<W, u64>(64, SINGLE, 1));
    line(&format!("{name} alone"), JOBS, || alone::<W, u64>(JOBS));
    for count in 1..=4 {
        line(&format!("{name} steps_{count}"), JOBS, || steps::<W, u64>(JOBS, count));
    }
    line(&format!("{name} heavy_64"), JOBS, || trips::<W, Heavy>(64, JOBS, 64));
    line(&format!("{name} heavy_1024"), JOBS, || trips::<W, Heavy>(1024, JOBS, 1024));
    line(&format!("{name} heavy_single"), SINGLE, || trips::<W, Heavy>(64, SINGLE, 1));
    line(&format!("{name} heavy_alone"), JOBS, || alone::<W, Heavy>(JOBS));
}

fn main() {
    all::<close::Close>("hand");
    all::<close_strict::CloseStrict>("hand_strict");
    all::<apart::Apart>("hand_apart");
    all::<apart_strict::ApartStrict>("hand_apart_strict");
    all::<remembers::Remembers>("hand_remembers");
    all::<remembers_strict::RemembersStrict>("hand_remembers_strict");
}
