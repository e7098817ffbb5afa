// Tables of timers by hand, each timer known by its key, without a name: by_hand heap|heap_4|tree|wheel TIMERS ROUNDS prints tenths of nanoseconds of a
// timer that is set, that fires and that is dropped. The heaps stand in one Vec, and a second one tells where each key stands; a place has two or four
// below it. The tree is a BTreeSet.
mod wheel;

use std::collections::BTreeSet;
use std::hint::black_box;
use std::time::Instant;

/// Timers are set for a millisecond to a second.
const LEAST: u64 = 1_000_000;
const SPAN: u64 = 999_000_000;

/// So many timers are set, fire or are dropped between two readings of the clock.
const BATCH: usize = 8;

/// How many readings of the clock tell what one takes.
const READINGS: u32 = 1000;

pub trait Timers {
    fn open(places: usize) -> Self;
    /// Sets the timer of a key that has none.
    fn set(&mut self, key: u32, time: u64);
    /// Forgets the timer of a key that has one.
    fn forget(&mut self, key: u32);
    /// When something is due next.
    fn next(&self) -> Option<u64>;
    /// Takes out a timer that is due.
    fn take_due(&mut self, now: u64) -> Option<u32>;
}

struct Heap<const BELOW: usize> {
    places: Vec<(u64, u32)>,
    standing: Vec<u32>,
}

impl<const BELOW: usize> Heap<BELOW> {
    fn write(&mut self, at: usize, timer: (u64, u32)) {
        self.places[at] = timer;
        self.standing[timer.1 as usize] = at as u32;
    }

    fn rise(&mut self, mut at: usize, timer: (u64, u32)) {
        while at > 0 && timer.0 < self.places[(at - 1) / BELOW].0 {
            self.write(at, self.places[(at - 1) / BELOW]);
            at = (at - 1) / BELOW;
        }
        self.write(at, timer);
    }

    fn sink(&mut self, mut at: usize, timer: (u64, u32)) {
        loop {
            let below = BELOW * at + 1..self.places.len().min(BELOW * at + BELOW + 1);
            let Some(next) = below.min_by_key(|it| self.places[*it].0) else { break };
            if timer.0 <= self.places[next].0 {
                break;
            }
            self.write(at, self.places[next]);
            at = next;
        }
        self.write(at, timer);
    }
}

impl<const BELOW: usize> Timers for Heap<BELOW> {
    fn open(places: usize) -> Self {
        Heap { places: Vec::with_capacity(places), standing: vec![0; places] }
    }

    fn set(&mut self, key: u32, time: u64) {
        let at = self.places.len();
        self.places.push((time, key));
        self.rise(at, (time, key));
    }

    fn forget(&mut self, key: u32) {
        let at = self.standing[key as usize] as usize;
        let last = self.places.pop().expect("it is set");
        if at == self.places.len() {
            return;
        }
        if at > 0 && last.0 < self.places[(at - 1) / BELOW].0 {
            self.rise(at, last);
        } else {
            self.sink(at, last);
        }
    }

    fn next(&self) -> Option<u64> {
        Some(self.places.first()?.0)
    }

    fn take_due(&mut self, now: u64) -> Option<u32> {
        let (time, key) = *self.places.first()?;
        if time > now {
            return None;
        }
        self.forget(key);
        Some(key)
    }
}

struct Tree {
    set: BTreeSet<(u64, u32)>,
    times: Vec<u64>,
}

impl Timers for Tree {
    fn open(places: usize) -> Self {
        Tree { set: BTreeSet::new(), times: vec![0; places] }
    }

    fn set(&mut self, key: u32, time: u64) {
        self.times[key as usize] = time;
        self.set.insert((time, key));
    }

    fn forget(&mut self, key: u32) {
        self.set.remove(&(self.times[key as usize], key));
    }

    fn next(&self) -> Option<u64> {
        Some(self.set.first()?.0)
    }

    fn take_due(&mut self, now: u64) -> Option<u32> {
        if self.set.first()?.0 > now {
            return None;
        }
        Some(self.set.pop_first()?.1)
    }
}

/// A chain of numbers, as the program in Rattle has it.
struct Dice(u64);

impl Dice {
    fn between(&mut self, least: u64, span: u64) -> u64 {
        self.0 = self.0.wrapping_mul(6364136223846793005).wrapping_add(1442695040888963407);
        least + (self.0 >> 33) % span
    }
}

/// Takes out those that are due first, as a worker does that sleeps until the next one is due.
#[inline(never)]
fn fire<T: Timers>(timers: &mut T, now: &mut u64, fired: &mut [u32]) {
    let mut count = 0;
    while count < fired.len() {
        match timers.take_due(*now) {
            Some(key) => {
                fired[count] = key;
                count += 1;
            }
            None => *now = timers.next().expect("one is set"),
        }
    }
}

#[inline(never)]
fn set<T: Timers>(timers: &mut T, keys: &[u32], times: &[u64]) {
    keys.iter().zip(times).for_each(|(key, time)| timers.set(*key, *time));
}

#[inline(never)]
fn forget<T: Timers>(timers: &mut T, keys: &[u32]) {
    keys.iter().for_each(|key| timers.forget(*key));
}

fn timed(taken: &mut u128, work: impl FnOnce()) {
    let begun = Instant::now();
    work();
    *taken += begun.elapsed().as_nanos();
}

/// In each round some are dropped and set again; then those that are due first fire, and are set again.
fn measure<T: Timers>(count: usize, rounds: u32) {
    let (mut timers, mut dice, mut now) = (T::open(count), Dice(1), 0);
    let mut keys: Vec<u32> = (0..count as u32).collect();
    let (mut some, mut times) = (vec![0; BATCH.min(count)], vec![0; BATCH.min(count)]);
    keys.iter().for_each(|key| timers.set(*key, dice.between(LEAST, SPAN)));
    let (mut sets, mut fires, mut drops, mut reading) = (0, 0, 0, 0);
    (0..READINGS).for_each(|_| timed(&mut reading, || ()));
    for _ in 0..rounds {
        for at in 0..some.len() {
            let other = dice.between(at as u64, (count - at) as u64);
            keys.swap(at, other as usize);
            some[at] = keys[at];
        }
        times.iter_mut().for_each(|it| *it = now + dice.between(LEAST, SPAN));
        timed(&mut drops, || forget(&mut timers, &some));
        timed(&mut sets, || set(&mut timers, &some, &times));
        timed(&mut fires, || fire(&mut timers, &mut now, &mut some));
        times.iter_mut().for_each(|it| *it = now + dice.between(LEAST, SPAN));
        timed(&mut sets, || set(&mut timers, &some, &times));
    }
    black_box(&timers);
    let tenths = |taken: u128, batches: u32| {
        let own = taken.saturating_sub(u128::from(batches) * reading / u128::from(READINGS));
        own * 10 / (u128::from(batches) * some.len() as u128)
    };
    println!("{} {} {}", tenths(sets, 2 * rounds), tenths(fires, rounds), tenths(drops, rounds));
}

fn main() {
    let words: Vec<String> = std::env::args().skip(1).collect();
    let (count, rounds) = (words[1].parse().expect("how many timers"), words[2].parse().expect("how many rounds"));
    match words[0].as_str() {
        "heap" => measure::<Heap<2>>(count, rounds),
        "heap_4" => measure::<Heap<4>>(count, rounds),
        "tree" => measure::<Tree>(count, rounds),
        "wheel" => measure::<wheel::Wheel>(count, rounds),
        _ => panic!("heap, heap_4, tree or wheel"),
    }
}
