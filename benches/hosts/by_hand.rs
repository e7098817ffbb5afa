// The same by hand: a `BTreeSet` of (virtual runtime, queue) and a `VecDeque` of job numbers for each queue. It closes nothing, and has no
// links. by_hand MEASURE NOTES QUEUES JOBS ROUNDS prints what through_c prints. NOTES tells what becomes of the notes of each call: `none`
// are made, they are `dropped`, or they are `kept` as a journal.
use std::collections::{BTreeSet, VecDeque};
use std::hint::black_box;
use std::time::Instant;

const TIMES: u32 = 200_000;

// As large as the library's.
#[derive(Clone, Copy)]
#[allow(dead_code)]
enum Note {
    Took(u64, u32),
    Pick(u32, u128),
    Start(u64),
    Resume(u64),
    Yield(u64, u64),
    Done(u64, u64, u64),
}

trait Notes {
    const ARE_MADE: bool;
    fn write(&mut self, notes: &[Note]);
}

struct NoNotes;
struct Dropped;
struct Kept(Vec<Note>);

impl Notes for NoNotes {
    const ARE_MADE: bool = false;
    fn write(&mut self, _: &[Note]) {}
}

impl Notes for Dropped {
    const ARE_MADE: bool = true;
    fn write(&mut self, notes: &[Note]) {
        black_box(notes);
    }
}

impl Notes for Kept {
    const ARE_MADE: bool = true;
    fn write(&mut self, notes: &[Note]) {
        self.0.extend_from_slice(notes);
    }
}

struct Queue {
    shares: u64,
    runtime: u128,
    // Each with whether it was started.
    jobs: VecDeque<(u64, bool)>,
}

struct Core<N> {
    notes: N,
    queues: Vec<Queue>,
    ready: BTreeSet<(u128, u32)>,
    floor: u128,
    out: Option<(u32, u64)>,
}

impl<N: Notes> Core<N> {
    #[inline(never)]
    fn submit(&mut self, number: u32, job: u64) {
        let queue = &mut self.queues[number as usize];
        if queue.jobs.is_empty() && self.out.is_none_or(|out| out.0 != number) {
            queue.runtime = queue.runtime.max(self.floor);
            self.ready.insert((queue.runtime, number));
        }
        queue.jobs.push_back((job, false));
        if N::ARE_MADE {
            self.notes.write(&[Note::Took(job, number)]);
        }
    }

    #[inline(never)]
    fn next(&mut self) -> Option<u64> {
        if self.out.is_some() {
            return None;
        }
        let (runtime, number) = self.ready.pop_first()?;
        self.floor = self.floor.max(runtime);
        let (job, started) = self.queues[number as usize].jobs.pop_front()?;
        self.out = Some((number, job));
        if N::ARE_MADE {
            self.notes.write(&[Note::Pick(number, runtime), if started { Note::Resume(job) } else { Note::Start(job) }]);
        }
        Some(job)
    }

    #[inline(never)]
    fn settle(&mut self, is_done: bool, spent: u64) -> bool {
        let Some((number, job)) = self.out.take() else { return false };
        let queue = &mut self.queues[number as usize];
        queue.runtime += (u128::from(spent.max(1)) * 1000).div_ceil(u128::from(queue.shares));
        if !is_done {
            queue.jobs.push_back((job, true));
        }
        if N::ARE_MADE {
            self.notes.write(&[if is_done { Note::Done(job, spent, job) } else { Note::Yield(job, spent) }]);
        }
        if !queue.jobs.is_empty() {
            self.ready.insert((queue.runtime, number));
        }
        true
    }
}

struct Any(u64);

impl Any {
    fn next(&mut self) -> u64 {
        self.0 ^= self.0 << 13;
        self.0 ^= self.0 >> 7;
        self.0 ^= self.0 << 17;
        self.0
    }
}

fn measure<N: Notes>(notes: impl Fn() -> N, words: &[String]) {
    let [queues, jobs, rounds] = [2, 3, 4].map(|it| words[it].parse::<u32>().expect("a number"));
    let is_turns = words[0] != "jobs";
    let shares = |queue: u32| if queue == 0 { 1000 } else { u64::from(100 + queue * 37 % 900) };
    let queue_of = |queue| Queue { shares: shares(queue), runtime: 0, jobs: VecDeque::with_capacity(jobs as usize + 1) };
    let open = || {
        let mut core = Core { notes: notes(), queues: (0..queues).map(queue_of).collect(), ready: BTreeSet::new(), floor: 0, out: None };
        for job in 0..if is_turns { queues * jobs } else { 0 } {
            core.submit(job / jobs, u64::from(job));
        }
        core
    };
    let mut core = open();
    let mut any = Any(88172645463325252);
    for _ in 0..rounds {
        // A seat has a journal, and a house of its own in each round.
        if words[0] == "seats" {
            core = open();
        }
        let began = Instant::now();
        let mut sum = 0;
        for each in 0..TIMES {
            if !is_turns {
                core.submit(each % queues, u64::from(each));
            }
            sum += core.next().expect("a queue has work");
            assert!(core.settle(!is_turns, 500 + any.next() % 1000));
        }
        println!("{:.0} {sum}", began.elapsed().as_nanos() as f64 * 10.0 / f64::from(TIMES));
    }
}

fn main() {
    let words: Vec<String> = std::env::args().skip(1).collect();
    match words[1].as_str() {
        "dropped" => measure(|| Dropped, &words),
        // The memory is touched before, as that of a house is.
        "kept" => measure(|| Kept({ let mut all = vec![Note::Start(0); 4 * TIMES as usize]; all.clear(); all }), &words),
        _ => measure(|| NoNotes, &words),
    }
}
