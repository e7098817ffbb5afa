// A core by hand: a `BTreeSet` of (virtual runtime, queue), a `VecDeque` for each queue, and notes of 48 bytes pushed to a `Vec`.
// Prints tenths of nanoseconds for one turn or one delivery, and the floor after them.
use std::collections::{BTreeSet, VecDeque};
use std::time::Instant;

const TURNS: u64 = 100_000;
const DELIVERIES: u64 = 1_000;
const ROOM: usize = 2048;
const NOTES: usize = 3072;

#[allow(dead_code)]
#[derive(Clone, Copy)]
struct JobId {
    from: u8,
    to: u8,
    number: u64,
}

#[allow(dead_code)]
#[derive(Clone, Copy)]
enum Note {
    Took(JobId, u8),
    Back(JobId, u8),
    Pick(u8, u128),
    Start(JobId),
    Resume(JobId),
    Yield(JobId, u64),
    Done(JobId, u64, u64),
    Turned(u8, u64),
}

enum Step {
    Yield,
    Done(u64),
}

trait Job {
    fn fresh() -> Self;

    fn poll(&mut self) -> Step;
}

/// A job of 24 bytes.
struct Small {
    left: u64,
    sum: u64,
    done: bool,
}

/// A job of 536 bytes.
struct Large {
    left: u64,
    sum: u64,
    done: bool,
    words: [u64; 64],
}

impl Job for Large {
    fn fresh() -> Large {
        Large { left: u64::MAX, sum: 0, done: false, words: [3; 64] }
    }

    fn poll(&mut self) -> Step {
        if self.left > 0 {
            self.left -= 1;
            self.sum = self.sum.wrapping_add(self.words[(self.left % 64) as usize]);
            return Step::Yield;
        }
        self.done = true;
        Step::Done(self.sum)
    }
}

impl Job for Small {
    fn fresh() -> Small {
        Small { left: u64::MAX, sum: 0, done: false }
    }

    fn poll(&mut self) -> Step {
        if self.left > 0 {
            self.left -= 1;
            self.sum = self.sum.wrapping_add(self.left);
            return Step::Yield;
        }
        self.done = true;
        Step::Done(self.sum)
    }
}

struct Queue<J> {
    line: VecDeque<(JobId, bool, J)>,
    shares: u64,
    runtime: u128,
    selected: u64,
    time: u128,
    finished: u64,
}

struct Core<J> {
    queues: Vec<Queue<J>>,
    ready: BTreeSet<(u128, u8)>,
    delivered: [u64; 2],
    floor: u128,
    turns: u64,
    inside: usize,
    out: Option<(JobId, u8)>,
    // Its queue, its polls, and their time.
    turn_open: Option<(u8, u64, u64)>,
    journal: Vec<Note>,
    dice: u64,
}

impl<J: Job> Core<J> {
    fn open(queues: u64) -> Core<J> {
        let queue = |_| Queue { line: VecDeque::with_capacity(ROOM), shares: 1000, runtime: 0, selected: 0, time: 0, finished: 0 };
        Core {
            queues: (0..queues).map(queue).collect(),
            ready: BTreeSet::new(),
            delivered: [0; 2],
            floor: 0,
            turns: 0,
            inside: 0,
            out: None,
            turn_open: None,
            journal: Vec::with_capacity(NOTES),
            dice: 1,
        }
    }

    fn roll(&mut self) -> u64 {
        self.dice = self.dice.wrapping_mul(6364136223846793005).wrapping_add(1442695040888963407);
        self.dice >> 33
    }

    fn note(&mut self, note: Note) {
        if self.journal.len() == self.journal.capacity() {
            self.journal.clear();
        }
        self.journal.push(note);
    }

    fn deliver(&mut self, name: JobId, queue: u8, job: J) {
        self.delivered[name.from as usize] = name.number;
        if queue as usize >= self.queues.len() {
            self.note(Note::Back(name, queue));
            return;
        }
        let works = !self.queues[queue as usize].line.is_empty() || matches!(self.out, Some((_, out)) if out == queue);
        let floor = self.floor;
        let to = &mut self.queues[queue as usize];
        to.line.push_back((name, false, job));
        self.inside += 1;
        if !works {
            to.runtime = to.runtime.max(floor);
            self.ready.insert((to.runtime, queue));
        }
        self.note(Note::Took(name, queue));
    }

    fn send(&mut self, queue: u64) {
        let name = JobId { from: 0, to: 0, number: self.delivered[0] + 1 };
        if self.inside < ROOM {
            self.deliver(name, queue as u8, J::fresh());
        }
    }

    // One poll of an open turn, or its end. Whether it was a poll.
    fn follow(&mut self, burst: u64, spent: u64) -> bool {
        let (queue, polls, time) = self.turn_open.unwrap();
        let of = &mut self.queues[queue as usize];
        if polls == burst || of.line.is_empty() {
            of.runtime += u128::from((time * 1000).div_ceil(of.shares));
            of.time += u128::from(time);
            if !of.line.is_empty() {
                self.ready.insert((of.runtime, queue));
            }
            self.turn_open = None;
            self.note(Note::Turned(queue, time));
            return false;
        }
        let (name, started, mut job) = of.line.pop_front().unwrap();
        self.note(if started { Note::Resume(name) } else { Note::Start(name) });
        let step = job.poll();
        let of = &mut self.queues[queue as usize];
        match step {
            Step::Yield => {
                of.line.push_back((name, true, job));
                self.note(Note::Yield(name, spent));
            }
            Step::Done(answer) => {
                of.finished += 1;
                self.inside -= 1;
                self.note(Note::Done(name, spent, answer));
            }
        }
        self.turn_open = Some((queue, polls + 1, (time + spent.max(1)).min((1 << 40) - 1)));
        true
    }

    // A turn that may have several polls begins: its queue is taken, and its first job polled.
    fn begin(&mut self, burst: u64, spent: u64) {
        let Some((runtime, queue)) = self.ready.pop_first() else { return };
        self.queues[queue as usize].selected += 1;
        self.floor = self.floor.max(runtime);
        self.turns += 1;
        self.note(Note::Pick(queue, runtime));
        self.turn_open = Some((queue, 0, 0));
        self.follow(burst, spent);
    }

    #[inline(never)]
    fn bursts(&mut self, burst: u64) {
        for _ in 0..TURNS {
            let spent = self.roll() % 1024;
            if burst < 2 {
                self.turn(spent);
                continue;
            }
            if self.turn_open.is_some() && self.follow(burst, spent) {
                continue;
            }
            self.begin(burst, spent);
        }
    }

    fn turn(&mut self, spent: u64) {
        if self.out.is_some() {
            return;
        }
        let Some((runtime, queue)) = self.ready.pop_first() else { return };
        let from = &mut self.queues[queue as usize];
        let (name, started, mut job) = from.line.pop_front().unwrap();
        from.selected += 1;
        self.floor = self.floor.max(runtime);
        self.turns += 1;
        self.out = Some((name, queue));
        self.note(Note::Pick(queue, runtime));
        self.note(if started { Note::Resume(name) } else { Note::Start(name) });
        let step = job.poll();
        let Some((name, queue)) = self.out.take() else { return };
        let of = &mut self.queues[queue as usize];
        let clamped = spent.clamp(1, (1 << 40) - 1);
        of.runtime += u128::from((clamped * 1000).div_ceil(of.shares));
        of.time += u128::from(clamped);
        match step {
            Step::Yield => {
                of.line.push_back((name, true, job));
                self.ready.insert((of.runtime, queue));
                self.note(Note::Yield(name, spent));
            }
            Step::Done(answer) => {
                of.finished += 1;
                self.inside -= 1;
                if !of.line.is_empty() {
                    self.ready.insert((of.runtime, queue));
                }
                self.note(Note::Done(name, spent, answer));
            }
        }
    }

    #[inline(never)]
    fn turns(&mut self) {
        for _ in 0..TURNS {
            let spent = self.roll() % 1024;
            self.turn(spent);
        }
    }

    #[inline(never)]
    fn deliveries(&mut self, queues: u64) {
        for _ in 0..DELIVERIES {
            let queue = self.roll() % queues;
            self.send(queue);
        }
    }
}

fn measure<J: Job>(what: &str, queues: u64, jobs: u64, burst: u64) {
    let mut core: Core<J> = Core::open(queues);
    for job in 0..jobs {
        core.send(job % queues);
    }
    let start = Instant::now();
    let count = if what == "deliveries" {
        core.deliveries(queues);
        DELIVERIES
    } else if what == "bursts" {
        core.bursts(burst);
        TURNS
    } else {
        core.turns();
        TURNS
    };
    println!("{} {}", start.elapsed().as_nanos() / u128::from(count / 10), core.floor);
}

fn main() {
    let words: Vec<String> = std::env::args().collect();
    let number = |place: usize| words.get(place).and_then(|word| word.parse::<u64>().ok()).unwrap_or(1);
    for _ in 0..number(4) {
        match words[5].as_str() {
            "large" => measure::<Large>(&words[1], number(2).max(1), number(3), number(6)),
            _ => measure::<Small>(&words[1], number(2).max(1), number(3), number(6)),
        }
    }
}
