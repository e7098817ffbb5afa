//! The counts of a core, for any thread.

use crate::raw;
use crate::stats::{CoreStats, QueueStats};
use std::sync::atomic::{fence, AtomicU64, Ordering};
use std::sync::Arc;
use std::thread;

/// Words of a core, and of a queue of it.
const CORE: usize = 8;
const QUEUE: usize = 9;
const MOST_QUEUES: usize = 256;

/// Where a core leaves its counts: its thread alone writes, and any thread reads.
///
/// The version is odd while words are written. Who reads words of two writes finds another version behind them than before, and reads again: if a
/// word is of a later write, the fence behind the words sees the version that this write had begun with.
struct Board {
    version: AtomicU64,
    words: Box<[AtomicU64]>,
}

impl Board {
    fn write(&self, words: &[u64]) {
        let version = self.version.load(Ordering::Relaxed);
        self.version.store(version + 1, Ordering::Relaxed);
        fence(Ordering::Release);
        for (place, word) in self.words.iter().zip(words) {
            place.store(*word, Ordering::Relaxed);
        }
        self.version.store(version + 2, Ordering::Release);
    }

    fn read(&self) -> Vec<u64> {
        loop {
            let version = self.version.load(Ordering::Acquire);
            // The first word counts the queues. If it is of another write, so much the worse for this try.
            let queues = (self.words[0].load(Ordering::Relaxed) as usize).min(MOST_QUEUES);
            let words = self.words[..CORE + queues * QUEUE].iter().map(|it| it.load(Ordering::Relaxed)).collect();
            fence(Ordering::Acquire);
            if version % 2 == 0 && self.version.load(Ordering::Relaxed) == version {
                return words;
            }
            thread::yield_now();
        }
    }
}

/// The counts of a core, for any thread. It is cheap to clone, and may outlive the core.
///
/// ```
/// use fairexec::linked::{Config, House, Step};
///
/// let (_house, mut cores, mut outside) = House::open(&Config::default())?;
/// let stats = cores[0].shared_stats();
/// outside.submit(0, 0, "a job").map(drop).map_err(|(error, _)| error)?;
/// let core = &mut cores[0];
/// while core.round(|_, _| Step::Done(7))? {}
/// core.show_stats();
/// let reader = std::thread::spawn(move || stats.read());
/// let (core, queues) = reader.join().expect("it reads");
/// assert_eq!((core.turns, core.held, queues.len(), queues[0].done), (1, 0, 1, 1));
/// # Ok::<(), fairexec::Error>(())
/// ```
#[derive(Clone)]
pub struct Stats(Arc<Board>);

impl Stats {
    /// The counts of the core and of its queues, by their numbers, as they were together at one time. A core that runs tells them behind each 1000
    /// turns or some more, or as many for each of more than 16 queues. One that has nothing to do tells them before it sleeps. Once the core has ended
    /// or was dropped, its last counts stay.
    pub fn read(&self) -> (CoreStats, Vec<QueueStats>) {
        let words = self.0.read();
        let (core, queues) = words.split_at(CORE);
        (CoreStats::of(&core_of(core)), queues.chunks_exact(QUEUE).map(|it| QueueStats::of(&queue_of(it))).collect())
    }
}

fn words_of_core(it: &raw::fx_core_stats) -> [u64; CORE] {
    [it.queues.into(), it.room, it.held, it.turns, it.floor_low, it.floor_high, it.running.into(), it.closed.into()]
}

fn core_of(words: &[u64]) -> raw::fx_core_stats {
    raw::fx_core_stats {
        size: 0,
        queues: words[0] as u32,
        room: words[1],
        held: words[2],
        turns: words[3],
        floor_low: words[4],
        floor_high: words[5],
        running: words[6] as u32,
        closed: words[7] as u32,
    }
}

fn words_of_queue(it: &raw::fx_queue_stats) -> [u64; QUEUE] {
    [it.shares.into(), it.picks, it.waiting, it.done, it.back, it.time_low, it.time_high, it.virtual_low, it.virtual_high]
}

fn queue_of(words: &[u64]) -> raw::fx_queue_stats {
    raw::fx_queue_stats {
        size: 0,
        shares: words[0] as u32,
        picks: words[1],
        waiting: words[2],
        done: words[3],
        back: words[4],
        time_low: words[5],
        time_high: words[6],
        virtual_low: words[7],
        virtual_high: words[8],
    }
}

/// The side of a board that its core has.
pub(super) struct Shows {
    board: Arc<Board>,
    // Room for what is written.
    words: Vec<u64>,
    // The counts are told behind so many more turns, and behind so many.
    left: u32,
    every: u32,
}

impl Shows {
    pub(super) fn new() -> Shows {
        let words = (0..CORE + MOST_QUEUES * QUEUE).map(|_| AtomicU64::new(0)).collect();
        Shows { board: Arc::new(Board { version: AtomicU64::new(0), words }), words: Vec::new(), left: 0, every: 0 }
    }

    pub(super) fn stats(&self) -> Stats {
        Stats(Arc::clone(&self.board))
    }

    /// So many turns were made. Whether the counts are to be told.
    #[inline]
    pub(super) fn count(&mut self, turns: u32) -> bool {
        self.left = self.left.saturating_sub(turns);
        self.left == 0
    }

    /// Whether turns were made since the counts were told.
    pub(super) fn is_behind(&self) -> bool {
        self.left < self.every
    }

    /// Tells the counts of a core, and those of its queues.
    pub(super) fn tell(&mut self, core: &raw::fx_core_stats, queues: impl Iterator<Item = raw::fx_queue_stats>) {
        self.words.clear();
        self.words.extend(words_of_core(core));
        self.words.extend(queues.flat_map(|it| words_of_queue(&it)));
        self.board.write(&self.words);
        // To tell a queue's counts takes some turns' time, and some forty turns' beside more than 15 others. So a core with many queues does so less
        // often.
        self.every = if core.queues > 16 { 1024 * core.queues } else { 1024 + 16 * core.queues };
        self.left = self.every;
    }
}

#[cfg(test)]
mod tests {
    use super::{raw, Shows, CORE, QUEUE};
    use std::sync::atomic::{AtomicBool, Ordering};
    use std::thread;

    #[test]
    fn a_core_with_many_queues_tells_its_counts_less_often() {
        let mut shows = Shows::new();
        for (queues, every) in [(1, 1_040), (16, 1_280), (17, 17_408)] {
            let core = raw::fx_core_stats { queues, ..raw::fx_core_stats::default() };
            shows.tell(&core, (0..queues).map(|_| raw::fx_queue_stats::default()));
            assert!(!shows.count(every - 1) && shows.count(1), "{queues} queues");
        }
    }

    #[test]
    fn no_reader_finds_words_of_two_writes() {
        let board = Shows::new().board;
        let has_ended = AtomicBool::new(false);
        let rounds: u64 = 20_000;
        thread::scope(|scope| {
            let readers: Vec<_> = (0..3)
                .map(|_| {
                    scope.spawn(|| {
                        let (mut last, mut reads) = (0, 0);
                        while !has_ended.load(Ordering::SeqCst) {
                            let words = board.read();
                            // The first word counts the queues, and all others are the number of the write.
                            let number = words[1];
                            assert!(words[1..].iter().all(|it| *it == number) && number >= last, "{words:?}");
                            assert_eq!((words.len(), words[0]), (CORE + (number % 3) as usize * QUEUE, number % 3));
                            (last, reads) = (number, reads + 1);
                        }
                        reads
                    })
                })
                .collect();
            for number in 1..=rounds {
                let queues = number % 3;
                let mut words = vec![number; CORE + queues as usize * QUEUE];
                words[0] = queues;
                board.write(&words);
            }
            has_ended.store(true, Ordering::SeqCst);
            assert!(readers.into_iter().map(|it| it.join().expect("no panic")).sum::<u32>() > 0);
        });
    }
}
