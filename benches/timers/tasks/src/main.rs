// How late the timers of fairexec-rt end on one core: timers_tasks JOBS NAPS. So many tasks sleep so often each, for the times that the program in
// Rattle has. Prints a line for each sleep: how many nanoseconds late it ended.
use fairexec_rt::{sleep, spawn_local, Executor, Queue};
use std::time::{Duration, Instant};

const LEAST: u64 = 1_000_000;
const SPAN: u64 = 999_000_000;

/// A chain of numbers, as the program in Rattle has it.
struct Dice(u64);

impl Dice {
    fn between(&mut self, least: u64, span: u64) -> u64 {
        self.0 = self.0.wrapping_mul(6364136223846793005).wrapping_add(1442695040888963407);
        least + (self.0 >> 33) % span
    }
}

/// How late each of so many sleeps of a task ends.
async fn late(number: u64, naps: usize) -> Vec<u128> {
    let (mut dice, mut late) = (Dice(number), Vec::with_capacity(naps));
    for _ in 0..naps {
        let time = Duration::from_nanos(dice.between(LEAST, SPAN));
        let begun = Instant::now();
        sleep(time).await;
        late.push(begun.elapsed().as_nanos().wrapping_sub(time.as_nanos()));
    }
    late
}

fn main() {
    let words: Vec<usize> = std::env::args().skip(1).map(|it| it.parse().expect("a number")).collect();
    let (tasks, naps) = (words[0] as u64, words[1]);
    let run = Executor::builder().run(move |_| async move {
        let all: Vec<_> = (0..tasks).map(|number| spawn_local(Queue::FIRST, late(number, naps))).collect();
        for task in all {
            for late in task.await.expect("it ends") {
                println!("{late}");
            }
        }
    });
    run.expect("it runs");
}
