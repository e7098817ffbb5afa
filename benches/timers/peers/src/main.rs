// How late tokio's timers fire on one thread: timers_peers JOBS NAPS. So many tasks sleep so often each, for the times that the program in Rattle has.
// Prints a line for each sleep: how many nanoseconds late it ended.
use std::time::{Duration, Instant};
use tokio::runtime::Builder;
use tokio::time::sleep;

const LEAST: u64 = 1_000_000;
const SPAN: u64 = 999_000_000;

/// A chain of numbers, as the program in Rattle has it.
struct Dice(u64);

impl Dice {
    fn between(&mut self, least: u64, span: u64) -> u64 {
        self.0 = self.0.wrapping_mul(6364136223846793005).wrapping_add(1442695040888963407);
        least + (self.0 >> 33) % span
    }
}

/// How late each of so many sleeps of a task ends.
async fn late(number: u64, naps: usize) -> Vec<u128> {
    let (mut dice, mut late) = (Dice(number), Vec::with_capacity(naps));
    for _ in 0..naps {
        let time = Duration::from_nanos(dice.between(LEAST, SPAN));
        let begun = Instant::now();
        sleep(time).await;
        late.push(begun.elapsed().as_nanos().wrapping_sub(time.as_nanos()));
    }
    late
}

fn main() {
    let words: Vec<usize> = std::env::args().skip(1).map(|it| it.parse().expect("a number")).collect();
    let runtime = Builder::new_current_thread().enable_time().build().expect("a runtime");
    let all: Vec<_> = (0..words[0] as u64).map(|number| runtime.spawn(late(number, words[1]))).collect();
    for task in all {
        for late in runtime.block_on(task).expect("it ends") {
            println!("{late}");
        }
    }
}
