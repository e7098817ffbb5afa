// A `BTreeSet` of (128-bit virtual runtime, queue number). Prints nanoseconds for one look at the least, its pick and its reinsertion.
use std::collections::BTreeSet;
use std::time::Instant;

fn main() {
    for queues in [2u32, 16, 64, 256] {
        let mut best = f64::MAX;
        let mut check = 0;
        for _ in 0..100 {
            let mut set: BTreeSet<(u128, u8)> = (0..queues).map(|q| (q as u128, q as u8)).collect();
            let (mut dice, mut sum) = (1u64, 0u64);
            let turns = 100_000;
            let start = Instant::now();
            for _ in 0..turns {
                sum += u64::from(set.first().unwrap().1);
                let (vr, queue) = set.pop_first().unwrap();
                dice = dice.wrapping_mul(6364136223846793005).wrapping_add(1442695040888963407);
                set.insert((vr + u128::from(dice >> 44), queue));
            }
            best = best.min(start.elapsed().as_nanos() as f64 / turns as f64);
            check = set.first().unwrap().0 + u128::from(sum);
        }
        println!("{queues} {best:.1} {check}");
    }
}
