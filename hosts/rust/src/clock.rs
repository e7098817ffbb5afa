//! The clocks that runs are measured by.

use std::arch::x86_64::{__cpuid, _rdtsc};
use std::cell::Cell;
use std::sync::OnceLock;
use std::time::Instant;

/// A clock that jobs are measured by, in nanoseconds from any start. It may be the time of the wall or that of the thread.
pub type Clock = fn() -> u64;

/// For so many ticks behind a reading of the wall's clock the counter tells the time: some 20 µs.
const SPAN: u64 = 1 << 16;

/// A reading of the wall's clock that took more ticks was interrupted. It tells the time, and nothing of the counter.
const BRIEF: u64 = 1 << 12;

/// A tick has so many nanoseconds at most, else the counter isn't used. So a span has at most 131 µs.
const LONGEST: u64 = 2;

/// The last reading of the wall's clock that this thread made.
struct Reading {
    /// The counter behind it, or 0 if there was none.
    ticks: Cell<u64>,
    wall: Cell<u64>,
    /// Nanoseconds of a tick, by 2^-32, or 0 if no two readings told them yet.
    rate: Cell<u64>,
    /// The time that was told last.
    told: Cell<u64>,
}

/// The processor's counter.
#[inline]
fn counter() -> u64 {
    // SAFETY: each processor of x86-64 has it.
    unsafe { _rdtsc() }
}

/// Whether the counter neither stops nor changes its rate, which is what the processor says.
fn is_steady() -> bool {
    static STEADY: OnceLock<bool> = OnceLock::new();
    const POWER: u32 = 0x8000_0007;
    // SAFETY: each processor of x86-64 has it.
    #[allow(unused_unsafe)]
    *STEADY.get_or_init(|| unsafe { __cpuid(0x8000_0000).eax >= POWER && __cpuid(POWER).edx & 1 << 8 != 0 })
}

fn wall() -> u64 {
    static START: OnceLock<Instant> = OnceLock::new();
    START.get_or_init(Instant::now).elapsed().as_nanos() as u64
}

/// The time of the wall since the first call. On one thread it never goes back.
///
/// For some 20 µs behind a reading of the wall's clock the processor's counter tells how much time passed, at the rate that it had between two
/// readings before. So a short run is measured to some hundredths, and a longer one by the wall's clock. After a leap of the counter a time may be
/// wrong by 131 µs, until the wall's clock is read next.
///
/// The counter is used if the processor says that it neither stops nor changes its rate. The counters of all processors have to agree, as they do
/// where Linux has the clock source `tsc`.
#[inline]
pub fn wall_clock() -> u64 {
    thread_local! {
        static LAST: Reading = const { Reading::none() };
    }
    LAST.with(|last| last.time(counter, wall, is_steady))
}

/// The time of a clock, or of the wall if there is none.
#[inline]
pub(crate) fn now(clock: Option<Clock>) -> u64 {
    match clock {
        Some(clock) => clock(),
        None => wall_clock(),
    }
}

impl Reading {
    const fn none() -> Reading {
        Reading { ticks: Cell::new(0), wall: Cell::new(0), rate: Cell::new(0), told: Cell::new(0) }
    }

    #[inline]
    fn time(&self, counter: impl Fn() -> u64, wall: impl Fn() -> u64, is_steady: fn() -> bool) -> u64 {
        let passed = counter().wrapping_sub(self.ticks.get());
        if passed < SPAN {
            // The rate is at most 2^33 and a little, so the product is below 2^50.
            let time = self.wall.get() + (passed * self.rate.get() >> 32);
            // Without a rate, and by a counter that stands still, no time passed.
            if time > self.told.get() {
                self.told.set(time);
                return time;
            }
        }
        let told = self.told.get().max(self.read(counter, wall, is_steady));
        self.told.set(told);
        told
    }

    /// Reads the wall's clock.
    #[cold]
    #[inline(never)]
    fn read(&self, counter: impl Fn() -> u64, wall: impl Fn() -> u64, is_steady: fn() -> bool) -> u64 {
        let before = counter();
        let wall = wall();
        let ticks = counter();
        if ticks.wrapping_sub(before) >= BRIEF {
            return wall;
        }
        let is_first = self.ticks.get() == 0;
        let (passed, took) = (ticks.wrapping_sub(self.ticks.get()), wall.saturating_sub(self.wall.get()));
        // The first two readings that are far enough from each other tell the first rate.
        if !is_first && passed < SPAN {
            return wall;
        }
        if !is_first && took < 1 << 32 && took / LONGEST <= passed && is_steady() {
            self.rate.set((took << 32) / passed);
        }
        self.ticks.set(ticks);
        self.wall.set(wall);
        wall
    }
}

#[cfg(test)]
mod tests {
    use super::{Reading, BRIEF, LONGEST, SPAN};
    use std::cell::Cell;

    /// A machine: each look at its counter takes 5 ns, and each at its wall's clock `looks` ns.
    struct Machine {
        now: Cell<u64>,
        /// What the counter has beside what its rate makes.
        offset: Cell<u64>,
        /// Ticks for so many nanoseconds.
        rate: (u64, u64),
        stands: Cell<bool>,
        looks: Cell<u64>,
        looked: Cell<u64>,
        clock: Reading,
    }

    impl Machine {
        fn new(rate: (u64, u64), offset: u64) -> Machine {
            let (now, offset, clock) = (Cell::new(1000), Cell::new(offset), Reading::none());
            Machine { now, offset, rate, stands: Cell::new(false), looks: Cell::new(20), looked: Cell::new(0), clock }
        }

        fn passes(&self, time: u64) {
            self.now.set(self.now.get() + time);
            if self.stands.get() {
                self.leaps(0u64.wrapping_sub(time * self.rate.0 / self.rate.1));
            }
        }

        fn leaps(&self, ticks: u64) {
            self.offset.set(self.offset.get().wrapping_add(ticks));
        }

        /// How wrong the clock is now. It doesn't go back.
        fn error(&self) -> u64 {
            let before = self.clock.told.get();
            let counter = || {
                self.passes(5);
                self.offset.get().wrapping_add((u128::from(self.now.get()) * u128::from(self.rate.0) / u128::from(self.rate.1)) as u64)
            };
            let wall = || {
                self.looked.set(self.looked.get() + 1);
                let wall = self.now.get();
                self.passes(self.looks.get());
                wall
            };
            let told = self.clock.time(counter, wall, || true);
            assert!(told >= before);
            told.abs_diff(self.now.get())
        }

        /// The greatest error in so many steps of so many nanoseconds.
        fn errors(&self, count: u64, step: u64) -> u64 {
            (0..count).map(|_| (self.passes(step), self.error()).1).max().unwrap_or(0)
        }
    }

    /// Processors of 3 GHz, 1 GHz and 0.5 GHz.
    const RATES: [(u64, u64); 3] = [(3, 1), (1, 1), (1, 2)];

    #[test]
    fn the_counter_tells_short_times_also_where_it_wraps() {
        for (rate, offset) in RATES.into_iter().zip([0, u64::MAX - 2_000_000, u64::MAX - 100_000]) {
            let machine = Machine::new(rate, offset);
            let greatest = machine.errors(5000, 100);
            assert!(greatest < 500, "{greatest} ns");
            // Each span has one reading, and until the first is over each look is one.
            let spans = 5000 * 150 * rate.0 / rate.1 / SPAN;
            let first = SPAN * rate.1 / rate.0 / 100;
            assert!(machine.looked.get() < first + 2 * spans, "{} readings", machine.looked.get());
            // The thread sleeps.
            for seconds in [1, 4, 5, 100_000] {
                machine.passes(seconds * 1_000_000_000);
                assert!(machine.errors(1000, 100) < 500);
            }
        }
    }

    #[test]
    fn a_counter_that_stands_still_tells_nothing() {
        for calibrated in [0, 1000] {
            let machine = Machine::new((3, 1), 77);
            machine.errors(calibrated, 100);
            machine.stands.set(true);
            assert!(machine.errors(1000, 2000) < 5000);
            machine.stands.set(false);
            assert!(machine.errors(1000, 100) < LONGEST * SPAN);
            assert!(machine.errors(1000, 100) < 500);
        }
    }

    #[test]
    fn a_leap_of_the_counter_is_mended() {
        for rate in RATES {
            for ticks in [1, 1000, 60_000, 1 << 20, 1 << 33, 1 << 63] {
                for leap in [ticks, 0u64.wrapping_sub(ticks)] {
                    let machine = Machine::new(rate, 1 << 40);
                    machine.errors(400, 1000);
                    for _ in 0..3 {
                        machine.leaps(leap);
                        assert!(machine.errors(400, 1000) < LONGEST * SPAN, "{rate:?} {ticks}");
                        assert!(machine.errors(100, 1000) < 500, "{rate:?} {ticks}");
                    }
                }
            }
        }
    }

    #[test]
    fn a_counter_of_another_rate_is_not_used() {
        // 0.1 GHz, and so fast that a tick is nothing.
        for rate in [(1, 10), (1 << 40, 1)] {
            let machine = Machine::new(rate, 0);
            assert!(machine.errors(2000, 1000) < 100);
            assert_eq!(machine.looked.get(), 2000);
        }
    }

    #[test]
    fn an_interrupted_reading_tells_the_time_alone() {
        let machine = Machine::new((3, 1), 0);
        machine.errors(1000, 100);
        for _ in 0..3 {
            // It is interrupted for 10 ms behind its look.
            machine.looks.set(10_000_000);
            machine.passes(SPAN);
            assert!(machine.error() > 9_000_000);
            machine.looks.set(20);
            assert!(machine.errors(1000, 100) < 500);
        }
        // A clock of the wall that takes long always is the one that is read.
        machine.looks.set(BRIEF);
        assert!(machine.errors(1000, 100) < 2 * BRIEF);
        let looked = machine.looked.get();
        machine.errors(1000, 100);
        assert_eq!(machine.looked.get() - looked, 1000);
    }
}
