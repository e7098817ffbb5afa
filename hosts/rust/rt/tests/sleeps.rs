//! Flag, look, sleep: nothing is slept over. A model of the steps goes through all their orders, and a million rounds are made on two threads.

use fairexec::linked::{Config, House, Step};
use fairexec::Mode;
use std::sync::atomic::{AtomicBool, AtomicU64, Ordering};
use std::sync::{Arc, Condvar, Mutex};
use std::time::Duration;

#[derive(Clone, Copy, PartialEq)]
enum Act {
    // Of who sleeps.
    Flag,
    Look,
    Sleep,
    // Of who rings.
    Put,
    Read,
    Ring,
}

#[derive(Clone, Copy, Default)]
struct World {
    flag: bool,
    work: bool,
    rung: bool,
    found: bool,
    seen: bool,
}

/// Whether each order of these steps ends with the sleeper awake or with nothing to do.
fn never_sleeps_over(sleeper: &[Act], ringer: &[Act], world: World) -> bool {
    let step = |act: Act| {
        let mut world = world;
        match act {
            Act::Flag => world.flag = true,
            Act::Look => world.found = world.work,
            // It blocks until it is rung, unless it found something.
            Act::Sleep if !world.found && !world.rung => return None,
            Act::Sleep => {}
            Act::Put => world.work = true,
            Act::Read => world.seen = world.flag,
            Act::Ring => world.rung |= world.seen,
        }
        Some(world)
    };
    let slept = sleeper.split_first().map(|(first, rest)| step(*first).map(|it| never_sleeps_over(rest, ringer, it)));
    let rang = ringer.split_first().map(|(first, rest)| never_sleeps_over(sleeper, rest, step(*first).expect("a ringer never blocks")));
    match (slept, rang) {
        (None, None) => true,
        // It is blocked, and nobody is left to ring.
        (Some(None), None) => !world.work,
        (slept, rang) => slept.flatten().unwrap_or(true) && rang.unwrap_or(true),
    }
}

#[test]
fn no_order_of_the_steps_sleeps_over_work() {
    use Act::{Flag, Look, Put, Read, Ring, Sleep};
    let world = World::default();
    assert!(never_sleeps_over(&[Flag, Look, Sleep], &[Put, Read, Ring], world));
    // In any other order of the first two something is slept over.
    assert!(!never_sleeps_over(&[Look, Flag, Sleep], &[Put, Read, Ring], world));
    assert!(!never_sleeps_over(&[Flag, Look, Sleep], &[Read, Put, Ring], world));
}

/// A ring that is kept until it is heard.
#[derive(Default)]
struct Kept {
    rung: Mutex<bool>,
    rings: Condvar,
}

impl Kept {
    fn ring(&self) {
        *self.rung.lock().unwrap() = true;
        self.rings.notify_one();
    }

    /// False if nobody rang for so long.
    fn wait(&self, longest: Duration) -> bool {
        let (mut rung, _) = self.rings.wait_timeout_while(self.rung.lock().unwrap(), longest, |rung| !*rung).unwrap();
        std::mem::replace(&mut *rung, false)
    }
}

#[test]
fn a_million_rounds_lose_no_ring() {
    const ROUNDS: u64 = 1_000_000;
    let (house, mut cores, mut outside) = House::open(&Config { places: 4, notes: 4096, ..Config::default() }).unwrap();
    let mut core = cores.remove(0);
    core.keep_notes_by(|_| {});
    outside.keep_notes_by(|_| {});
    let (kept, mail, done) = (Arc::new(Kept::default()), Arc::new(AtomicBool::new(false)), Arc::new(AtomicU64::new(0)));
    let bell = Arc::clone(&kept);
    core.set_bell(move || bell.ring());
    let ringer = core.ringer();
    let (has_mail, counts) = (Arc::clone(&mail), Arc::clone(&done));
    let sleeper = std::thread::spawn(move || {
        let (mut slept, mut lost) = (0_u64, 0_u64);
        while !core.is_drained() {
            let mut did = core
                .round(|_: &mut u64, _| {
                    counts.fetch_add(1, Ordering::SeqCst);
                    Step::Done(0)
                })
                .unwrap();
            if has_mail.swap(false, Ordering::SeqCst) {
                counts.fetch_add(1, Ordering::SeqCst);
                did = true;
            }
            if !did {
                // It waits for much longer than the wrapper says, so that a ring that is lost shows.
                let waits = |longest: Duration| longest.is_zero() || kept.wait(Duration::from_secs(20));
                let had = counts.load(Ordering::SeqCst);
                slept += 1;
                lost += u64::from(!core.wait_by(|| has_mail.load(Ordering::SeqCst), waits) && had < ROUNDS);
            }
        }
        core.pass_on(&mut Vec::new()).unwrap();
        (core, slept, lost)
    });
    let mut dice = 88_172_645_463_325_252_u64;
    for round in 0..ROUNDS {
        if round % 2 == 0 {
            let ticket = outside.submit(0, 0, round).map_err(|(error, _)| error).unwrap();
            outside.detach(ticket).unwrap();
        } else {
            mail.store(true, Ordering::SeqCst);
            ringer.ring();
        }
        while done.load(Ordering::SeqCst) <= round {
            std::hint::spin_loop();
            if dice % 8 == 0 {
                std::thread::yield_now();
            }
        }
        outside.collect().unwrap();
        // The next round comes while the sleeper is at any of its steps.
        dice ^= dice << 13;
        dice ^= dice >> 7;
        dice ^= dice << 17;
        for _ in 0..dice % 300 {
            std::hint::spin_loop();
        }
    }
    outside.close_all(Mode::Finish).unwrap();
    let (core, slept, lost) = sleeper.join().unwrap();
    outside.pass_on(&mut Vec::new()).unwrap();
    drop(house.end(vec![core], outside).map_err(|(error, ..)| error).unwrap());
    println!("{ROUNDS} rounds, {slept} waits");
    assert_eq!(lost, 0);
    assert!(slept > ROUNDS / 100, "the sleeper slept {slept} times");
}
