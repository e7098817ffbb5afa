//! An actor that sleeps is rung for each of its outcomes, and a job that is taken in rings nobody. Both cores are on this thread: what core 1 does is
//! done in the wait of core 0, whose flag is set all the while.

use fairexec::linked::{Answer, Config, Core, House, Outcome, Outside, Reason, Step, Ticket};
use fairexec::{Error, Mode};
use std::sync::atomic::{AtomicUsize, Ordering};
use std::sync::Arc;

struct Two {
    house: House<u64>,
    sleeper: Core<u64>,
    other: Core<u64>,
    outside: Outside<u64>,
    rings: Arc<AtomicUsize>,
}

impl Two {
    fn new() -> Result<Two, Error> {
        let (house, mut cores, mut outside) = House::open(&Config { cores: 2, places: 8, notes: 256, ..Config::default() })?;
        let (other, sleeper) = (cores.pop().expect("two cores"), cores.pop().expect("two cores"));
        outside.keep_notes_by(|_| {});
        let mut two = Two { house, sleeper, other, outside, rings: Arc::default() };
        for core in [&mut two.sleeper, &mut two.other] {
            core.keep_notes_by(|_| {});
        }
        let rings = Arc::clone(&two.rings);
        two.sleeper.set_bell(move || _ = rings.fetch_add(1, Ordering::SeqCst));
        Ok(two)
    }

    /// Whether core 0 is rung by what core 1 does.
    fn is_rung_by<T>(&mut self, does: impl FnOnce(&mut Core<u64>) -> Result<T, Error>) -> Result<bool, Error> {
        let before = self.rings.load(Ordering::SeqCst);
        self.sleeper.wait_by(|| false, |_| does(&mut self.other))?;
        Ok(self.rings.load(Ordering::SeqCst) > before)
    }

    fn submit(&mut self, queue: u32) -> Result<Ticket, Error> {
        self.sleeper.submit(1, queue, 7).map_err(|(error, _)| error)
    }

    fn outcome(&mut self, ticket: &Ticket) -> Result<Outcome<u64>, Error> {
        self.sleeper.collect()?;
        self.sleeper.redeem(ticket)
    }

    fn end(mut self) -> Result<(), Error> {
        self.outside.close_all(Mode::Return)?;
        let mut cores = vec![self.sleeper, self.other];
        while !cores.iter_mut().all(Core::is_drained) {
            for core in &mut cores {
                core.round(|_, _| Step::Done(0))?;
            }
        }
        drop(self.house.end(cores, self.outside).map_err(|(error, ..)| error)?);
        Ok(())
    }
}

/// What a core does that has nothing to run.
fn idle_round(core: &mut Core<u64>) -> Result<bool, Error> {
    core.round(|_, _| unreachable!())
}

#[test]
fn an_order_that_is_no_job_is_rung_for() -> Result<(), Error> {
    let mut two = Two::new()?;
    let orders: [(fn(&mut Core<u64>) -> Result<Ticket, Error>, Answer); 3] = [
        (|it| it.set_shares(1, 0, 500), Answer::SharesSet),
        (|it| it.create(1, 300), Answer::Created(1)),
        (|it| it.set_shares(1, 9, 500), Answer::NoQueue),
    ];
    for (order, answer) in orders {
        let ticket = order(&mut two.sleeper)?;
        assert!(two.is_rung_by(idle_round)?);
        assert_eq!(two.outcome(&ticket)?, Outcome::Answered(answer));
        assert!(!two.is_rung_by(idle_round)?);
    }
    two.end()
}

#[test]
fn a_job_that_comes_back_at_once_is_rung_for() -> Result<(), Error> {
    let mut two = Two::new()?;
    let ticket = two.submit(9)?;
    assert!(two.is_rung_by(idle_round)?);
    assert_eq!(two.outcome(&ticket)?, Outcome::Back(Reason::NoQueue, 7));
    let ticket = two.submit(0)?;
    two.other.close(Mode::Return)?;
    assert!(two.is_rung_by(idle_round)?);
    assert!(matches!(two.outcome(&ticket)?, Outcome::Back(..)));
    two.end()
}

#[test]
fn a_job_is_rung_for_at_its_end() -> Result<(), Error> {
    let mut two = Two::new()?;
    let ticket = two.submit(0)?;
    assert!(!two.is_rung_by(Core::deliver)?);
    for _ in 0..50 {
        assert!(!two.is_rung_by(|it| it.round(|_, _| Step::Yield))?);
    }
    assert!(two.is_rung_by(|it| it.run_turn(|_, _| Step::Done(3)))?);
    assert_eq!(two.outcome(&ticket)?, Outcome::Done(3));
    two.end()
}

/// How many rounds of a core that always has work it takes until core 0 is rung.
fn rounds_until_rung(two: &mut Two) -> Result<u32, Error> {
    for rounds in 1..100 {
        if two.is_rung_by(|it| it.round(|_, _| Step::Yield))? {
            return Ok(rounds);
        }
    }
    Ok(100)
}

#[test]
fn a_core_that_is_never_idle_rings_behind_some_rounds() -> Result<(), Error> {
    let mut two = Two::new()?;
    let _works = two.outside.submit(1, 0, 7).map_err(|(error, _)| error)?;
    assert_eq!(rounds_until_rung(&mut two)?, 100);
    for _ in 0..3 {
        let order = two.sleeper.set_shares(1, 0, 500)?;
        assert!(rounds_until_rung(&mut two)? <= 10);
        assert_eq!(two.outcome(&order)?, Outcome::Answered(Answer::SharesSet));
    }
    two.end()
}

/// Orders of all kinds, and turns between them. Each outcome is rung for, at once by a run or a turn that finds no work, and behind some rounds else.
#[test]
fn each_outcome_is_rung_for() -> Result<(), Error> {
    let (mut two, mut dice, mut parked) = (Two::new()?, 88_172_645_463_325_252_u64, None);
    let mut below = |most: u64| {
        dice ^= dice << 13;
        dice ^= dice >> 7;
        dice ^= dice << 17;
        (dice >> 11) % most
    };
    // Rounds since an outcome came for which nobody rang, and what was counted: outcomes, and rings for none.
    let (mut owed, mut came, mut needless) = (None, 0, 0);
    for _ in 0..5000 {
        for _ in 0..below(4) {
            let told = match (below(5), parked) {
                (0, _) => two.submit(9),
                (1, _) => two.sleeper.set_shares(1, 0, 100 + below(900) as u32),
                (2, Some(name)) => two.sleeper.wake(name).inspect(|_| parked = None),
                _ => two.submit(0),
            };
            match told {
                Ok(ticket) => two.sleeper.detach(ticket)?,
                Err(error) => assert_eq!(error, Error::Full),
            }
        }
        let kind = below(4);
        let is_rung = two.is_rung_by(|it| {
            if kind < 2 {
                return it.round(|_, _| Step::Yield).map(drop);
            }
            let told = it.run_turn(|_, cx| {
                if kind == 2 && parked.is_none() {
                    parked = Some(cx.name());
                    return Step::Park;
                }
                Step::Done(1)
            });
            told.map(drop)
        })?;
        let count = two.sleeper.collect()?;
        came += count;
        needless += u32::from(is_rung && count == 0 && owed.is_none());
        owed = match owed {
            _ if is_rung => None,
            None => (count > 0).then_some(0),
            Some(rounds) => Some(rounds + u32::from(kind < 2)),
        };
        assert!(!owed.is_some_and(|it| it >= 10), "an outcome came and nobody rang");
    }
    assert!(came > 2500 && needless < 250, "{came} outcomes, {needless} rings for none");
    two.end()
}
