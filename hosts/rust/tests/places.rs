//! Jobs run where they stand, and a link is looked at from its first order on.

use fairexec::linked::{Answer, Config, Core, House, Name, Opened, Outcome, Outside, Reason, Step, Ticket};
use fairexec::{Error, Mode};
use std::sync::atomic::{AtomicU64, Ordering};
use std::sync::Arc;

fn open<J>(places: u32) -> Result<(House<J>, [Core<J>; 2], Outside<J>), Error> {
    let (house, cores, outside): Opened<J> = House::open(&Config { cores: 2, places, burst: 2, notes: 1 << 12, ..Config::default() })?;
    Ok((house, cores.try_into().ok().expect("two cores"), outside))
}

fn sent<T, J>(told: Result<T, (Error, J)>) -> Result<T, Error> {
    told.map_err(|(error, _)| error)
}

/// Submits an order to core 1. The name is that of a job which isn't there.
type Order = fn(&mut Outside<u64>, Name) -> Result<Ticket, Error>;

/// Orders of each kind, and what each is answered.
const ORDERS: [(Order, Outcome<u64>); 6] = [
    (|it, _| sent(it.submit(1, 7, 5)), Outcome::Back(Reason::NoQueue, 5)),
    (|it, _| it.create(1, 10), Outcome::Answered(Answer::Created(1))),
    (|it, _| it.set_shares(1, 0, 10), Outcome::Answered(Answer::SharesSet)),
    (|it, _| it.close_queue(1, 0, Mode::Finish), Outcome::Answered(Answer::Closed)),
    (|it, _| it.close_core(1, Mode::Finish), Outcome::Answered(Answer::Closed)),
    (|it, name| it.wake(name), Outcome::Answered(Answer::NoJob)),
];

#[test]
fn the_first_order_of_a_link_is_delivered() -> Result<(), Error> {
    for (order, outcome) in ORDERS {
        let (_house, [mut first, mut second], mut outside) = open(4)?;
        let job = sent(first.submit(1, 0, 1))?;
        assert!(second.deliver()? && !second.deliver()?);
        assert!(second.round(|_, _| Step::Done(0))?);
        let ticket = order(&mut outside, job.name())?;
        assert!(second.deliver()?);
        assert_eq!((outside.collect()?, outside.redeem(&ticket)?), (1, outcome));
    }
    Ok(())
}

#[test]
fn a_core_delivers_each_of_its_own_orders() -> Result<(), Error> {
    let (_house, [_first, mut core], _outside) = open(2)?;
    for count in 0..5 {
        assert!(!core.deliver()?);
        let tickets = [sent(core.submit(1, 0, count))?, core.set_shares(1, 0, 20)?];
        assert!(core.deliver()? && core.deliver()? && !core.deliver()?);
        assert!(core.round(|job, _| Step::Done(*job))?);
        assert_eq!(core.redeem(&tickets[0])?, Outcome::Done(count));
        core.detach(tickets.into_iter().next_back().expect("two"))?;
    }
    Ok(())
}

#[test]
fn a_place_has_the_job_that_was_put_there_last() -> Result<(), Error> {
    let (_house, [_first, mut second], mut outside) = open(1)?;
    // The lane of a link of one place has room for two jobs, so each of its places had one that is done.
    for job in 1..4u64 {
        let ticket = sent(outside.submit(1, 0, job))?;
        assert!(second.round(|job, _| Step::Done(*job))?);
        assert_eq!(outside.wait_for(&ticket)?, Outcome::Done(job));
    }
    let ticket = sent(outside.submit(1, 9, 77))?;
    assert!(second.deliver()?);
    assert_eq!(outside.wait_for(&ticket)?, Outcome::Back(Reason::NoQueue, 77));
    Ok(())
}

/// A job that submits another one in each of its runs, and is done once it was run four times.
struct Runs {
    runs: [u64; 9],
    submits: bool,
    dropped: Arc<AtomicU64>,
}

impl Drop for Runs {
    fn drop(&mut self) {
        self.dropped.fetch_add(self.runs[8], Ordering::SeqCst);
    }
}

#[test]
fn a_job_keeps_what_it_changed_while_others_come_and_go() -> Result<(), Error> {
    let (_house, [_first, mut second], mut outside) = open(16)?;
    let dropped = Arc::new(AtomicU64::new(0));
    let job = |submits| Runs { runs: [0; 9], submits, dropped: Arc::clone(&dropped) };
    let tickets = (0..8).map(|_| sent(outside.submit(1, 0, job(true)))).collect::<Result<Vec<_>, _>>()?;
    let mut refused = 0;
    while second.round(|it, cx| {
        it.runs.iter_mut().for_each(|count| *count += 1);
        if it.submits {
            match cx.submit(1, 0, job(false)) {
                Ok(ticket) => cx.detach(ticket).expect("it is this core's"),
                Err((error, _)) => refused += u64::from(error == Error::Full),
            }
        }
        if it.runs == [4; 9] { Step::Done(it.runs.iter().sum()) } else { Step::Yield }
    })? {}
    assert_eq!(outside.collect()?, 8);
    for ticket in tickets {
        assert!(matches!(outside.redeem(&ticket)?, Outcome::Done(36)));
    }
    // Each that was taken in had four runs, and was dropped once.
    assert_eq!(dropped.load(Ordering::SeqCst), 4 * (8 + 32 - refused));
    Ok(())
}
