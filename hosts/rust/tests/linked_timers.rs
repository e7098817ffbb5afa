//! Jobs that sleep on the cores of a house.

use fairexec::linked::{Answer, Config, Core, Cx, House, Job, Opened, Outcome, Outside, Step, Turn};
use fairexec::{wall_clock, Error, Mode};
use std::cell::Cell;
use std::panic::{catch_unwind, AssertUnwindSafe};
use std::sync::mpsc;
use std::thread;
use std::time::Duration;

thread_local!(static NOW: Cell<u64> = const { Cell::new(0) });

fn sent<T, J>(told: Result<T, (Error, J)>) -> Result<T, Error> {
    told.map_err(|(error, _)| error)
}

/// A house of one core, whose jobs may sleep by a clock of this thread.
fn single<J>(places: u32) -> Result<(House<J>, Core<J>, Outside<J>), Error> {
    let (house, mut cores, outside): Opened<J> = House::open(&Config { places, notes: 1 << 12, ..Config::default() })?;
    cores[0].set_clock(|| NOW.get());
    cores[0].open_timers()?;
    Ok((house, cores.remove(0), outside))
}

/// Ends a house whose core is drained. Its journals are sound.
fn end<J>(house: House<J>, core: Core<J>, outside: Outside<J>) -> Result<(), Error> {
    assert!(house.end(vec![core], outside).map_err(|(error, ..)| error)?.audit()?.is_sound);
    Ok(())
}

/// A job is the time until which it sleeps, and then it is done with the time of its last run.
fn sleeps(until: &mut u64, cx: &mut Cx<'_, u64>) -> Step {
    if cx.now() < *until { cx.sleep_until(*until) } else { Step::Done(cx.now()) }
}

/// The core has nothing to do before this time, and does something then.
fn goes_on_at(core: &mut Core<u64>, time: u64) -> Result<(), Error> {
    while core.round(sleeps)? {}
    assert_eq!(core.next_time(), Some(time));
    NOW.set(time - 1);
    assert!(!core.round(sleeps)?);
    NOW.set(time);
    assert!(core.round(sleeps)?);
    Ok(())
}

#[test]
fn jobs_of_all_actors_sleep_until_their_time() -> Result<(), Error> {
    let (house, mut core, mut outside) = single(8)?;
    let outer = [300, 100].map(|time| outside.submit(0, 0, time));
    let own = [200, 400].map(|time| core.submit(0, 0, time));
    for time in [100, 200, 300] {
        goes_on_at(&mut core, time)?;
    }
    // The last one is awake as the core closes, and sleeps on.
    outside.close_all(Mode::Finish)?;
    while core.round(sleeps)? {}
    assert!(!core.is_drained());
    NOW.set(399);
    assert!(!core.round(sleeps)?);
    NOW.set(400);
    core.run(sleeps)?;
    assert_eq!((core.is_drained(), core.next_time()), (true, None));
    for (ticket, time) in outer.into_iter().zip([300, 100]) {
        assert_eq!(outside.wait_for(&sent(ticket)?)?, Outcome::Done(time));
    }
    core.collect()?;
    for (ticket, time) in own.into_iter().zip([200, 400]) {
        assert_eq!(core.redeem(&sent(ticket)?)?, Outcome::Done(time));
    }
    assert_eq!(core.stats_of(0)?.picks, 8);
    end(house, core, outside)
}

#[test]
fn a_delivery_wakes_and_a_turn_runs() -> Result<(), Error> {
    let (house, mut core, mut outside) = single(4)?;
    let ticket = sent(outside.submit(0, 0, 50))?;
    assert!(core.deliver()?);
    assert_eq!(core.run_turn(sleeps)?, Turn::Parked);
    NOW.set(50);
    assert_eq!(core.run_turn(sleeps)?, Turn::Idle);
    assert!(core.deliver()?);
    assert_eq!(core.run_turn(sleeps)?, Turn::Done);
    assert!(!core.deliver()?);
    assert_eq!(outside.wait_for(&ticket)?, Outcome::Done(50));
    outside.close_all(Mode::Finish)?;
    core.run(sleeps)?;
    end(house, core, outside)
}

#[test]
fn who_is_woken_before_its_time_has_no_timer_any_more() -> Result<(), Error> {
    let (house, mut core, mut outside) = single(4)?;
    let ticket = sent(outside.submit(0, 0, 500))?;
    while core.round(sleeps)? {}
    let wake = outside.wake(ticket.name())?;
    while core.round(|_, cx| Step::Done(cx.now() + 1))? {}
    assert_eq!(outside.wait_for(&wake)?, Outcome::Answered(Answer::Woken));
    assert_eq!((outside.wait_for(&ticket)?, core.next_time()), (Outcome::Done(1), None));
    // Its time comes between the wake and the run: nobody is woken by the timer.
    let ticket = sent(outside.submit(0, 0, 600))?;
    while core.round(sleeps)? {}
    let wake = outside.wake(ticket.name())?;
    assert!(core.deliver()?);
    NOW.set(600);
    assert!(!core.deliver()?);
    assert_eq!((core.next_time(), core.run_turn(|_, _| Step::Park)?), (None, Turn::Parked));
    assert!(!core.round(sleeps)?);
    outside.detach(wake)?;
    let wake = outside.wake(ticket.name())?;
    while core.round(sleeps)? {}
    assert_eq!(outside.wait_for(&ticket)?, Outcome::Done(600));
    outside.detach(wake)?;
    outside.close_all(Mode::Finish)?;
    core.run(sleeps)?;
    end(house, core, outside)
}

#[test]
fn more_jobs_sleep_than_the_link_takes_wakes() -> Result<(), Error> {
    for places in [2, 3, 16] {
        let (house, mut core, mut outside) = single(places)?;
        let mut tickets = Vec::new();
        while let Ok(ticket) = core.submit(0, 0, 70) {
            tickets.push(ticket);
        }
        while let Ok(ticket) = outside.submit(0, 0, 70) {
            outside.detach(ticket)?;
        }
        assert_eq!(tickets.len(), places as usize - 1);
        while core.round(sleeps)? {}
        NOW.set(70);
        while core.round(sleeps)? {}
        assert_eq!((core.stats().held, core.next_time()), (0, None));
        for ticket in tickets {
            assert_eq!(core.redeem(&ticket)?, Outcome::Done(70));
        }
        outside.collect()?;
        outside.close_all(Mode::Finish)?;
        core.run(sleeps)?;
        end(house, core, outside)?;
        NOW.set(0);
    }
    Ok(())
}

#[test]
fn a_link_that_takes_no_wake_is_no_reason_to_spin() -> Result<(), Error> {
    let (house, mut core, mut outside) = single(2)?;
    let ticket = sent(outside.submit(0, 0, 70))?;
    while core.round(sleeps)? {}
    // Nobody redeems these, so the link of the core to itself is full.
    let orders = [core.create(0, 500)?, core.create(0, 500)?];
    while core.round(sleeps)? {}
    let longest = |core: &mut Core<u64>| core.wait_by(|| false, |longest| longest);
    assert_eq!(longest(&mut core), Duration::from_nanos(70));
    NOW.set(70);
    assert_eq!(longest(&mut core), Duration::ZERO);
    assert!(!core.round(sleeps)?);
    assert_eq!((longest(&mut core), core.next_time()), (Duration::from_millis(10), Some(70)));
    for order in orders {
        assert!(matches!(core.redeem(&order)?, Outcome::Answered(Answer::Created(_))));
    }
    assert!(core.round(sleeps)?);
    assert_eq!(outside.wait_for(&ticket)?, Outcome::Done(70));
    outside.close_all(Mode::Finish)?;
    core.run(sleeps)?;
    end(house, core, outside)
}

#[test]
fn a_core_waits_until_the_next_time() -> Result<(), Error> {
    let (house, mut core, mut outside) = single(4)?;
    let longest = |core: &mut Core<u64>| core.wait_by(|| false, |longest| longest);
    assert_eq!(longest(&mut core), Duration::from_millis(10));
    let tickets = [20_000_000, 3_000_000].map(|time| outside.submit(0, 0, time));
    while core.round(sleeps)? {}
    assert_eq!(longest(&mut core), Duration::from_millis(3));
    NOW.set(2_999_999);
    assert_eq!(longest(&mut core), Duration::from_nanos(1));
    goes_on_at(&mut core, 3_000_000)?;
    assert_eq!(longest(&mut core), Duration::from_millis(10));
    NOW.set(20_000_000);
    while core.round(sleeps)? {}
    for ticket in tickets {
        assert!(matches!(outside.wait_for(&sent(ticket)?)?, Outcome::Done(_)));
    }
    outside.close_all(Mode::Finish)?;
    core.run(sleeps)?;
    end(house, core, outside)
}

#[test]
fn jobs_that_sleep_go_back_from_a_core_that_hands_back() -> Result<(), Error> {
    let (house, mut core, mut outside) = single(4)?;
    let other = outside.create(0, 100)?;
    let tickets = [(0, 100), (1, 200), (1, 300)].map(|(queue, time)| outside.submit(0, queue, time));
    while core.round(sleeps)? {}
    assert_eq!(outside.wait_for(&other)?, Outcome::Answered(Answer::Created(1)));
    core.close(Mode::Return)?;
    core.run(sleeps)?;
    // Nobody sleeps any more, and the timers find that out.
    assert_eq!((core.is_drained(), core.next_time()), (true, Some(100)));
    NOW.set(1000);
    assert!(!core.deliver()?);
    assert_eq!((core.is_drained(), core.next_time()), (true, None));
    for (ticket, time) in tickets.into_iter().zip([100, 200, 300]) {
        assert!(matches!(outside.wait_for(&sent(ticket)?)?, Outcome::Back(_, job) if job == time));
    }
    end(house, core, outside)
}

#[test]
fn a_job_that_finds_no_timer_looks_again() -> Result<(), Error> {
    // Two actors have two places each, so there are four timers.
    let (house, mut core, mut outside) = single(2)?;
    let other = outside.create(0, 100)?;
    while core.round(sleeps)? {}
    assert_eq!(outside.wait_for(&other)?, Outcome::Answered(Answer::Created(1)));
    let tickets = [outside.submit(0, 1, 1000), outside.submit(0, 1, 1000), core.submit(0, 1, 1000)];
    while core.round(sleeps)? {}
    // They go back, and their timers stay.
    let [first, second, own] = tickets;
    let close = core.close_queue(0, 1, Mode::Return)?;
    while core.round(sleeps)? {}
    for ticket in [first, second] {
        assert!(matches!(outside.wait_for(&sent(ticket)?)?, Outcome::Back(..)));
    }
    assert!(matches!((core.redeem(&close)?, core.redeem(&sent(own)?)?), (Outcome::Answered(Answer::Closed), Outcome::Back(..))));
    let tickets = [outside.submit(0, 0, 500), outside.submit(0, 0, 600)];
    assert!(core.deliver()? && core.deliver()?);
    assert_eq!((core.run_turn(sleeps)?, core.run_turn(sleeps)?, core.run_turn(sleeps)?), (Turn::Parked, Turn::Yielded, Turn::Yielded));
    assert_eq!((core.next_time(), core.stats_of(0)?.done), (Some(500), 0));
    // Once one is free, it sleeps.
    NOW.set(500);
    assert!(core.deliver()?);
    assert_eq!((core.run_turn(sleeps)?, core.run_turn(sleeps)?, core.next_time()), (Turn::Parked, Turn::Done, Some(600)));
    NOW.set(1000);
    while core.round(sleeps)? {}
    for (ticket, time) in tickets.into_iter().zip([500, 1000]) {
        assert_eq!(outside.wait_for(&sent(ticket)?)?, Outcome::Done(time));
    }
    outside.close_all(Mode::Finish)?;
    core.run(sleeps)?;
    end(house, core, outside)
}

#[test]
fn timers_are_asked_for() -> Result<(), Error> {
    let (house, mut cores, mut outside): Opened<Job> = House::open(&Config::default())?;
    let core = &mut cores[0];
    sent(outside.submit(0, 0, Job::new(|cx| cx.sleep_until(7)))).map(drop)?;
    assert!(core.deliver()?);
    assert!(catch_unwind(AssertUnwindSafe(|| core.run_jobs())).is_err());
    assert_eq!((core.next_time(), core.stats().held), (None, 0));
    assert_eq!((core.open_timers(), core.open_timers()), (Ok(()), Ok(())));
    outside.close_all(Mode::Finish)?;
    core.run_jobs()?;
    assert!(house.end(cores, outside).map_err(|(error, ..)| error)?.audit()?.is_sound);
    let (_house, mut cores, _outside): Opened<Job> = House::open(&Config { places: 1, ..Config::default() })?;
    assert_eq!(cores[0].open_timers(), Err(Error::BadNumber));
    Ok(())
}

/// Each try sleeps twice as long as the one before. It tells when they were.
fn tries(told: &mpsc::Sender<(u32, u64)>, count: u32) -> Job {
    let (told, mut tried, mut wait) = (told.clone(), 0, Duration::from_millis(1));
    Job::new(move |cx| {
        told.send((cx.core(), cx.now())).expect("it is heard");
        tried += 1;
        wait *= 2;
        if tried < count { cx.sleep_for(wait) } else { Step::Done(u64::from(tried)) }
    })
}

#[test]
fn threads_that_sleep_get_up_for_timers() -> Result<(), Error> {
    let (house, mut cores, mut outside): Opened<Job> = House::open(&Config { cores: 2, ..Config::default() })?;
    let (tells, hears) = mpsc::channel();
    cores.iter_mut().try_for_each(Core::open_timers)?;
    let threads: Vec<_> = cores.into_iter().map(|mut core| thread::spawn(move || core.run_jobs().map(|()| core))).collect();
    let tickets = [0, 1].map(|core| outside.submit(core, 0, tries(&tells, 5)));
    // A lease: it ends at its time, and is woken before.
    let mut end = None;
    let lease = Job::new(move |cx| match end {
        Some(end) => Step::Done(u64::from(cx.now() >= end)),
        None => cx.sleep_until(*end.insert(cx.now() + 600_000_000_000)),
    });
    let lease = sent(outside.submit(1, 0, lease))?;
    for ticket in tickets {
        assert!(matches!(outside.wait_for(&sent(ticket)?)?, Outcome::Done(5)));
    }
    let wake = outside.wake(lease.name())?;
    assert!(matches!(outside.wait_for(&wake)?, Outcome::Answered(Answer::Woken)));
    assert!(matches!(outside.wait_for(&lease)?, Outcome::Done(0)));
    outside.close_all(Mode::Finish)?;
    let cores = threads.into_iter().map(|it| it.join().expect("a core ends")).collect::<Result<_, _>>()?;
    assert!(house.end(cores, outside).map_err(|(error, ..)| error)?.audit()?.is_sound);
    drop(tells);
    let mut times = [Vec::new(), Vec::new()];
    hears.iter().for_each(|(core, time)| times[core as usize].push(time));
    for times in times {
        let waits: Vec<_> = times.windows(2).map(|it| Duration::from_nanos(it[1] - it[0])).collect();
        assert!(waits.iter().zip([2, 4, 8, 16]).all(|(wait, least)| *wait >= Duration::from_millis(least)), "{waits:?}");
        assert_eq!(waits.len(), 4);
    }
    assert!(wall_clock() < 600_000_000_000);
    Ok(())
}
