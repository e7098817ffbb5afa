//! Jobs that sleep on a core alone: none is woken before its time, and none twice for one timer.

use fairexec::{Core, Error, House, Job, Mode, Next, Settled, Step, Timers, Turn};
use std::cell::Cell;
use std::panic::{catch_unwind, AssertUnwindSafe};
use std::sync::mpsc;
use std::time::Duration;

#[path = "../examples/leases.rs"]
#[allow(dead_code)]
mod leases;

thread_local!(static NOW: Cell<u64> = const { Cell::new(0) });

fn clock() -> u64 {
    NOW.get()
}

fn sent<T, J>(told: Result<T, (Error, J)>) -> Result<T, Error> {
    told.map_err(|(error, _)| error)
}

/// The next job parks until this time.
fn sleeps(core: &mut Core, timers: &mut Timers, time: u64) -> Result<Settled, Error> {
    assert!(matches!(core.next_job()?, Next::Start(_) | Next::Resume(_)));
    core.settle_until(timers, Step::Park, 1, Some(time))
}

// --- A core alone ---

#[test]
fn timers_are_for_some_jobs() {
    assert_eq!(Timers::new(0).err(), Some(Error::BadNumber));
    assert_eq!(Timers::new(131_071).err(), Some(Error::BadNumber));
    assert_eq!(Timers::new(131_070).ok().and_then(|mut it| it.next_time()), None);
}

#[test]
fn no_job_is_woken_before_its_time() -> Result<(), Error> {
    let (mut core, mut timers) = (Core::open(6)?, Timers::new(4)?);
    assert!(!core.wake_due(&mut timers, u64::MAX)?);
    assert_eq!(core.settle_until(&mut timers, Step::Park, 1, Some(5)), Err(Error::NoJob));
    for time in [0, 1, 500, u64::MAX - 1] {
        core.submit(0, time)?;
        assert_eq!(sleeps(&mut core, &mut timers, time)?, Settled::Parked);
        assert_eq!(timers.next_time(), Some(time));
        if time > 0 {
            assert!(!core.wake_due(&mut timers, time - 1)?);
            assert_eq!((core.next_job()?, timers.next_time()), (Next::Idle, Some(time)));
        }
        // Its time counts, and there is one wake.
        assert!(core.wake_due(&mut timers, time)?);
        assert!(!core.wake_due(&mut timers, u64::MAX)?);
        assert_eq!((core.next_job()?, timers.next_time()), (Next::Resume(time), None));
        assert_eq!(core.settle_until(&mut timers, Step::Park, 1, None)?, Settled::Parked);
        assert!(!core.wake_due(&mut timers, u64::MAX)?);
    }
    assert_eq!((core.stats().held, core.next_job()?), (4, Next::Idle));
    Ok(())
}

#[test]
fn jobs_are_woken_in_the_order_of_their_times() -> Result<(), Error> {
    let (mut core, mut timers) = (Core::open(8)?, Timers::new(8)?);
    for time in [30, 10, 20, 40, 15] {
        core.submit(0, time)?;
        sleeps(&mut core, &mut timers, time)?;
    }
    assert_eq!(timers.next_time(), Some(10));
    while core.wake_due(&mut timers, 30)? {}
    assert_eq!(timers.next_time(), Some(40));
    for job in [10, 15, 20, 30] {
        assert_eq!(core.next_job()?, Next::Resume(job));
        core.settle_until(&mut timers, Step::Done, 1, None)?;
    }
    assert_eq!(core.next_job()?, Next::Idle);
    Ok(())
}

#[test]
fn a_job_that_is_woken_before_its_time_has_no_timer_any_more() -> Result<(), Error> {
    let (mut core, mut timers) = (Core::open(4)?, Timers::new(4)?);
    for step in [Step::Yield, Step::Park, Step::Done] {
        let order = core.submit_numbered(0, 7)?;
        sleeps(&mut core, &mut timers, 100)?;
        core.wake(order)?;
        assert_eq!((core.next_job()?, timers.next_time()), (Next::Resume(7), Some(100)));
        core.settle_until(&mut timers, step, 1, None)?;
        assert_eq!(timers.next_time(), None);
        assert!(!core.wake_due(&mut timers, u64::MAX)?);
        if step == Step::Yield {
            assert_eq!(core.next_job()?, Next::Resume(7));
            core.settle_until(&mut timers, Step::Done, 1, None)?;
        }
        assert_eq!(core.next_job()?, Next::Idle);
    }
    // It was woken, and its time comes before its run.
    let order = core.submit_numbered(0, 8)?;
    sleeps(&mut core, &mut timers, 100)?;
    core.wake(order)?;
    assert!(core.wake_due(&mut timers, 100)?);
    assert_eq!((core.next_job()?, timers.next_time()), (Next::Resume(8), None));
    // No wake was kept.
    assert_eq!(core.settle_until(&mut timers, Step::Park, 1, None)?, Settled::Parked);
    Ok(())
}

#[test]
fn the_timer_of_a_job_that_is_gone_wakes_nobody() -> Result<(), Error> {
    let (mut core, mut timers) = (Core::open(4)?, Timers::new(4)?);
    let order = core.submit_numbered(0, 7)?;
    sleeps(&mut core, &mut timers, 100)?;
    core.wake(order)?;
    // It is settled as if there were no timers.
    assert_eq!((core.next_job()?, core.settle(Step::Done, 1)?), (Next::Resume(7), Settled::Done));
    core.submit(0, 8)?;
    sleeps(&mut core, &mut timers, 200)?;
    assert_eq!(timers.next_time(), Some(100));
    while core.wake_due(&mut timers, 199)? {}
    assert_eq!((core.next_job()?, timers.next_time()), (Next::Idle, Some(200)));
    // One that goes back is gone, too.
    core.close(Mode::Return)?;
    assert_eq!(core.next_job()?, Next::Back(8));
    while core.wake_due(&mut timers, 200)? {}
    assert_eq!((core.next_job()?, timers.next_time(), core.stats().held), (Next::Idle, None, 0));
    Ok(())
}

#[test]
fn full_timers_refuse_a_run_that_is_settled_otherwise() -> Result<(), Error> {
    let (mut core, mut timers) = (Core::open(6)?, Timers::new(2)?);
    for job in 0..5 {
        core.submit(0, job)?;
    }
    sleeps(&mut core, &mut timers, 50)?;
    sleeps(&mut core, &mut timers, 60)?;
    assert_eq!(sleeps(&mut core, &mut timers, 10), Err(Error::Full));
    assert_eq!((core.next_job(), timers.next_time()), (Err(Error::Busy), Some(50)));
    assert_eq!(core.settle_until(&mut timers, Step::Yield, 1, Some(10))?, Settled::Queued);
    assert_eq!(core.next_job()?, Next::Start(3));
    assert_eq!(core.settle_until(&mut timers, Step::Done, 1, Some(10))?, Settled::Done);
    assert_eq!(core.next_job()?, Next::Start(4));
    assert_eq!(core.settle_until(&mut timers, Step::Park, 1, Some(u64::MAX))?, Settled::Parked);
    assert!(core.wake_due(&mut timers, 50)? && !core.wake_due(&mut timers, 59)?);
    // One timer is free again.
    assert_eq!(sleeps(&mut core, &mut timers, 10)?, Settled::Parked);
    assert_eq!(timers.next_time(), Some(10));
    Ok(())
}

#[test]
fn a_full_core_takes_the_wake_later() -> Result<(), Error> {
    let (mut core, mut timers) = (Core::open(2)?, Timers::new(2)?);
    core.submit(0, 7)?;
    sleeps(&mut core, &mut timers, 10)?;
    core.submit(0, 8)?;
    assert_eq!((core.wake_due(&mut timers, 10), timers.next_time()), (Err(Error::Full), Some(10)));
    assert_eq!(core.next_job()?, Next::Start(8));
    core.settle_until(&mut timers, Step::Done, 1, None)?;
    assert!(core.wake_due(&mut timers, 10)?);
    assert_eq!(core.next_job()?, Next::Resume(7));
    Ok(())
}

// --- A house of one core ---

/// So many tries, each behind twice the wait of the one before. It tells when they were.
fn tries(told: &mpsc::Sender<u64>, count: u32) -> Job {
    let (told, mut left, mut wait) = (told.clone(), count, 5);
    Job::new(move |cx| {
        told.send(cx.now()).expect("it is heard");
        left -= 1;
        wait *= 2;
        if left > 0 { cx.sleep_for(Duration::from_nanos(wait)) } else { Step::Done }
    })
}

#[test]
fn a_job_tries_again_behind_twice_the_wait() -> Result<(), Error> {
    let (tells, hears) = mpsc::channel();
    let mut house = House::open_with(2, clock)?;
    house.open_timers()?;
    sent(house.submit(0, tries(&tells, 5)))?;
    while house.stats().held > 0 {
        if matches!(house.turn()?, Turn::Idle) {
            // The thread sleeps: until then nothing is to be done.
            let time = house.next_time().expect("it sleeps");
            NOW.set(time - 1);
            assert!(matches!(house.turn()?, Turn::Idle));
            NOW.set(time);
        }
    }
    drop((house, tells));
    assert_eq!(hears.iter().collect::<Vec<_>>(), [0, 10, 30, 70, 150]);
    Ok(())
}

/// A lease: it ends at its time unless it is woken before, which renews it. It tells when it ended.
fn lease(told: &mpsc::Sender<u64>, length: u64) -> Job {
    let (told, mut end) = (told.clone(), None);
    Job::new(move |cx| {
        if end.is_some_and(|end| cx.now() >= end) {
            told.send(cx.now()).expect("it is heard");
            return Step::Done;
        }
        end = Some(cx.now() + length);
        cx.sleep_until(cx.now() + length)
    })
}

#[test]
fn a_lease_ends_at_its_time_unless_it_is_renewed() -> Result<(), Error> {
    let (tells, hears) = mpsc::channel();
    let mut house = House::open_with(8, clock)?;
    house.open_timers()?;
    let renewed = sent(house.submit_numbered(0, lease(&tells, 100)))?;
    sent(house.submit(0, lease(&tells, 100)))?;
    for now in (0..400).step_by(10) {
        NOW.set(now);
        if now == 40 || now == 130 {
            house.wake(renewed)?;
        }
        while !matches!(house.turn()?, Turn::Idle) {}
    }
    assert_eq!((house.stats().held, house.next_time()), (0, None));
    assert_eq!(hears.try_iter().collect::<Vec<_>>(), [100, 230]);
    Ok(())
}

#[test]
fn a_house_with_timers_keeps_a_place_for_wakes() -> Result<(), Error> {
    let mut house: House<u64> = House::open_with(4, clock)?;
    for job in 0..4 {
        sent(house.submit(0, job))?;
    }
    assert_eq!(house.open_timers(), Err(Error::Full));
    assert_eq!(house.run_turn(|_, _| Step::Done)?, Turn::Done(0));
    assert_eq!((house.open_timers(), house.open_timers()), (Ok(()), Ok(())));
    assert_eq!(house.submit(0, 9), Err((Error::Full, 9)));
    for _ in 0..3 {
        // A run in which a job submits another finds no place either.
        let turn = house.run_turn(|job, cx| {
            assert_eq!(cx.submit(0, 9), Err((Error::Full, 9)));
            cx.sleep_until(10 * *job)
        })?;
        assert_eq!(turn, Turn::Parked);
    }
    assert_eq!((house.run_turn(|_, _| Step::Done)?, house.next_time()), (Turn::Idle, Some(10)));
    NOW.set(30);
    for job in 1..4 {
        assert_eq!(house.run_turn(|_, _| Step::Done)?, Turn::Done(job));
        sent(house.submit(0, 10 + job))?;
    }
    // It is as full as may be, and closed.
    assert_eq!(house.submit(0, 9), Err((Error::Full, 9)));
    house.close(Mode::Finish)?;
    assert_eq!(house.submit(0, 9), Err((Error::Closed, 9)));
    Ok(())
}

#[test]
fn a_clock_is_asked_for_timers_while_a_job_sleeps() -> Result<(), Error> {
    thread_local!(static ASKED: Cell<u32> = const { Cell::new(0) });
    fn asked() -> u64 {
        ASKED.set(ASKED.get() + 1);
        clock()
    }
    let mut house: House<()> = House::open_with(2, asked)?;
    house.open_timers()?;
    assert_eq!((house.run_turn(|(), _| Step::Done)?, ASKED.get()), (Turn::Idle, 0));
    sent(house.submit(0, ()))?;
    // A run has two readings.
    assert_eq!((house.run_turn(|(), cx| cx.sleep_until(5))?, ASKED.get()), (Turn::Parked, 2));
    assert_eq!((house.run_turn(|(), _| Step::Done)?, ASKED.get()), (Turn::Idle, 3));
    NOW.set(5);
    assert_eq!((house.run_turn(|(), _| Step::Park)?, ASKED.get()), (Turn::Parked, 6));
    assert_eq!((house.run_turn(|(), _| Step::Done)?, ASKED.get()), (Turn::Idle, 6));
    Ok(())
}

#[test]
fn a_job_that_finds_no_timer_looks_again() -> Result<(), Error> {
    let mut house: House<u64> = House::open_with(4, clock)?;
    house.open_timers()?;
    let other = house.create(1000)?;
    for (queue, job) in [(other, 1), (other, 2), (other, 3)] {
        sent(house.submit(queue, job))?;
        assert_eq!(house.run_turn(|_, cx| cx.sleep_until(1000))?, Turn::Parked);
    }
    // They go back, and their timers stay until their time.
    house.close_queue(other, Mode::Return)?;
    for job in 1..4 {
        assert_eq!(house.run_turn(|_, _| Step::Done)?, Turn::Back(job));
    }
    sent(house.submit(0, 4))?;
    assert_eq!(house.run_turn(|_, cx| cx.sleep_until(2000))?, Turn::Parked);
    sent(house.submit(0, 5))?;
    for _ in 0..3 {
        assert_eq!(house.run_turn(|_, cx| cx.sleep_until(500))?, Turn::Yielded);
    }
    NOW.set(1000);
    assert_eq!(house.run_turn(|_, cx| cx.sleep_until(1500))?, Turn::Parked);
    assert_eq!((house.next_time(), house.stats().held), (Some(1500), 2));
    Ok(())
}

#[test]
fn a_job_of_a_house_without_timers_ends_by_a_panic() -> Result<(), Error> {
    let mut house = House::open_with(2, clock)?;
    sent(house.submit(0, Job::new(|cx| cx.sleep_until(7))))?;
    assert!(catch_unwind(AssertUnwindSafe(|| house.turn())).is_err());
    assert_eq!((house.stats().held, house.next_time()), (0, None));
    house.open_timers()?;
    // Between two turns nobody sleeps, and a run that comes to another step doesn't either.
    assert_eq!(house.cx().sleep_until(7), Step::Park);
    sent(house.submit(0, Job::new(|cx| if cx.sleep_until(7) == Step::Park { Step::Done } else { Step::Yield })))?;
    assert!(matches!(house.turn()?, Turn::Done(_)));
    assert_eq!(house.next_time(), None);
    Ok(())
}

#[test]
fn a_house_takes_its_timers_to_its_thread() -> Result<(), Error> {
    let (mut house, mut runs) = (House::open(2)?, 0);
    house.open_timers()?;
    let job = Job::new(move |cx| {
        runs += 1;
        if runs == 1 { cx.sleep_for(Duration::from_millis(3)) } else { Step::Done }
    });
    sent(house.submit(0, job))?;
    assert!(matches!(house.turn()?, Turn::Parked));
    let ran = house.start(|mut house| {
        while house.stats().held > 0 {
            let time = house.next_time().expect("it sleeps");
            assert!(matches!(house.turn(), Ok(Turn::Idle | Turn::Done(_))));
            std::thread::sleep(Duration::from_nanos(time.saturating_sub(fairexec::wall_clock())));
        }
        house.stats_of(0)
    });
    assert_eq!(ran.join().expect("it ends")?.picks, 2);
    Ok(())
}

#[test]
fn the_example_tells_what_it_did() -> Result<(), Error> {
    assert_eq!(leases::run()?, leases::TELLS);
    Ok(())
}
