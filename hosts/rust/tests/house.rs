//! What a house adds to the calls: who owns a core and a job, and what becomes of panics.

use fairexec::{Core, Cx, Error, House, Job, Mode, Next, Settled, Step, Turn};
use std::panic::{catch_unwind, AssertUnwindSafe};
use std::sync::atomic::{AtomicBool, AtomicUsize, Ordering};
use std::sync::Arc;
use std::time::{Duration, Instant};

/// Counts itself, and drops.
struct Counted(Arc<AtomicUsize>, u32);

impl Counted {
    fn new(alive: &Arc<AtomicUsize>, runs: u32) -> Counted {
        alive.fetch_add(1, Ordering::SeqCst);
        Counted(Arc::clone(alive), runs)
    }

    fn run(&mut self) -> Step {
        self.1 -= 1;
        if self.1 == 0 { Step::Done } else { Step::Yield }
    }
}

impl Drop for Counted {
    fn drop(&mut self) {
        self.0.fetch_sub(1, Ordering::SeqCst);
    }
}

#[test]
fn a_core_answers_the_codes_of_its_calls() -> Result<(), Error> {
    assert_eq!(Core::open(0).err(), Some(Error::BadNumber));
    assert_eq!(Core::open(131_071).err(), Some(Error::BadNumber));
    let mut core = Core::open(2)?;
    assert_eq!(core.settle(Step::Done, 1), Err(Error::NoJob));
    assert_eq!(core.next_job(), Ok(Next::Idle));
    assert_eq!(core.submit(1, 5), Err(Error::NoQueue));
    assert_eq!(core.submit(256, 5), Err(Error::NoQueue));
    core.submit(0, 5)?;
    core.submit(0, 6)?;
    assert_eq!(core.submit(0, 7), Err(Error::Full));
    assert_eq!(core.next_job(), Ok(Next::Start(5)));
    assert_eq!(core.next_job(), Err(Error::Busy));
    core.settle(Step::Yield, 1 << 41)?;
    assert_eq!(core.stats_of(0)?.time, (1 << 40) - 1);
    assert_eq!(core.stats_of(0)?.virtual_runtime, (1 << 40) - 1);
    assert_eq!(core.create(10_001), Err(Error::BadShares));
    assert_eq!(core.set_shares(0, 1), Err(Error::Full));
    assert_eq!(core.create(500), Ok(1));
    assert_eq!(core.stats_of(1)?.shares, 500);
    core.close_queue(1, Mode::Finish)?;
    assert_eq!(core.close_queue(1, Mode::Finish), Err(Error::Closed));
    core.close(Mode::Return)?;
    assert_eq!(core.stats().closed, Some(Mode::Return));
    assert_eq!(core.create(500), Err(Error::Closed));
    assert_eq!(core.next_job(), Ok(Next::Back(6)));
    assert_eq!(core.next_job(), Ok(Next::Back(5)));
    assert_eq!(core.next_job(), Ok(Next::Idle));
    assert_eq!(core.stats().held, 0);
    Ok(())
}

#[test]
fn a_core_has_256_queues() -> Result<(), Error> {
    let mut core = Core::open(1)?;
    for queue in 1..256 {
        assert_eq!(core.create(100), Ok(queue));
    }
    assert_eq!(core.create(100), Err(Error::TooMany));
    Ok(())
}

#[test]
fn jobs_of_any_type_are_kept_and_dropped() -> Result<(), Error> {
    let alive = Arc::new(AtomicUsize::new(0));
    let count = || alive.load(Ordering::SeqCst);
    let mut house = House::open(4)?;
    assert!(house.submit(0, Counted::new(&alive, 2)).is_ok());
    assert!(matches!(house.run_turn(|job, _| job.run())?, Turn::Yielded));
    assert!(matches!(house.run_turn(|job, _| job.run())?, Turn::Done(Counted(_, 0))));
    assert_eq!(count(), 0);
    assert!(matches!(house.run_turn(|job: &mut Counted, _| job.run())?, Turn::Idle));
    for _ in 0..4 {
        assert!(house.submit(0, Counted::new(&alive, 1)).is_ok());
    }
    let Err((Error::Full, refused)) = house.submit(0, Counted::new(&alive, 9)) else { panic!("it isn't full") };
    assert_eq!((refused.1, count()), (9, 5));
    drop(refused);
    house.close(Mode::Return)?;
    assert!(matches!(house.run_turn(|job, _| job.run())?, Turn::Back(Counted(_, 1))));
    assert_eq!(count(), 3);
    drop(house);
    assert_eq!(count(), 0);
    Ok(())
}

#[test]
fn a_panic_ends_the_job_and_not_the_house() -> Result<(), Error> {
    let alive = Arc::new(AtomicUsize::new(0));
    let mut house = House::open(2)?;
    assert!(house.submit(0, Counted::new(&alive, 1)).is_ok());
    assert!(house.submit(0, Counted::new(&alive, 1)).is_ok());
    let ended = catch_unwind(AssertUnwindSafe(|| house.run_turn(|_, _| panic!("a job's own"))));
    assert!(ended.is_err());
    assert_eq!(alive.load(Ordering::SeqCst), 1);
    assert_eq!(house.stats_of(0)?.done, 1);
    assert!(!house.stats().is_running);
    assert!(house.submit(0, Counted::new(&alive, 1)).is_ok());
    while !matches!(house.run_turn(|job, _| job.run())?, Turn::Idle) {}
    assert_eq!(alive.load(Ordering::SeqCst), 0);
    Ok(())
}

#[test]
fn a_clock_that_panics_leaves_no_job_out() -> Result<(), Error> {
    thread_local!(static LEFT: std::cell::Cell<u32> = const { std::cell::Cell::new(0) });
    fn clock() -> u64 {
        LEFT.set(LEFT.get().checked_sub(1).expect("no time is left"));
        7
    }
    let alive = Arc::new(AtomicUsize::new(0));
    let mut house = House::open_with(4, clock)?;
    for left in 0..3 {
        LEFT.set(left);
        assert!(house.submit(0, Counted::new(&alive, 1)).is_ok());
        let ended = catch_unwind(AssertUnwindSafe(|| house.run_turn(|job, _| job.run())));
        assert_eq!(ended.is_ok(), left > 0);
        drop(ended);
        assert!(!house.stats().is_running);
        assert_eq!(alive.load(Ordering::SeqCst), 0);
    }
    assert_eq!(house.stats_of(0)?.done, 3);
    core_of_a_thread()
}

/// A core goes to a thread by its start.
fn core_of_a_thread() -> Result<(), Error> {
    let mut core = Core::open(2)?;
    core.submit(0, 5)?;
    let next = core.start(|mut core| core.next_job()).join().unwrap();
    assert_eq!(next, Ok(Next::Start(5)));
    Ok(())
}

#[test]
fn closures_submit_closures_and_move_between_threads() -> Result<(), Error> {
    let mut house = House::open(8)?;
    let background = house.create(100)?;
    let (send, receive) = std::sync::mpsc::channel();
    let mut runs = 0;
    let first = Job::new(move |cx| {
        runs += 1;
        let send = send.clone();
        let child = Job::new(move |_| {
            send.send(runs).unwrap();
            Step::Done
        });
        assert!(cx.submit(background, child).is_ok());
        if runs == 3 { Step::Done } else { Step::Yield }
    });
    assert!(house.submit(0, first).is_ok());
    house.start(|mut house| while !matches!(house.turn(), Ok(Turn::Idle)) {}).join().unwrap();
    assert_eq!(receive.iter().collect::<Vec<_>>(), [1, 2, 3]);
    Ok(())
}

#[test]
fn shares_divide_the_time() -> Result<(), Error> {
    thread_local!(static NOW: std::cell::Cell<u64> = const { std::cell::Cell::new(0) });
    let mut house = House::open_with(2, || NOW.get())?;
    house.set_shares(0, 900)?;
    let background = house.create(100)?;
    for (queue, spent) in [(0, 1_000), (background, 3_000)] {
        let job = Job::new(move |_| {
            NOW.set(NOW.get() + spent);
            Step::Yield
        });
        assert!(house.submit(queue, job).is_ok());
    }
    for _ in 0..10_000 {
        house.turn()?;
    }
    let foreground = house.stats_of(0)?.time as f64;
    let background = house.stats_of(background)?.time as f64;
    assert!((foreground / (foreground + background) - 0.9).abs() < 0.001);
    Ok(())
}

#[test]
fn jobs_park_until_they_are_woken() -> Result<(), Error> {
    let here = Arc::new(AtomicBool::new(false));
    let mut house = House::open(4)?;
    let seen = Arc::clone(&here);
    let waits = house
        .submit_numbered(0, Job::new(move |_| if seen.load(Ordering::SeqCst) { Step::Done } else { Step::Park }))
        .map_err(|(error, _)| error)?;
    assert!(matches!(house.turn()?, Turn::Parked));
    assert!(matches!(house.turn()?, Turn::Idle));
    house.wake(waits)?;
    assert!(matches!(house.turn()?, Turn::Parked), "it looks again, and parks");
    let told = Arc::clone(&here);
    let wakes = Job::new(move |cx: &mut Cx<'_, Job>| {
        told.store(true, Ordering::SeqCst);
        assert_eq!(cx.wake(waits), Ok(()));
        Step::Done
    });
    house.submit(0, wakes).map_err(|(error, _)| error)?;
    assert!(matches!(house.turn()?, Turn::Done(_)));
    assert!(matches!(house.turn()?, Turn::Done(_)));
    assert_eq!(house.wake(waits), Err(Error::Absent));
    Ok(())
}

#[test]
fn a_wake_before_a_park_lets_the_job_stay() -> Result<(), Error> {
    let mut core = Core::open(2)?;
    let order = core.submit_numbered(0, 7)?;
    core.wake(order)?;
    core.wake(order)?;
    assert_eq!(core.next_job()?, Next::Start(7));
    assert_eq!(core.settle(Step::Park, 1)?, Settled::Queued);
    assert_eq!(core.next_job()?, Next::Resume(7));
    assert_eq!(core.settle(Step::Park, 1)?, Settled::Parked);
    assert_eq!(core.next_job()?, Next::Idle);
    core.close(Mode::Return)?;
    assert_eq!(core.next_job()?, Next::Back(7));
    Ok(())
}

#[test]
fn the_clock_goes_with_the_wall() {
    // Of each moment: the system's time before and behind it, and that of the clock between.
    let moment = || {
        let before = Instant::now();
        let told = fairexec::wall_clock();
        (before, told, Instant::now())
    };
    // Some readings of the clock are told by the processor's counter alone.
    let slack = Duration::from_micros(100);
    let first = moment();
    let mut last = first.1;
    while first.0.elapsed() < Duration::from_millis(50) {
        let (before, told, behind) = moment();
        assert!(told >= last);
        last = told;
        let passed = Duration::from_nanos(told - first.1);
        assert!(passed + slack >= before - first.2 && passed <= behind - first.0 + slack);
    }
}
