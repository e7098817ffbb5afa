//! What others learn of a core: its counts, and that it left.

use fairexec::linked::{spawn, spawn_local, Cancelled, Config, Core, House, Opened, Outcome, Reason, Stats, Step, Task};
use fairexec::{Error, Mode};
use std::future::pending;
use std::sync::atomic::{AtomicBool, Ordering};
use std::sync::Arc;
use std::thread;
use std::time::{Duration, Instant};

fn config(cores: u32) -> Config {
    Config { cores, places: 8, notes: 1 << 16, ..Config::default() }
}

/// Reads until the counts are as wanted, for a minute at most.
fn wait_for(stats: &Stats, is: impl Fn(u64, u64) -> bool) {
    let begin = Instant::now();
    loop {
        let (core, queues) = stats.read();
        if is(core.turns, queues.iter().map(|it| it.done).sum()) {
            return;
        }
        assert!(begin.elapsed() < Duration::from_secs(60), "{core:?}");
        thread::yield_now();
    }
}

#[test]
fn any_thread_reads_the_counts_of_a_core_that_runs() -> Result<(), Error> {
    let (house, mut cores, mut outside): Opened<u64> = House::open(&Config { notes: 1 << 20, ..config(1) })?;
    let mut core = cores.remove(0);
    let created = outside.create(0, 300)?;
    let stats = core.shared_stats();
    assert_eq!((stats.read().0.turns, stats.read().1.len()), (0, 1));
    outside.detach(created)?;
    let has_ended = Arc::new(AtomicBool::new(false));
    let readers: Vec<_> = (0..2)
        .map(|_| {
            let (stats, has_ended) = (stats.clone(), Arc::clone(&has_ended));
            thread::spawn(move || {
                let mut last = stats.read();
                while !has_ended.load(Ordering::SeqCst) {
                    let (core, queues) = stats.read();
                    // They belong together: each turn is a run of one queue, and nothing goes back.
                    assert_eq!(core.turns, queues.iter().map(|it| it.picks).sum::<u64>());
                    assert!(core.turns >= last.0.turns && queues.len() >= last.1.len() && core.queues as usize == queues.len());
                    last = (core, queues);
                }
                last.0.turns
            })
        })
        .collect();
    let thread = thread::spawn(move || core.run(|left, _| if *left == 0 { Step::Done(0) } else { *left -= 1; Step::Yield }).map(|()| core));
    let tickets = [0, 1].map(|queue| outside.submit(0, queue, 20_000).map_err(|(error, _)| error));
    for ticket in tickets {
        assert_eq!(outside.wait_for(&ticket?)?, Outcome::Done(0));
    }
    // The core sleeps, and told them before.
    wait_for(&stats, |turns, done| (turns, done) == (40_002, 2));
    outside.close_all(Mode::Finish)?;
    let core = thread.join().expect("a core ends")?;
    has_ended.store(true, Ordering::SeqCst);
    for it in readers {
        assert!(it.join().expect("no panic") <= 40_002);
    }
    assert!(house.end(vec![core], outside).map_err(|(error, ..)| error)?.audit()?.is_sound);
    assert_eq!(stats.read().0.turns, 40_002, "they stay behind the core");
    Ok(())
}

#[test]
fn a_core_that_does_not_sleep_tells_its_counts() -> Result<(), Error> {
    let (_house, mut cores, mut outside): Opened<u64> = House::open(&config(1))?;
    let stats = cores[0].shared_stats();
    let _ticket = outside.submit(0, 0, 0).map_err(|(error, _)| error)?;
    let told = |core: &mut Core<u64>, turns: u64| {
        for _ in 0..turns {
            core.round(|_, _| Step::Yield).expect("it runs");
        }
        stats.read().0.turns
    };
    let core = &mut cores[0];
    core.set_round_time(0);
    // A round counts as 64 turns, as it may have as many.
    assert_eq!((told(core, 10), told(core, 10)), (0, 17));
    core.show_stats();
    assert_eq!(stats.read().0.turns, 20);
    Ok(())
}

// The job is done with no sleep before the end.
#[test]
fn a_core_that_ends_tells_its_counts() -> Result<(), Error> {
    for is_run in [true, false] {
        let (house, mut cores, mut outside): Opened<u64> = House::open(&config(1))?;
        let stats = cores[0].shared_stats();
        let _ticket = outside.submit(0, 0, 0).map_err(|(error, _)| error)?;
        outside.close_all(Mode::Finish)?;
        if is_run {
            cores[0].run(|_, _| Step::Done(0))?;
        }
        while !cores[0].is_drained() {
            cores[0].round(|_, _| Step::Done(0))?;
        }
        assert_eq!(stats.read().0.turns, u64::from(is_run));
        drop(house.end(cores, outside).map_err(|(error, ..)| error)?);
        let (core, queues) = stats.read();
        assert_eq!((core.turns, core.closed, queues[0].done), (1, Some(Mode::Finish), 1));
    }
    Ok(())
}

/// Runs a core until a task is done and three wait, and leaves: it is dropped, or a panic ends its thread.
fn leave(mut core: Core<Task>, panics: bool) {
    while core.stats().held < 3 || core.stats_of(0).expect("it is there").done == 0 {
        core.step_tasks().expect("it runs");
    }
    assert!(!panics, "as it should");
}

// A task waits for one on a core that leaves, and the outside actor waits for another one there. A local task of that core goes with it.
#[test]
fn who_waits_for_a_core_is_told_that_it_left() -> Result<(), Error> {
    for panics in [false, true] {
        let (_house, mut cores, mut outside): Opened<Task> = House::open(&config(2))?;
        let (second, mut first) = (cores.pop().expect("two cores"), cores.pop().expect("two cores"));
        let (waits, told) = outside.spawn(0, 0, async { spawn(1, 0, pending::<()>()).await })?;
        let alive = Arc::new(());
        let held = Arc::clone(&alive);
        let (starts, _) = outside.spawn(1, 0, async move {
            drop(spawn_local(0, async move {
                let _held = held;
                pending::<()>().await
            }));
        })?;
        let (asked, join) = outside.spawn(1, 0, pending::<()>())?;
        let first = thread::spawn(move || first.run_tasks().map(|()| first));
        let second = thread::spawn(move || leave(second, panics));
        assert!(matches!(outside.wait_for(&starts)?, Outcome::Done(0)));
        assert!(matches!(outside.wait_for(&waits)?, Outcome::Done(0)));
        assert_eq!(told.take(), Some(Ok(Err(Cancelled))));
        assert!(matches!(outside.wait_for(&asked)?, Outcome::Back(Reason::CoreReturned, _)));
        assert_eq!(join.take(), Some(Err(Cancelled)));
        assert_eq!(second.join().is_err(), panics);
        assert_eq!(Arc::strong_count(&alive), 1);
        // What comes later is refused, and a task is told so, too.
        assert!(matches!(outside.spawn(1, 0, async {}), Err(Error::Closed)));
        let (waits, told) = outside.spawn(0, 0, async { spawn(1, 0, async {}).await })?;
        assert!(matches!(outside.wait_for(&waits)?, Outcome::Done(0)));
        assert_eq!(told.take(), Some(Ok(Err(Cancelled))));
        outside.close_all(Mode::Finish)?;
        first.join().expect("a core ends")?;
    }
    Ok(())
}

// One is parked, one inside and one on its way.
#[test]
fn a_core_that_leaves_drops_what_it_submitted_to_itself() -> Result<(), Error> {
    let (_house, mut cores, _outside): Opened<Arc<()>> = House::open(&config(1))?;
    let (alive, mut core, mut tickets) = (Arc::new(()), cores.remove(0), Vec::new());
    for step in [Step::Park, Step::Yield, Step::Done(0)] {
        tickets.push(core.submit(0, 0, Arc::clone(&alive)).map_err(|(error, _)| error)?);
        if !matches!(step, Step::Done(_)) {
            core.deliver()?;
            core.run_turn(|_, _| step)?;
        }
    }
    assert_eq!(Arc::strong_count(&alive), 4);
    drop(core);
    assert_eq!(Arc::strong_count(&alive), 1);
    Ok(())
}

// One is on its way, one inside, one parked, and the journal is full.
#[test]
fn a_core_that_leaves_hands_back_its_jobs() -> Result<(), Error> {
    let (_house, mut cores, mut outside): Opened<u64> = House::open(&Config { notes: 12, ..config(1) })?;
    outside.keep_notes_by(|_| {});
    let mut core = cores.remove(0);
    let mut tickets = Vec::new();
    for job in 0..4 {
        tickets.push(outside.submit(0, 0, job).map_err(|(error, _)| error)?);
        while job < 2 && core.round(|job, _| if *job == 0 { Step::Park } else { Step::Yield }) == Ok(true) {}
    }
    assert_eq!(core.deliver(), Err(Error::JournalFull));
    drop(core);
    for (job, ticket) in (0..).zip(&tickets) {
        let told = outside.wait_for(ticket)?;
        assert!(matches!(told, Outcome::Back(Reason::CoreReturned | Reason::CoreClosing, it) if it == job), "{told:?}");
    }
    Ok(())
}
