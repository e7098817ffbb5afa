//! What a host hands to a house is dropped once, whatever way it goes.

use fairexec::linked::{spawn, yield_now, Cancelled, Config, Core, House, Opened, Outcome, Outside, Step, Task, Ticket, Turn};
use fairexec::{Error, Mode};
use std::future::{pending, poll_fn};
use std::panic::{catch_unwind, AssertUnwindSafe};
use std::sync::atomic::{AtomicUsize, Ordering};
use std::sync::{Arc, Mutex};
use std::task::{Poll, Waker};

/// A value that counts at its own mark how often it is dropped.
struct Counted(Arc<AtomicUsize>);

impl Drop for Counted {
    fn drop(&mut self) {
        self.0.fetch_add(1, Ordering::SeqCst);
    }
}

/// The marks of all values that a test made.
#[derive(Default)]
struct Register(Mutex<Vec<Arc<AtomicUsize>>>);

impl Register {
    fn counted(&self) -> Counted {
        let drops = Arc::default();
        self.0.lock().expect("no panic").push(Arc::clone(&drops));
        Counted(drops)
    }

    /// How many were made, and how many of them weren't dropped yet.
    fn counts(&self) -> (usize, usize) {
        let all = self.0.lock().expect("no panic");
        let drops = all.iter().map(|it| it.load(Ordering::SeqCst));
        assert!(drops.clone().all(|it| it < 2), "one was dropped twice");
        (all.len(), drops.filter(|it| *it == 0).count())
    }

    fn left(&self) -> usize {
        self.counts().1
    }
}

type Jobs = (House<Counted>, Core<Counted>, Outside<Counted>);

fn opened<J>(places: u32, notes: u32) -> Result<(House<J>, Core<J>, Outside<J>), Error> {
    let (house, mut cores, outside): Opened<J> = House::open(&Config { cores: 1, places, notes, ..Config::default() })?;
    Ok((house, cores.remove(0), outside))
}

fn sent<J>(told: Result<Ticket, (Error, J)>) -> Result<Ticket, Error> {
    told.map_err(|(error, _)| error)
}

/// Delivers and runs until nothing is left to do.
fn serve(core: &mut Core<Counted>, mut step: impl FnMut() -> Step) -> Result<(), Error> {
    while core.round(|_, _| step())? {}
    Ok(())
}

#[test]
fn a_done_job_is_dropped_before_it_is_told() -> Result<(), Error> {
    let all = Register::default();
    let (_house, mut core, mut outside): Jobs = opened(4, 1 << 12)?;
    for _ in 0..20 {
        let ticket = sent(outside.submit(0, 0, all.counted()))?;
        core.deliver()?;
        assert_eq!((core.run_turn(|_, _| Step::Yield)?, core.run_turn(|_, _| Step::Done(7))?, all.left()), (Turn::Yielded, Turn::Done, 0));
        assert!(matches!(outside.wait_for(&ticket)?, Outcome::Done(7)));
    }
    assert_eq!(all.counts(), (20, 0));
    Ok(())
}

#[test]
fn a_panic_drops_its_job() -> Result<(), Error> {
    let all = Register::default();
    let (_house, mut core, mut outside): Jobs = opened(4, 1 << 12)?;
    let ticket = sent(outside.submit(0, 0, all.counted()))?;
    core.deliver()?;
    assert!(catch_unwind(AssertUnwindSafe(|| core.run_turn(|_, _| panic!("a job's own")))).is_err());
    assert_eq!(all.counts(), (1, 0));
    assert!(matches!(outside.wait_for(&ticket)?, Outcome::Done(0)));
    Ok(())
}

/// A job whose drop panics, or doesn't.
struct Fails(bool);

impl Drop for Fails {
    fn drop(&mut self) {
        assert!(!std::mem::take(&mut self.0), "a job's own");
    }
}

// The run of the one is settled by the call that tells the next.
#[test]
fn a_drop_that_panics_takes_no_other_run_with_it() -> Result<(), Error> {
    let (_house, mut core, mut outside) = opened(8, 1 << 12)?;
    core.set_clock(|| 0);
    let tickets = [true, false, true, false].map(|it| sent(outside.submit(0, 0, Fails(it))));
    let mut runs = 0;
    while catch_unwind(AssertUnwindSafe(|| core.round(|_, _| {
        runs += 1;
        Step::Done(runs)
    }))).map_or(true, |told| told == Ok(true)) {}
    for (number, ticket) in (1..).zip(tickets) {
        assert!(matches!(outside.wait_for(&ticket?)?, Outcome::Done(it) if it == number));
    }
    assert_eq!(runs, 4);
    Ok(())
}

// By its queue and by its core, at a delivery and at a pick, parked or not.
#[test]
fn a_job_that_comes_back_is_the_senders() -> Result<(), Error> {
    for by_core in [false, true] {
        let all = Register::default();
        let (_house, mut core, mut outside): Jobs = opened(8, 1 << 12)?;
        let mut tickets = vec![sent(outside.submit(0, 0, all.counted()))?];
        serve(&mut core, || Step::Park)?;
        tickets.push(sent(outside.submit(0, 0, all.counted()))?);
        let closed = if by_core { outside.close_core(0, Mode::Return)? } else { outside.close_queue(0, 0, Mode::Return)? };
        for queue in [0, 7] {
            tickets.push(sent(outside.submit(0, queue, all.counted()))?);
        }
        serve(&mut core, || Step::Done(0))?;
        assert_eq!((outside.collect()?, all.left()), (5, 4));
        for (left, ticket) in (0..4).rev().zip(&tickets) {
            let back = outside.redeem(ticket)?;
            assert!(matches!(back, Outcome::Back(..)) && all.left() == left + 1);
            drop(back);
            assert_eq!(all.left(), left);
        }
        outside.detach(closed)?;
        assert_eq!(all.counts(), (4, 0));
    }
    Ok(())
}

#[test]
fn a_refused_job_is_the_senders() -> Result<(), Error> {
    let all = Register::default();
    let refused = |outside: &mut Outside<Counted>, core, queue, why| {
        let left = all.left();
        let told = outside.submit(core, queue, all.counted()).expect_err("it is refused");
        assert_eq!((told.0, all.left()), (why, left + 1));
        drop(told);
        assert_eq!(all.left(), left);
    };
    let (house, mut core, mut outside): Jobs = opened(1, 1 << 12)?;
    refused(&mut outside, 1, 0, Error::UnknownCore);
    refused(&mut outside, 0, 256, Error::NoQueue);
    let ticket = sent(outside.submit(0, 0, all.counted()))?;
    refused(&mut outside, 0, 0, Error::Full);
    serve(&mut core, || Step::Done(0))?;
    assert!(matches!(outside.wait_for(&ticket)?, Outcome::Done(0)));
    core.close(Mode::Finish)?;
    serve(&mut core, || Step::Done(0))?;
    refused(&mut outside, 0, 0, Error::Closed);
    drop(house.end(vec![core], outside).map_err(|(error, ..)| error)?);
    let (house, core, mut outside): Jobs = opened(64, 8)?;
    while sent(outside.submit(0, 0, all.counted())).is_ok() {}
    refused(&mut outside, 0, 0, Error::JournalFull);
    drop((house, core, outside));
    assert_eq!(all.left(), 0);
    Ok(())
}

// Before and behind its collection, and with a journal that has no room for it yet. What nobody asks for stays until the house is gone.
#[test]
fn a_job_that_is_let_go_is_dropped() -> Result<(), Error> {
    let all = Register::default();
    let (house, mut core, mut outside): Jobs = opened(4, 1 << 12)?;
    let early = sent(outside.submit(0, 7, all.counted()))?;
    outside.detach(early)?;
    serve(&mut core, || Step::Done(0))?;
    assert_eq!((all.left(), outside.collect()?, all.left()), (1, 1, 0));
    let late = sent(outside.submit(0, 7, all.counted()))?;
    serve(&mut core, || Step::Done(0))?;
    assert_eq!((outside.collect()?, all.left()), (1, 1));
    outside.detach(late)?;
    assert_eq!(all.left(), 0);
    drop(sent(outside.submit(0, 7, all.counted()))?);
    core.close(Mode::Finish)?;
    serve(&mut core, || Step::Done(0))?;
    assert_eq!((outside.collect()?, all.left()), (1, 1));
    drop(house.end(vec![core], outside).map_err(|(error, ..)| error)?);
    assert_eq!(all.counts(), (3, 0));
    let (_house, mut core, mut outside): Jobs = opened(2, 4)?;
    core.keep_notes_by(|_| {});
    let tickets = [sent(outside.submit(0, 7, all.counted()))?, sent(outside.submit(0, 7, all.counted()))?];
    serve(&mut core, || Step::Done(0))?;
    outside.collect()?;
    for ticket in tickets {
        outside.detach(ticket)?;
    }
    assert_eq!(all.left(), 2);
    outside.pass_on(&mut Vec::new())?;
    outside.collect()?;
    assert_eq!(all.counts(), (5, 0));
    Ok(())
}

// One is on its way, one inside, one parked, one came back and one was collected. What takes the notes goes as well.
#[test]
fn a_dropped_house_drops_what_it_has() -> Result<(), Error> {
    for order in 0..3 {
        let all = Register::default();
        let (house, mut core, mut outside): Jobs = opened(8, 1 << 12)?;
        for keeper in [all.counted(), all.counted()] {
            outside.keep_notes_by(move |_| _ = &keeper);
        }
        let (keeper, ringer) = (all.counted(), all.counted());
        core.keep_notes_by(move |_| _ = &keeper);
        core.set_bell(move || _ = &ringer);
        assert_eq!(all.left(), 3, "a second keeper drops the first");
        let mut tickets = vec![sent(outside.submit(0, 7, all.counted()))?, sent(outside.submit(0, 0, all.counted()))?];
        serve(&mut core, || Step::Park)?;
        assert_eq!(outside.collect()?, 1);
        tickets.push(sent(outside.submit(0, 7, all.counted()))?);
        tickets.push(sent(outside.submit(0, 0, all.counted()))?);
        core.deliver()?;
        core.deliver()?;
        tickets.push(sent(outside.submit(0, 0, all.counted()))?);
        assert_eq!(all.left(), 8);
        match order {
            0 => drop((house, core, outside)),
            1 => drop((outside, core, house)),
            _ => drop((core, house, outside)),
        }
        assert_eq!(all.counts(), (9, 0));
    }
    Ok(())
}

/// A future that has a value, and comes to another one.
async fn gives(has: Counted, gives: Counted) -> Counted {
    let _has = has;
    yield_now().await;
    gives
}

// It is done and asked for, it is done and nobody asks, it panics, and it is refused: by the outside actor, and in a task.
#[test]
fn a_future_and_what_it_gives_are_dropped() -> Result<(), Error> {
    let all = Register::default();
    let value = || all.counted();
    let (house, mut core, mut outside): (_, Core<Task>, _) = opened(8, 1 << 12)?;
    let (_, asked) = outside.spawn(0, 0, gives(value(), value()))?;
    let (_, forgotten) = outside.spawn(0, 0, gives(value(), value()))?;
    drop(outside.spawn(0, 0, gives(value(), value()))?);
    assert!(outside.spawn(1, 0, gives(value(), value())).is_err());
    assert_eq!(all.left(), 6);
    let nowhere = gives(value(), value());
    let (_, none) = outside.spawn(0, 0, async move { spawn(1, 0, nowhere).await.is_err() })?;
    let has = value();
    let (_, never) = outside.spawn(0, 0, async move {
        let _has = has;
        yield_now().await;
        panic!("a task's own");
    })?;
    outside.close_all(Mode::Finish)?;
    while catch_unwind(AssertUnwindSafe(|| core.run_tasks())).is_err() {}
    assert!(matches!((never.take(), none.take()), (Some(Err(Cancelled)), Some(Ok(true)))));
    assert_eq!(all.left(), 2, "what two tasks came to");
    drop(asked.take());
    assert_eq!(all.left(), 1);
    drop(forgotten);
    drop(house.end(vec![core], outside).map_err(|(error, ..)| error)?);
    assert_eq!(all.counts(), (11, 0));
    Ok(())
}

// A task that waits for ever comes back, and one does whose waker is kept. They are dropped with their outcome, or with their house.
#[test]
fn a_future_that_never_ends_is_dropped() -> Result<(), Error> {
    for is_closed in [false, true] {
        let all = Register::default();
        let (house, mut core, mut outside): (_, Core<Task>, _) = opened(8, 1 << 12)?;
        let (has, keeps) = (all.counted(), all.counted());
        let (ticket, _join) = outside.spawn(0, 0, async move {
            let _has = has;
            pending::<()>().await
        })?;
        let kept = Arc::new(Mutex::new(None::<Waker>));
        let keeper = Arc::clone(&kept);
        drop(outside.spawn(0, 0, poll_fn(move |cx| {
            let _keeps = &keeps;
            *keeper.lock().expect("no panic") = Some(cx.waker().clone());
            Poll::<()>::Pending
        }))?);
        while core.step_tasks()? == Some(true) {}
        assert_eq!((all.counts(), kept.lock().expect("no panic").is_some()), ((2, 2), true));
        if is_closed {
            outside.close_all(Mode::Return)?;
            core.run_tasks()?;
            drop(outside.wait_for(&ticket)?);
            assert_eq!(all.left(), 1);
            drop(house.end(vec![core], outside).map_err(|(error, ..)| error)?);
        } else {
            drop((house, core, outside));
        }
        assert_eq!(all.counts(), (2, 0));
    }
    Ok(())
}

// A thread that ends by the panic of a task drops its core, and the house what was inside.
#[test]
fn a_thread_that_panics_drops_what_it_had() -> Result<(), Error> {
    let all = Register::default();
    let (house, mut core, mut outside): (_, Core<Task>, _) = opened(8, 1 << 12)?;
    let has = [all.counted(), all.counted(), all.counted()];
    for (number, has) in has.into_iter().enumerate() {
        let task = async move {
            let _has = has;
            if number == 1 {
                panic!("a task's own");
            }
            pending::<()>().await
        };
        drop(outside.spawn(0, 0, task)?);
    }
    assert!(std::thread::spawn(move || core.run_tasks()).join().is_err());
    assert_eq!(all.left(), 2);
    drop((house, outside));
    assert_eq!(all.counts(), (3, 0));
    Ok(())
}
