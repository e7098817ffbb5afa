//! A house of cores: who has the jobs, and what comes back.

use fairexec::linked::{Answer, Config, Core, Cx, House, Name, Opened, Outcome, Outside, Reason, Step, Task, Ticket, Turn};
use fairexec::{Error, Mode};
use std::panic::{catch_unwind, AssertUnwindSafe};
use std::sync::atomic::{AtomicUsize, Ordering};
use std::sync::{Arc, Mutex};

/// A value that counts how many of it are alive.
struct Counted(Arc<AtomicUsize>, u64);

impl Counted {
    fn new(alive: &Arc<AtomicUsize>, value: u64) -> Counted {
        alive.fetch_add(1, Ordering::SeqCst);
        Counted(Arc::clone(alive), value)
    }
}

impl Drop for Counted {
    fn drop(&mut self) {
        self.0.fetch_sub(1, Ordering::SeqCst);
    }
}

fn config(cores: u32, places: u32) -> Config {
    Config { cores, places, notes: 1 << 12, ..Config::default() }
}

fn sent<T, J>(told: Result<T, (Error, J)>) -> Result<T, Error> {
    told.map_err(|(error, _)| error)
}

/// A house of one core.
fn single<J>(places: u32) -> Result<(House<J>, Core<J>, Outside<J>), Error> {
    let (house, mut cores, outside): Opened<J> = House::open(&config(1, places))?;
    Ok((house, cores.remove(0), outside))
}

fn is_send<T: Send>() {}

#[test]
fn actors_go_to_threads() {
    is_send::<Core<u64>>();
    is_send::<Outside<u64>>();
    is_send::<Core<Task>>();
    is_send::<Ticket>();
}

#[test]
fn bad_numbers_open_no_house() {
    for (cores, places, burst, notes) in [(0, 1, 1, 1), (17, 1, 1, 1), (1, 0, 1, 1), (1, 1025, 1, 1), (1, 1, 0, 1), (1, 1, 65, 1), (1, 1, 1, (1 << 24) + 1)] {
        assert_eq!(House::<u64>::open(&Config { cores, places, burst, notes, ..Config::default() }).err(), Some(Error::BadNumber));
    }
}

#[test]
fn a_job_goes_to_a_core_and_its_outcome_comes_back() -> Result<(), Error> {
    let (house, mut core, mut outside) = single(4)?;
    let ticket = sent(outside.submit(0, 0, 20u64))?;
    assert_eq!(outside.redeem(&ticket), Err(Error::Pending));
    let double = |job: &mut u64, cx: &mut Cx<'_, u64>| {
        assert_eq!((cx.core(), cx.queue(), cx.name()), (0, 0, Name { from: 1, to: 0, number: 1 }));
        Step::Done(2 * *job)
    };
    assert_eq!(core.run_turn(double)?, Turn::Idle);
    assert!(core.deliver()?);
    assert_eq!(core.run_turn(double)?, Turn::Done);
    assert_eq!(outside.collect()?, 1);
    assert_eq!(outside.redeem(&ticket), Ok(Outcome::Done(40)));
    assert_eq!(outside.redeem(&ticket), Err(Error::Gone));
    assert_eq!(outside.submit(1, 0, 5), Err((Error::UnknownCore, 5)));
    assert_eq!(outside.submit(0, 256, 5), Err((Error::NoQueue, 5)));
    let (error, house, cores, outside) = house.end(vec![core], outside).err().expect("it isn't drained");
    assert_eq!(error, Error::NotDrained);
    let mut core = cores.into_iter().next().expect("it comes back");
    core.close(Mode::Finish)?;
    while !core.is_drained() {
        core.round(double)?;
    }
    let mut journals = house.end(vec![core], outside).map_err(|(error, ..)| error)?;
    assert!(journals.audit()?.is_sound);
    let text = journals.text()?;
    assert!(text.starts_with("journal 1\ncores 1 cap 4\n0 took 1>0#1 q0\n") && text.ends_with("1 redeemed 1>0#1 finished 40\nend\n"), "{text}");
    Ok(())
}

#[test]
fn orders_are_answered() -> Result<(), Error> {
    let (_house, mut core, mut outside) = single::<u64>(16)?;
    let mut ask = |order: &mut dyn FnMut(&mut Outside<u64>) -> Result<Ticket, Error>| {
        let ticket = order(&mut outside)?;
        core.deliver()?;
        outside.collect()?;
        outside.redeem(&ticket)
    };
    let answered = |answer| Ok(Outcome::Answered(answer));
    assert_eq!(ask(&mut |it| it.create(0, 0)), Err(Error::BadShares));
    assert_eq!(ask(&mut |it| it.create(0, 300)), answered(Answer::Created(1)));
    assert_eq!(ask(&mut |it| it.set_shares(0, 0, 900)), answered(Answer::SharesSet));
    assert_eq!(ask(&mut |it| it.set_shares(0, 2, 900)), answered(Answer::NoQueue));
    assert_eq!(ask(&mut |it| it.wake(Name { from: 1, to: 0, number: 1 })), answered(Answer::NoJob));
    assert_eq!(ask(&mut |it| it.close_queue(0, 1, Mode::Finish)), answered(Answer::Closed));
    assert_eq!(ask(&mut |it| it.close_queue(0, 1, Mode::Finish)), answered(Answer::AlreadyClosed));
    assert_eq!(ask(&mut |it| it.close_core(0, Mode::Finish)), answered(Answer::Closed));
    assert_eq!(ask(&mut |it| it.create(0, 300)), answered(Answer::CoreClosing));
    assert_eq!(core.stats_of(0)?.shares, 900);
    assert_eq!(core.stats().closed, Some(Mode::Finish));
    core.deliver()?;
    assert_eq!(outside.create(0, 300), Err(Error::Closed));
    Ok(())
}

#[test]
fn jobs_come_back_or_are_dropped() -> Result<(), Error> {
    let alive = Arc::new(AtomicUsize::new(0));
    let count = || alive.load(Ordering::SeqCst);
    let (_house, mut core, mut outside) = single(4)?;
    let job = |value| Counted::new(&alive, value);
    let one = sent(outside.submit(0, 0, job(1)))?;
    let two = sent(outside.submit(0, 0, job(2)))?;
    let three = sent(outside.submit(0, 7, job(3)))?;
    let four = sent(outside.submit(0, 0, job(4)))?;
    let Err((Error::Full, refused)) = outside.submit(0, 0, job(5)) else { panic!("the link is full") };
    assert_eq!((refused.1, count()), (5, 5));
    drop(refused);
    for _ in 0..4 {
        core.deliver()?;
    }
    assert_eq!(core.run_turn(|job, _| { job.1 += 10; Step::Yield })?, Turn::Yielded);
    outside.detach(four)?;
    core.close(Mode::Return)?;
    while core.run_turn(|_, _| Step::Done(0))? != Turn::Idle {}
    assert_eq!(count(), 4);
    assert_eq!(outside.collect()?, 4);
    assert_eq!(count(), 3, "the detached one is gone");
    assert!(matches!(outside.redeem(&one)?, Outcome::Back(Reason::CoreReturned, Counted(_, 11))));
    assert!(matches!(outside.redeem(&two)?, Outcome::Back(Reason::CoreReturned, Counted(_, 2))));
    assert!(matches!(outside.redeem(&three)?, Outcome::Back(Reason::NoQueue, Counted(_, 3))));
    assert_eq!(count(), 0);
    Ok(())
}

#[test]
fn the_ticket_of_another_house_is_unknown() -> Result<(), Error> {
    let (_one, _core, mut first) = single(1)?;
    let (_two, mut core, mut second) = single(1)?;
    let foreign = sent(first.submit(0, 0, 1u64))?;
    let own = sent(second.submit(0, 0, 2))?;
    assert_eq!(foreign.name(), own.name());
    core.round(|job, _| Step::Done(*job))?;
    second.collect()?;
    assert_eq!(second.redeem(&foreign), Err(Error::Unknown));
    assert_eq!(second.detach(foreign), Err(Error::Unknown));
    assert_eq!(second.redeem(&own), Ok(Outcome::Done(2)));
    let _free = sent(second.submit(0, 0, 3))?;
    Ok(())
}

static TIME: AtomicUsize = AtomicUsize::new(0);

/// A clock by which a job takes 10 ns.
fn fast() -> u64 {
    TIME.fetch_add(10, Ordering::SeqCst) as u64
}

/// A clock by which a job takes 10 us.
fn slow() -> u64 {
    TIME.fetch_add(10_000, Ordering::SeqCst) as u64
}

#[test]
fn a_round_runs_many_short_jobs_or_a_long_one() -> Result<(), Error> {
    let (_house, mut core, mut outside) = single(128)?;
    for (clock, time, longest, runs) in [(fast as fn() -> u64, 10, None, 64), (slow, 10_000, None, 1), (slow, 10_000, Some(45_000), 5)] {
        core.set_clock(clock);
        longest.into_iter().for_each(|it| core.set_round_time(it));
        for job in 0..100u64 {
            let ticket = sent(outside.submit(0, 0, job))?;
            outside.detach(ticket)?;
        }
        let before = core.stats_of(0)?.time;
        assert!(core.round(|job, _| Step::Done(*job))?);
        assert_eq!(outside.collect()?, runs);
        // Each run begins as the one before ends: a clock is read once more than there are runs.
        assert_eq!(core.stats_of(0)?.time - before, u128::from(runs) * time);
        while core.round(|job, _| Step::Done(*job))? {}
        assert_eq!(outside.collect()?, 100 - runs);
    }
    Ok(())
}

#[test]
fn what_a_house_has_is_dropped_with_it() -> Result<(), Error> {
    let alive = Arc::new(AtomicUsize::new(0));
    for actors_first in [false, true] {
        let (house, mut cores, mut outside) = House::open(&config(2, 4))?;
        for core in 0..2 {
            for value in 0..3 {
                let _ticket = sent(outside.submit(core, 0, Counted::new(&alive, value)))?;
            }
        }
        cores[0].deliver()?;
        cores[0].deliver()?;
        let _turn = cores[0].run_turn(|_, _| Step::Park)?;
        if actors_first {
            drop((cores, outside));
            drop(house);
        } else {
            drop(house);
            drop((outside, cores));
        }
        assert_eq!(alive.load(Ordering::SeqCst), 0);
    }
    Ok(())
}

#[test]
fn a_panic_ends_the_job_and_not_the_core() -> Result<(), Error> {
    let (_house, mut core, mut outside) = single(4)?;
    let ticket = sent(outside.submit(0, 0, 1u64))?;
    core.deliver()?;
    let ended = catch_unwind(AssertUnwindSafe(|| core.run_turn(|_, _| panic!("a job's own"))));
    assert!(ended.is_err());
    assert_eq!(core.run_turn(|_, _| Step::Yield)?, Turn::Idle);
    assert_eq!(outside.wait_for(&ticket)?, Outcome::Done(0));
    Ok(())
}

#[test]
fn the_wrong_actors_end_no_house() -> Result<(), Error> {
    let (house, mut first, outside) = single::<u64>(4)?;
    let (_other, mut second, _outside) = single::<u64>(4)?;
    for core in [&mut first, &mut second] {
        core.close(Mode::Finish)?;
        core.deliver()?;
    }
    let (error, house, _, outside) = house.end(vec![second], outside).err().expect("another house's");
    assert_eq!(error, Error::NoActor);
    let (error, house, _, outside) = house.end(Vec::new(), outside).err().expect("no core");
    assert_eq!(error, Error::NoActor);
    assert!(house.end(vec![first], outside).map_err(|(error, ..)| error)?.audit()?.is_sound);
    Ok(())
}

#[test]
fn tasks_want_two_places() -> Result<(), Error> {
    let (_house, mut core, _outside) = single::<Task>(1)?;
    assert_eq!(core.run_tasks(), Err(Error::BadNumber));
    Ok(())
}

#[test]
fn notes_are_passed_on_behind_what_a_text_has() -> Result<(), Error> {
    let (house, mut core, mut outside) = single(4)?;
    let mut text = b"before\n".to_vec();
    core.pass_on(&mut text)?;
    assert_eq!(text, b"before\n");
    let ticket = sent(outside.submit(0, 0, 20u64))?;
    assert!(core.round(|job, _| Step::Done(*job))?);
    core.pass_on(&mut text)?;
    assert_eq!(text, b"before\n0 took 1>0#1 q0\n0 pick q0 at 0\n0 start 1>0#1\n".iter().chain(&text[52..]).copied().collect::<Vec<_>>());
    assert!(text[52..].starts_with(b"0 done 1>0#1 ") && text.ends_with(b" = 20\n"));
    assert!(matches!(outside.wait_for(&ticket)?, Outcome::Done(20)));
    drop((house, core, outside));
    Ok(())
}

#[test]
fn a_detach_behind_a_full_journal_is_made_later() -> Result<(), Error> {
    let (_house, mut cores, mut outside): Opened<u64> = House::open(&Config { cores: 1, places: 2, notes: 4, ..Config::default() })?;
    cores[0].keep_notes_by(|_| {});
    for _ in 0..10 {
        let tickets = [sent(outside.submit(0, 0, 1))?, sent(outside.submit(0, 0, 2))?];
        while cores[0].round(|job, _| Step::Done(*job))? {}
        assert_eq!(outside.collect()?, 2);
        let [first, second] = tickets;
        assert_eq!(outside.redeem(&first), Err(Error::JournalFull));
        outside.detach(first)?;
        outside.pass_on(&mut Vec::new())?;
        outside.detach(second)?;
        // Both have left their places by now.
        assert_eq!(outside.collect()?, 0);
        outside.pass_on(&mut Vec::new())?;
    }
    // An order has no place of a job, and one of the link.
    for _ in 0..10 {
        let orders = [outside.set_shares(0, 0, 900)?, outside.set_shares(0, 0, 800)?];
        while cores[0].round(|job, _| Step::Done(*job))? {}
        assert_eq!(outside.collect()?, 2);
        for order in orders {
            outside.detach(order)?;
        }
        outside.pass_on(&mut Vec::new())?;
        assert_eq!(outside.collect()?, 0);
        outside.pass_on(&mut Vec::new())?;
    }
    Ok(())
}

/// The text that both actors of a house passed on. Those who take it panic where this says so.
fn text_of_two(panics: fn(usize) -> bool) -> Result<[String; 2], Error> {
    let (_house, mut cores, mut outside): Opened<u64> = House::open(&Config { cores: 1, places: 2, notes: 8, ..Config::default() })?;
    let texts: [Arc<Mutex<Vec<u8>>>; 2] = Default::default();
    let keeper = |number: usize| {
        let (text, mut calls) = (Arc::clone(&texts[number]), 0);
        move |part: &[u8]| {
            calls += 1;
            assert!(!panics(calls - 1), "a keeper's own");
            text.lock().expect("no panic").extend_from_slice(part);
        }
    };
    let core = &mut cores[0];
    core.set_clock(|| 0);
    core.keep_notes_by(keeper(0));
    outside.keep_notes_by(keeper(1));
    for job in 0..12 {
        let ticket = sent(again(|| outside.submit(0, 0, job)))?;
        while again(|| core.round(|job, _| Step::Done(*job)))? {}
        assert_eq!(again(|| outside.wait_for(&ticket))?, Outcome::Done(job));
    }
    core.pass_on(&mut texts[0].lock().expect("no panic"))?;
    outside.pass_on(&mut texts[1].lock().expect("no panic"))?;
    Ok(texts.map(|text| String::from_utf8(text.lock().expect("no panic").clone()).expect("a journal is ASCII")))
}

/// A call that is made again behind each panic.
fn again<T>(mut call: impl FnMut() -> T) -> T {
    loop {
        if let Ok(told) = catch_unwind(AssertUnwindSafe(&mut call)) {
            return told;
        }
    }
}

#[test]
fn notes_that_were_not_taken_go_first_the_next_time() -> Result<(), Error> {
    let texts = text_of_two(|_| false)?;
    assert_eq!(texts.each_ref().map(|text| text.lines().count()), [48, 36]);
    for panics in [|call| call == 0, |call| call % 3 == 1, |call| call > 2, |_| true] {
        assert_eq!(text_of_two(panics)?, texts);
    }
    Ok(())
}

#[test]
fn who_takes_notes_from_now_on_gets_those_that_were_not_taken() -> Result<(), Error> {
    let (_house, mut cores, mut outside): Opened<u64> = House::open(&Config { cores: 1, places: 2, notes: 4, ..Config::default() })?;
    cores[0].keep_notes_by(|_| {});
    outside.keep_notes_by(|_| panic!("a keeper's own"));
    let text = Arc::new(Mutex::new(Vec::new()));
    let takes = Arc::clone(&text);
    let mut submit = |outside: &mut Outside<u64>| {
        let tickets = [sent(outside.submit(0, 0, 1))?, sent(outside.submit(0, 0, 2))?];
        while cores[0].round(|job, _| Step::Done(*job))? {}
        assert_eq!(outside.collect()?, 2);
        Ok::<_, Error>(tickets)
    };
    let [first, second] = submit(&mut outside)?;
    assert!(catch_unwind(AssertUnwindSafe(|| outside.redeem(&first))).is_err());
    outside.keep_notes_by(move |part| takes.lock().expect("no panic").extend_from_slice(part));
    assert_eq!((outside.redeem(&first)?, outside.redeem(&second)?), (Outcome::Done(1), Outcome::Done(2)));
    assert!(text.lock().expect("no panic").is_empty());
    let _tickets = submit(&mut outside)?;
    let text = String::from_utf8(text.lock().expect("no panic").clone()).expect("a journal is ASCII");
    let lines: Vec<_> = text.lines().map(|line| line.split(' ').nth(1)).collect();
    assert_eq!(lines, ["sent", "sent", "collected", "collected", "redeemed", "redeemed", "sent", "sent"].map(Some));
    Ok(())
}

// Jobs that yield come behind others that were submitted later, and an order is answered at once.
#[test]
fn what_came_is_told_by_its_names() -> Result<(), Error> {
    for notes in [24, 1 << 12] {
        let (_house, mut cores, mut outside) = House::open(&Config { cores: 2, places: 8, notes, ..Config::default() })?;
        outside.keep_notes_by(|_| {});
        for core in &mut cores {
            core.keep_notes_by(|_| {});
        }
        for _ in 0..20 {
            let jobs = [3, 1, 2].map(|runs| outside.submit(1, 0, runs).map_err(|(error, _)| error));
            let [first, second, third] = jobs.map(|it| it.map(|ticket| (ticket.name(), ticket)));
            let (first, second, third) = (first?, second?, third?);
            let order = outside.set_shares(0, 0, 500)?;
            for core in &mut cores {
                while core.round(|runs, _| {
                    *runs -= 1;
                    if *runs == 0 { Step::Done(7) } else { Step::Yield }
                })? {}
            }
            let mut names = vec![order.name()];
            assert_eq!(outside.collect_names(&mut names)?, 4);
            assert_eq!(names, [order.name(), order.name(), second.0, third.0, first.0]);
            assert_eq!((outside.collect_names(&mut names)?, names.len()), (0, 5));
            for (_, ticket) in [first, second, third] {
                assert_eq!(outside.redeem(&ticket)?, Outcome::Done(7));
            }
            outside.detach(order)?;
        }
    }
    Ok(())
}
