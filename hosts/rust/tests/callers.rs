//! Handles on the outside actor, on many threads.

use fairexec::linked::{Caller, CallerTicket, Callers, Config, Core, House, Job, Opened, Outcome, Outside, Step, Task};
use fairexec::{Error, Mode};
use std::sync::atomic::{AtomicBool, AtomicUsize, Ordering};
use std::sync::{Arc, Barrier, Mutex};
use std::thread::{self, JoinHandle};
use std::time::{Duration, Instant};

type Threads<J> = Vec<JoinHandle<Result<Core<J>, Error>>>;

fn config(cores: u32, places: u32) -> Config {
    Config { cores, places, notes: 1 << 16, ..Config::default() }
}

fn sent<T, J>(told: Result<T, (Error, J)>) -> Result<T, Error> {
    told.map_err(|(error, _)| error)
}

fn out<J>(told: Result<Outside<J>, (Vec<u64>, Callers<J>)>) -> Vec<u64> {
    told.err().map_or(Vec::new(), |(out, _)| out)
}

/// Ends a house whose cores run on threads, once all handles are gone. Whether its journals are sound.
fn end<J>(house: House<J>, threads: Threads<J>, callers: Callers<J>) -> Result<bool, Error> {
    callers.handle().close_all(Mode::Finish)?;
    let cores = threads.into_iter().map(|it| it.join().expect("a core ends")).collect::<Result<_, _>>()?;
    let outside = callers.into_outside().map_err(|(out, _)| out).expect("all handles are gone");
    Ok(house.end(cores, outside).map_err(|(error, ..)| error)?.audit()?.is_sound)
}

/// A house whose jobs are numbers, which answer their double.
fn doubling(config: &Config) -> Result<(House<u64>, Threads<u64>, Callers<u64>), Error> {
    let (house, cores, outside) = House::open(config)?;
    let threads = cores.into_iter().map(|mut core| thread::spawn(move || core.run(|job, _| Step::Done(2 * *job)).map(|()| core))).collect();
    Ok((house, threads, outside.into_callers()))
}

fn of_closures(config: &Config) -> Result<(House<Job>, Threads<Job>, Callers<Job>), Error> {
    let (house, cores, outside) = House::open(config)?;
    let threads = cores.into_iter().map(|mut core| thread::spawn(move || core.run_jobs().map(|()| core))).collect();
    Ok((house, threads, outside.into_callers()))
}

/// Submits as soon as a place is free.
fn submit(caller: &Caller<u64>, core: u32, job: u64) -> Result<CallerTicket, Error> {
    loop {
        match sent(caller.submit(core, 0, job)) {
            Err(Error::Full) => _ = caller.collect()?,
            told => return told,
        }
        thread::yield_now();
    }
}

/// Submits so many jobs to both cores by turns, some at a time, and redeems each outcome.
fn ask(caller: &Caller<u64>, thread: u64, jobs: u64) -> Result<u64, Error> {
    let mut redeemed = 0;
    while redeemed < jobs {
        let some = redeemed..jobs.min(redeemed + 8);
        let tickets = some.map(|it| submit(caller, (it % 2) as u32, thread << 32 | it).map(|ticket| (it, ticket))).collect::<Result<Vec<_>, _>>()?;
        for (job, ticket) in &tickets {
            assert_eq!(caller.wait_for(ticket)?, Outcome::Done(2 * (thread << 32 | job)));
            assert_eq!(caller.redeem(ticket), Err(Error::Gone));
            redeemed += 1;
        }
    }
    Ok(redeemed)
}

/// So many threads submit so many jobs each to two cores. Each redeems its own.
fn storm(threads: u64, jobs: u64, notes: u32) -> Result<(), Error> {
    let (house, cores, callers) = doubling(&Config { cores: 2, places: 1024, notes, ..Config::default() })?;
    let all: Vec<_> = (0..threads).map(|it| (it, callers.handle())).map(|(it, caller)| thread::spawn(move || ask(&caller, it, jobs))).collect();
    for it in all {
        assert_eq!(it.join().expect("no panic")?, jobs);
    }
    assert!(end(house, cores, callers)?);
    Ok(())
}

#[test]
fn each_thread_redeems_its_own() -> Result<(), Error> {
    storm(20, 50, 1 << 14)
}

/// tests/hosts runs it by its name, as it is built for speed.
#[test]
#[ignore = "it takes some seconds, and 400 MB for the notes"]
fn a_hundred_threads_redeem_ten_thousand_each() -> Result<(), Error> {
    storm(100, 10_000, 1 << 23)
}

#[test]
fn a_ticket_of_another_is_refused() -> Result<(), Error> {
    let (house, threads, callers) = doubling(&config(1, 16))?;
    let (first, second) = (callers.handle(), callers.handle());
    let third = first.clone();
    let ticket = sent(first.submit(0, 0, 21))?;
    for other in [&second, &third] {
        assert_eq!(other.wait_for(&ticket), Err(Error::Unknown));
        assert_eq!(other.wait_timeout(&ticket, Duration::from_secs(60)), Err(Error::Unknown));
        assert_eq!(other.redeem(&ticket), Err(Error::Unknown));
    }
    let (_other_house, _other_threads, others) = doubling(&config(1, 4))?;
    let other = others.handle();
    assert!(other.number() != first.number());
    assert_eq!(other.redeem(&ticket), Err(Error::Unknown));
    assert_eq!(first.wait_for(&ticket)?, Outcome::Done(42));
    let lost = sent(first.submit(0, 0, 1))?;
    assert_eq!(second.detach(lost), Err(Error::Unknown));
    // Its place stays taken, and so does none that its own handle lets go.
    for _ in 0..10 {
        first.detach(submit(&first, 0, 2)?)?;
        first.collect()?;
    }
    other.close_all(Mode::Return)?;
    drop((first, second, third));
    assert!(end(house, threads, callers)?);
    Ok(())
}

#[test]
fn one_that_waits_holds_no_lock() -> Result<(), Error> {
    let (house, threads, callers) = of_closures(&config(2, 4))?;
    let first = callers.handle();
    let mut is_woken = false;
    let parks = sent(first.submit(0, 0, Job::new(move |_| if std::mem::replace(&mut is_woken, true) { Step::Done(7) } else { Step::Park })))?;
    let name = parks.name();
    let (waiter, begins) = (callers.handle(), Arc::new(Barrier::new(2)));
    let waits = thread::spawn({
        let begins = Arc::clone(&begins);
        move || {
            begins.wait();
            // Another's, and one that nobody ends before the other handle does.
            let own = sent(waiter.submit(1, 0, Job::new(|_| Step::Done(1))))?;
            assert!(matches!(waiter.wait_for(&own)?, Outcome::Done(1)));
            assert!(matches!(first.wait_for(&parks)?, Outcome::Done(7)));
            Ok::<_, Error>(first)
        }
    });
    begins.wait();
    thread::sleep(Duration::from_millis(30));
    let other = callers.handle();
    let ticket = sent(other.submit(1, 0, Job::new(|_| Step::Done(2))))?;
    assert!(matches!(other.wait_for(&ticket)?, Outcome::Done(2)));
    assert!(!waits.is_finished());
    let woken = other.wake(name)?;
    assert!(matches!(other.wait_for(&woken)?, Outcome::Answered(_)));
    drop((waits.join().expect("it ends")?, other));
    assert!(end(house, threads, callers)?);
    Ok(())
}

#[test]
fn the_end_says_which_handles_are_out() -> Result<(), Error> {
    let (house, threads, callers) = doubling(&config(1, 4))?;
    let handles = [callers.handle(), callers.handle(), callers.handle()];
    let numbers = handles.each_ref().map(Caller::number);
    let (out, callers) = callers.into_outside().err().expect("three are out");
    assert_eq!(out, numbers);
    let [first, second, third] = handles;
    drop((first, third));
    let (out, callers) = callers.into_outside().err().expect("one is out");
    assert_eq!(out, [second.number()]);
    let clone = second.clone();
    drop(second);
    let (out, callers) = callers.into_outside().err().expect("a clone is out");
    assert_eq!(out, [clone.number()]);
    drop(clone);
    assert!(end(house, threads, callers)?);
    Ok(())
}

#[test]
fn a_wait_ends_with_its_time_and_others_wait_on() -> Result<(), Error> {
    let (house, threads, callers) = of_closures(&config(1, 64))?;
    // Behind the second barrier each time is over.
    let (ends, all, over) = (Arc::new(AtomicBool::new(false)), Arc::new(Barrier::new(8)), Arc::new(Barrier::new(5)));
    let waits: Vec<_> = (0..8_u64)
        .map(|number| {
            let (caller, ends, all, over) = (callers.handle(), Arc::clone(&ends), Arc::clone(&all), Arc::clone(&over));
            thread::spawn(move || {
                let runs = Job::new(move |_| {
                    thread::sleep(Duration::from_millis(1));
                    if ends.load(Ordering::SeqCst) {
                        Step::Done(number)
                    } else {
                        Step::Yield
                    }
                });
                let ticket = sent(caller.submit(0, 0, runs))?;
                all.wait();
                let (begin, longest) = (Instant::now(), Duration::from_millis(5 + 5 * number));
                // Whoever leads may leave first, and those who wait without end go on.
                if number % 2 == 0 {
                    assert!(matches!(caller.wait_timeout(&ticket, longest), Err(Error::Pending)));
                    assert!(begin.elapsed() >= longest);
                    over.wait();
                }
                assert!(matches!(caller.wait_for(&ticket)?, Outcome::Done(it) if it == number));
                Ok::<_, Error>(())
            })
        })
        .collect();
    over.wait();
    ends.store(true, Ordering::SeqCst);
    for it in waits {
        it.join().expect("it ends")?;
    }
    assert!(end(house, threads, callers)?);
    Ok(())
}

#[test]
fn all_that_wait_are_told_that_a_core_was_dropped() -> Result<(), Error> {
    let (_house, mut cores, outside): Opened<u64> = House::open(&config(2, 16))?;
    let callers = outside.into_callers();
    let all = Arc::new(Barrier::new(5));
    let waits: Vec<_> = (0..4)
        .map(|number| {
            let (caller, all) = (callers.handle(), Arc::clone(&all));
            thread::spawn(move || {
                let ticket = sent(caller.submit(0, 0, number))?;
                all.wait();
                Ok::<_, Error>(matches!(caller.wait_for(&ticket), Ok(Outcome::Back(_, it)) if it == number))
            })
        })
        .collect();
    all.wait();
    thread::sleep(Duration::from_millis(20));
    drop(cores.remove(0));
    for it in waits {
        assert!(it.join().expect("it ends")?);
    }
    assert_eq!(sent(callers.handle().submit(0, 0, 9)).map(|_| ()), Err(Error::Closed));
    Ok(())
}

/// A job that has a handle on its own house, and uses it as it is dropped.
struct Tells {
    caller: Caller<Tells>,
    drops: Arc<AtomicUsize>,
}

impl Drop for Tells {
    fn drop(&mut self) {
        assert!(self.caller.collect().is_ok() && self.caller.note_counts().is_ok());
        self.drops.fetch_add(1, Ordering::SeqCst);
    }
}

// Each of these drops would wait for ever if the lock was held.
#[test]
fn a_job_that_comes_back_is_dropped_without_the_lock() -> Result<(), Error> {
    let (_house, mut cores, outside): Opened<Tells> = House::open(&config(1, 16))?;
    let (callers, drops) = (outside.into_callers(), Arc::new(AtomicUsize::new(0)));
    let caller = callers.handle();
    let tells = || Tells { caller: callers.handle(), drops: Arc::clone(&drops) };
    let late = sent(caller.submit(0, 9, tells()))?;
    let early = sent(caller.submit(0, 9, tells()))?;
    let asked = sent(caller.submit(0, 9, tells()))?;
    caller.detach(early)?;
    while cores[0].deliver()? {}
    assert_eq!((caller.collect()?, drops.load(Ordering::SeqCst)), (3, 1));
    caller.detach(late)?;
    assert_eq!(drops.load(Ordering::SeqCst), 2);
    assert!(matches!(caller.redeem(&asked), Ok(Outcome::Back(..))));
    assert_eq!(drops.load(Ordering::SeqCst), 3);
    // One that waits for another submission collects it.
    let gone = sent(caller.submit(0, 9, tells()))?;
    caller.detach(gone)?;
    let waits = sent(caller.submit(0, 9, tells()))?;
    while cores[0].deliver()? {}
    assert!(matches!(caller.wait_for(&waits)?, Outcome::Back(..)));
    assert_eq!(drops.load(Ordering::SeqCst), 5);
    drop(caller);
    assert_eq!(out(callers.into_outside()), []);
    Ok(())
}

#[test]
fn a_full_journal_is_told_to_each_that_waits() -> Result<(), Error> {
    let (_house, mut cores, outside): Opened<u64> = House::open(&Config { notes: 6, ..config(1, 4) })?;
    let callers = outside.into_callers();
    let caller = callers.handle();
    let tickets = [1, 2, 3].map(|it| sent(caller.submit(0, 0, it)));
    for ticket in tickets {
        let (caller, ticket) = (&caller, ticket?);
        // A collection wants as many notes as there are places.
        assert_eq!(caller.wait_for(&ticket), Err(Error::JournalFull));
        assert_eq!(caller.collect(), Err(Error::JournalFull));
    }
    cores[0].deliver()?;
    assert_eq!(caller.note_counts().map(|it| (it.kept, it.free)), Ok((3, 3)));
    let mut text = Vec::new();
    caller.pass_on(&mut text)?;
    assert!(text.starts_with(b"1 sent 1>0#1 "));
    Ok(())
}

// Who takes notes panics once, under the lock, and in the look of whoever leads.
#[test]
fn another_leads_behind_a_panic_under_the_lock() -> Result<(), Error> {
    let (_house, mut cores, mut outside) = House::open(&Config { notes: 6, ..config(1, 4) })?;
    let panics = Arc::new(AtomicBool::new(false));
    let fails = Arc::clone(&panics);
    cores[0].keep_notes_by(|_| {});
    outside.keep_notes_by(move |_| assert!(!fails.swap(false, Ordering::SeqCst), "a taker's own"));
    let callers = outside.into_callers();
    let waits = [1, 2].map(|job| {
        let caller = callers.handle();
        thread::spawn(move || {
            let ticket = sent(caller.submit(0, 0, job)).expect("there is a place");
            assert_eq!(caller.wait_for(&ticket), Ok(Outcome::Done(job)));
        })
    });
    thread::sleep(Duration::from_millis(30));
    panics.store(true, Ordering::SeqCst);
    // A collection wants four notes free, and now there are three.
    let caller = callers.handle();
    let ticket = sent(caller.submit(0, 0, 3))?;
    while panics.load(Ordering::SeqCst) {
        thread::yield_now();
    }
    while !waits.iter().all(JoinHandle::is_finished) {
        cores[0].round(|job, _| Step::Done(*job))?;
    }
    while cores[0].round(|job, _| Step::Done(*job))? {}
    assert_eq!(waits.map(|it| it.join().is_err()).into_iter().filter(|it| *it).count(), 1);
    assert_eq!(caller.wait_for(&ticket)?, Outcome::Done(3));
    drop(caller);
    assert_eq!(out(callers.into_outside()), []);
    Ok(())
}

#[test]
fn several_threads_use_one_handle_and_start_tasks() -> Result<(), Error> {
    let (house, cores, outside): Opened<Task> = House::open(&config(2, 64))?;
    let cores: Threads<Task> = cores.into_iter().map(|mut core| thread::spawn(move || core.run_tasks().map(|()| core))).collect();
    let callers = outside.into_callers();
    let (caller, sum) = (callers.handle(), Arc::new(Mutex::new(0)));
    thread::scope(|scope| {
        for number in 0..4_u32 {
            let (caller, sum) = (&caller, &sum);
            scope.spawn(move || {
                for _ in 0..20 {
                    let (ticket, join) = caller.spawn(number % 2, 0, async move { number }).expect("there are places");
                    assert!(matches!(caller.wait_for(&ticket), Ok(Outcome::Done(_))));
                    *sum.lock().expect("no panic") += join.take().expect("it ended").expect("it wasn't cancelled");
                }
            });
        }
    });
    assert_eq!(*sum.lock().expect("no panic"), 20 * (1 + 2 + 3));
    drop(caller);
    assert!(end(house, cores, callers)?);
    Ok(())
}

#[test]
fn handles_go_to_threads() {
    fn goes<T: Send + Sync>() {}
    goes::<Caller<u64>>();
    goes::<Callers<u64>>();
    goes::<CallerTicket>();
}
