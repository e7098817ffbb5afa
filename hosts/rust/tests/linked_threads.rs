//! A house whose cores run on threads: jobs ask each other, and tasks await each other.

use fairexec::linked::{spawn, yield_now, Answer, Cancelled, Config, Core, Cx, House, Job, Join, Opened, Outcome, Outside, Reason, Step, Task, Ticket};
use fairexec::{Error, Mode};
use std::future::poll_fn;
use std::panic::{catch_unwind, AssertUnwindSafe};
use std::sync::atomic::{AtomicUsize, Ordering};
use std::sync::{Arc, Mutex};
use std::task::{Poll, Waker};
use std::thread::JoinHandle;
use std::time::{Duration, Instant};

fn config(cores: u32, places: u32) -> Config {
    Config { cores, places, notes: 1 << 16, ..Config::default() }
}

fn sent<T, J>(told: Result<T, (Error, J)>) -> Result<T, Error> {
    told.map_err(|(error, _)| error)
}

/// Ends a house whose cores run on threads. Whether its journals are sound.
fn end<J>(house: House<J>, threads: Vec<JoinHandle<Result<Core<J>, Error>>>, outside: Outside<J>) -> Result<bool, Error> {
    let cores = threads.into_iter().map(|it| it.join().expect("a core ends")).collect::<Result<_, _>>()?;
    Ok(house.end(cores, outside).map_err(|(error, ..)| error)?.audit()?.is_sound)
}

/// A job that asks the other core for half of its number, until the number is odd.
struct Halving {
    number: u64,
    asked: Option<Ticket>,
}

fn halve(job: &mut Halving, cx: &mut Cx<'_, Halving>) -> Step {
    if job.number % 2 == 1 {
        return Step::Done(job.number);
    }
    let Some(ticket) = &job.asked else {
        let half = Halving { number: job.number / 2, asked: None };
        // A link that is full is tried again in the next run.
        job.asked = cx.submit(1 - cx.core(), 0, half).ok();
        return Step::Yield;
    };
    match cx.redeem(ticket) {
        Ok(Outcome::Done(answer)) => Step::Done(answer),
        Ok(_) => Step::Done(0),
        Err(_) => {
            // Each run takes notes of the journal, and the other thread may be set aside.
            std::thread::sleep(Duration::from_micros(50));
            Step::Yield
        }
    }
}

#[test]
fn jobs_of_two_cores_ask_each_other() -> Result<(), Error> {
    let (house, cores, mut outside) = House::open(&Config { notes: 1 << 20, ..config(2, 32) })?;
    let threads: Vec<_> = cores.into_iter().map(|mut core| std::thread::spawn(move || core.run(halve).map(|()| core))).collect();
    let mut tickets = Vec::new();
    for number in 1..=20 {
        tickets.push(sent(outside.submit((number % 2) as u32, 0, Halving { number, asked: None }))?);
    }
    for (number, ticket) in (1..).zip(&tickets) {
        assert!(matches!(outside.wait_for(ticket)?, Outcome::Done(odd) if odd == number >> u64::trailing_zeros(number)));
    }
    outside.close_all(Mode::Finish)?;
    assert!(end(house, threads, outside)?);
    Ok(())
}

#[test]
fn closures_wake_each_other() -> Result<(), Error> {
    let (house, cores, mut outside) = House::open(&Config { notes: 1 << 20, ..config(2, 8) })?;
    let threads: Vec<_> = cores.into_iter().map(|mut core| std::thread::spawn(move || core.run_jobs().map(|()| core))).collect();
    let runs = Arc::new(AtomicUsize::new(0));
    let counts = Arc::clone(&runs);
    let waits = sent(outside.submit(0, 0, Job::new(move |_| if counts.fetch_add(1, Ordering::SeqCst) == 0 { Step::Park } else { Step::Done(7) })))?;
    let name = waits.name();
    // A wake may come before the job: it is answered so, and sent again.
    let mut asked = None;
    let wakes = Job::new(move |cx| {
        match asked.as_ref().map(|ticket| cx.redeem(ticket)) {
            Some(Ok(Outcome::Answered(Answer::Woken))) => return Step::Done(0),
            Some(Err(_)) => {}
            Some(Ok(_)) | None => asked = cx.wake(name).ok(),
        }
        std::thread::sleep(Duration::from_micros(50));
        Step::Yield
    });
    let wakes = sent(outside.submit(1, 0, wakes))?;
    assert_eq!(outside.wait_for(&wakes).map(|_| ()), Ok(()));
    assert!(matches!(outside.wait_for(&waits)?, Outcome::Done(7)));
    assert_eq!(runs.load(Ordering::SeqCst), 2);
    outside.close_all(Mode::Finish)?;
    assert!(end(house, threads, outside)?);
    Ok(())
}

#[test]
fn who_waits_is_told_that_a_core_was_dropped() -> Result<(), Error> {
    // An error of a full journal ends the thread of a core, or a panic of a job does.
    for (notes, panics, answers) in [(8, 0, 1), (1 << 12, 3, 3)] {
        let (_house, mut cores, mut outside) = House::open(&Config { notes, ..config(1, 4) })?;
        outside.keep_notes_by(|_| {});
        let mut core = cores.remove(0);
        let tickets = (1..=4u64).map(|job| sent(outside.submit(0, 0, job))).collect::<Result<Vec<_>, _>>()?;
        let thread = std::thread::spawn(move || core.run(|job, _| if *job == panics { panic!("a job's own") } else { Step::Done(2 * *job) }).map(|()| core));
        for (job, ticket) in (1..).zip(&tickets[..answers]) {
            assert_eq!(outside.wait_for(ticket)?, Outcome::Done(if job == panics { 0 } else { 2 * job }));
        }
        assert!(matches!(outside.wait_for(&tickets[3])?, Outcome::Back(Reason::CoreReturned | Reason::CoreClosing, 4)));
        assert_eq!(thread.join().map(|told| told.err()).ok(), if panics == 0 { Some(Some(Error::JournalFull)) } else { None });
        // A core that was dropped accepts nothing more.
        assert_eq!(sent(outside.submit(0, 0, 5)).map(|_| ()), Err(Error::Closed));
    }
    Ok(())
}

#[test]
fn who_waits_for_a_while_may_wait_again() -> Result<(), Error> {
    let (house, mut cores, mut outside) = House::open(&config(1, 4))?;
    let ticket = sent(outside.submit(0, 0, 21u64))?;
    for longest in [Duration::ZERO, Duration::from_micros(300), Duration::from_millis(25)] {
        let begin = Instant::now();
        assert_eq!(outside.wait_timeout(&ticket, longest), Err(Error::Pending));
        assert!(begin.elapsed() >= longest);
    }
    let mut core = cores.remove(0);
    let thread = std::thread::spawn(move || core.run(|job, _| Step::Done(2 * *job)).map(|()| core));
    assert_eq!(outside.wait_timeout(&ticket, Duration::MAX)?, Outcome::Done(42));
    assert_eq!(outside.wait_timeout(&ticket, Duration::MAX), Err(Error::Gone));
    outside.close_all(Mode::Finish)?;
    assert!(end(house, vec![thread], outside)?);
    Ok(())
}

fn serve(cores: Vec<Core<Task>>) -> Vec<JoinHandle<Result<Core<Task>, Error>>> {
    cores.into_iter().map(|mut core| std::thread::spawn(move || core.run_tasks().map(|()| core))).collect()
}

#[test]
fn tasks_of_two_cores_await_each_other() -> Result<(), Error> {
    // Links of few places: what is spawned waits for them.
    for places in [2, 3, 64] {
        let (house, cores, mut outside) = House::open(&config(2, places))?;
        let threads = serve(cores);
        let (ticket, join) = outside.spawn(0, 0, async {
            let mut sum = 0;
            let parts: Vec<_> = (0..40u64)
                .map(|part| {
                    spawn(part as u32 % 2, 0, async move {
                        yield_now().await;
                        spawn(1 - part as u32 % 2, 0, async move { part }).await
                    })
                })
                .collect();
            for part in parts {
                sum += part.await.expect("it ends").expect("it ends");
            }
            sum
        })?;
        assert_eq!(outside.wait_for(&ticket).map(|_| ()), Ok(()));
        assert_eq!(join.take(), Some(Ok(40 * 39 / 2)));
        outside.close_all(Mode::Finish)?;
        assert!(end(house, threads, outside)?);
    }
    Ok(())
}

#[test]
fn a_task_that_comes_back_is_told_as_cancelled() -> Result<(), Error> {
    let (house, cores, mut outside) = House::open(&config(1, 8))?;
    let threads = serve(cores);
    let (_, waits) = outside.spawn(0, 0, std::future::pending::<u64>())?;
    let (refused, nowhere) = outside.spawn(0, 9, async { 7 })?;
    let (ticket, both) = outside.spawn(0, 0, async move { (nowhere.await, spawn(0, 9, async { 8 }).await) })?;
    assert!(matches!(outside.wait_for(&refused)?, Outcome::Back(Reason::NoQueue, _)));
    assert_eq!(outside.wait_for(&ticket).map(|_| ()), Ok(()));
    assert_eq!(both.take(), Some(Ok((Err(Cancelled), Err(Cancelled)))));
    outside.close_all(Mode::Return)?;
    assert!(end(house, threads, outside)?);
    // What comes back is the outside actor's until it asks, and went with it.
    assert_eq!(waits.take(), Some(Err(Cancelled)));
    Ok(())
}

#[test]
fn a_closed_core_wakes_its_tasks() -> Result<(), Error> {
    let (house, cores, mut outside) = House::open(&config(2, 8))?;
    let threads = serve(cores);
    let (_, first) = outside.spawn(0, 0, async {
        for _ in 0..1000 {
            yield_now().await;
        }
        spawn(0, 0, async { 5 }).await
    })?;
    outside.close_all(Mode::Finish)?;
    assert!(end(house, threads, outside)?);
    assert_eq!(first.take(), Some(Ok(Ok(5))));
    Ok(())
}

#[test]
fn what_a_task_spawned_runs_behind_its_end() -> Result<(), Error> {
    let count = Arc::new(AtomicUsize::new(0));
    let (house, cores, mut outside) = House::open(&config(1, 2))?;
    let threads = serve(cores);
    let counts = Arc::clone(&count);
    let (_, join) = outside.spawn(0, 0, async move {
        for _ in 0..100 {
            let counts = Arc::clone(&counts);
            drop(spawn(0, 0, async move { counts.fetch_add(1, Ordering::SeqCst) }));
        }
    })?;
    outside.close_all(Mode::Finish)?;
    assert!(end(house, threads, outside)?);
    assert_eq!((join.take(), count.load(Ordering::SeqCst)), (Some(Ok(())), 100));
    Ok(())
}

/// The text that an actor passed on.
#[derive(Clone, Default)]
struct Part(Arc<Mutex<Vec<u8>>>);

impl Part {
    fn keeper(&self) -> impl FnMut(&[u8]) + Send + 'static {
        let part = self.clone();
        move |text| part.0.lock().expect("no panic").extend_from_slice(text)
    }

    fn lines(&self) -> usize {
        self.0.lock().expect("no panic").iter().filter(|byte| **byte == b'\n').count()
    }
}

#[test]
fn a_house_runs_on_over_journals_of_few_notes() -> Result<(), Error> {
    let (house, cores, mut outside): Opened<Task> = House::open(&Config { cores: 2, places: 8, notes: 48, ..Config::default() })?;
    let parts: [Part; 3] = Default::default();
    outside.keep_notes_by(parts[2].keeper());
    let threads: Vec<_> = cores
        .into_iter()
        .map(|mut core| {
            core.keep_notes_by(parts[core.number() as usize].keeper());
            std::thread::spawn(move || core.run_tasks().map(|()| core))
        })
        .collect();
    for number in 0..200 {
        // Each task asks one of the other core.
        let (ticket, join) = outside.spawn(number % 2, 0, async move { 2 * spawn(1 - number % 2, 0, async move { number }).await.unwrap_or(0) })?;
        assert!(matches!(outside.wait_for(&ticket)?, Outcome::Done(_)));
        assert_eq!(join.take(), Some(Ok(2 * number)));
    }
    outside.close_all(Mode::Finish)?;
    let mut cores = threads.into_iter().map(|it| it.join().expect("a core ends")).collect::<Result<Vec<_>, _>>()?;
    for core in &mut cores {
        core.pass_on(&mut parts[core.number() as usize].0.lock().expect("no panic"))?;
    }
    outside.pass_on(&mut parts[2].0.lock().expect("no panic"))?;
    assert!(parts[0].lines() + parts[1].lines() >= 200 * 16 && parts[2].lines() >= 200 * 3);
    let mut journals = house.end(cores, outside).map_err(|(error, ..)| error)?;
    assert_eq!(journals.audit().err(), Some(Error::PassedOn));
    assert_eq!(journals.text()?, "journal 1\ncores 2 cap 8\nend\n");
    Ok(())
}

/// What a task waits for, and any thread brings.
#[derive(Default)]
struct Signal {
    inside: Mutex<(Option<u32>, Option<Waker>)>,
    // How often it was asked for.
    polls: AtomicUsize,
}

impl Signal {
    fn bring(&self, value: u32) {
        let waker = {
            let mut inside = self.inside.lock().expect("no panic");
            inside.0 = Some(value);
            inside.1.take()
        };
        waker.into_iter().for_each(Waker::wake);
    }

    async fn comes(self: Arc<Self>) -> u32 {
        poll_fn(|cx| {
            self.polls.fetch_add(1, Ordering::SeqCst);
            let mut inside = self.inside.lock().expect("no panic");
            inside.1 = Some(cx.waker().clone());
            inside.0.map_or(Poll::Pending, Poll::Ready)
        })
        .await
    }

    fn wait_for_polls(&self, count: usize) {
        while self.polls.load(Ordering::SeqCst) < count {
            std::thread::yield_now();
        }
    }
}

#[test]
fn a_thread_that_is_no_core_wakes_tasks() -> Result<(), Error> {
    let (house, cores, mut outside) = House::open(&config(2, 8))?;
    let threads = serve(cores);
    let signals: [Arc<Signal>; 8] = Default::default();
    let waits = (0..).zip(&signals).map(|(number, signal)| outside.spawn(number % 2, 0, Arc::clone(signal).comes())).collect::<Result<Vec<_>, _>>()?;
    let brings = std::thread::spawn(move || {
        for (value, signal) in (0..).zip(&signals) {
            signal.wait_for_polls(1);
            // The core sleeps by now, or is about to.
            std::thread::sleep(std::time::Duration::from_millis(value % 3));
            signal.bring(value as u32);
        }
    });
    for (value, (ticket, join)) in (0..).zip(waits) {
        assert!(matches!(outside.wait_for(&ticket)?, Outcome::Done(_)));
        assert_eq!(join.take(), Some(Ok(value)));
    }
    brings.join().expect("no panic");
    outside.close_all(Mode::Finish)?;
    assert!(end(house, threads, outside)?);
    Ok(())
}

#[test]
fn tasks_run_on_behind_a_full_journal() -> Result<(), Error> {
    let (house, cores, mut outside): Opened<Task> = House::open(&Config { cores: 2, places: 4, notes: 12, ..Config::default() })?;
    outside.keep_notes_by(|_| {});
    let refusals = Arc::new(AtomicUsize::new(0));
    let run_on = |mut core: Core<Task>| {
        let refusals = Arc::clone(&refusals);
        std::thread::spawn(move || {
            while let Err(error) = core.run_tasks() {
                assert_eq!(error, Error::JournalFull);
                refusals.fetch_add(1, Ordering::SeqCst);
                core.pass_on(&mut Vec::new())?;
            }
            Ok(core)
        })
    };
    let threads: Vec<_> = cores.into_iter().map(run_on).collect();
    for number in 0..50 {
        // Each run has wakes and new tasks to send, to both cores.
        let (ticket, join) = outside.spawn(number % 2, 0, async move {
            let parts: Vec<_> = (0..6).map(|part| spawn(part % 2, 0, async move { (part, yield_now().await).0 })).collect();
            let mut sum = 0;
            for part in parts {
                sum += part.await?;
            }
            Ok::<_, Cancelled>(sum)
        })?;
        assert!(matches!(outside.wait_for(&ticket)?, Outcome::Done(_)));
        assert_eq!(join.take(), Some(Ok(Ok(15))));
    }
    outside.close_all(Mode::Finish)?;
    let cores = threads.into_iter().map(|it| it.join().expect("a core ends")).collect::<Result<_, Error>>()?;
    assert!(refusals.load(Ordering::SeqCst) > 50);
    house.end(cores, outside).map_err(|(error, ..)| error)?;
    Ok(())
}

#[test]
fn tasks_run_on_behind_a_panic() -> Result<(), Error> {
    let (house, mut cores, mut outside) = House::open(&config(1, 8))?;
    let signal = Arc::new(Signal::default());
    let (waits, waited) = outside.spawn(0, 0, Arc::clone(&signal).comes())?;
    let spawned = Arc::new(Mutex::new(None));
    let told = Arc::clone(&spawned);
    let (_, ends) = outside.spawn(0, 0, async move {
        *told.lock().expect("no panic") = Some(spawn(0, 0, async { 5 }));
        signal.bring(7);
        if signal.inside.lock().is_ok() {
            panic!("a task's own");
        }
    })?;
    outside.close_all(Mode::Finish)?;
    let core = &mut cores[0];
    assert!(catch_unwind(AssertUnwindSafe(|| core.run_tasks())).is_err());
    assert_eq!((ends.take(), waited.take()), (Some(Err(Cancelled)), None));
    core.run_tasks()?;
    assert!(matches!(outside.wait_for(&waits)?, Outcome::Done(0)));
    assert_eq!(waited.take(), Some(Ok(7)));
    assert_eq!(spawned.lock().expect("no panic").as_ref().and_then(Join::take), Some(Ok(5)));
    assert!(house.end(cores, outside).map_err(|(error, ..)| error)?.audit()?.is_sound);
    Ok(())
}

#[test]
fn a_task_that_came_back_is_woken_where_it_is_submitted_again() -> Result<(), Error> {
    let (house, cores, mut outside) = House::open(&config(2, 8))?;
    let threads = serve(cores);
    let queue = outside.create(0, 100)?;
    assert!(matches!(outside.wait_for(&queue)?, Outcome::Answered(Answer::Created(1))));
    let signal = Arc::new(Signal::default());
    let (ticket, join) = outside.spawn(0, 1, Arc::clone(&signal).comes())?;
    signal.wait_for_polls(1);
    let closing = outside.close_queue(0, 1, Mode::Return)?;
    outside.detach(closing)?;
    let Outcome::Back(Reason::QueueReturned, task) = outside.wait_for(&ticket)? else { panic!("its queue hands back") };
    let ticket = sent(outside.submit(1, 0, task))?;
    signal.wait_for_polls(2);
    signal.bring(3);
    assert!(matches!(outside.wait_for(&ticket)?, Outcome::Done(0)));
    assert_eq!(join.take(), Some(Ok(3)));
    outside.close_all(Mode::Finish)?;
    assert!(end(house, threads, outside)?);
    Ok(())
}

#[test]
fn a_task_that_a_closing_core_still_takes_in_is_woken() -> Result<(), Error> {
    let (house, mut cores, mut outside) = House::open(&config(2, 8))?;
    outside.close_all(Mode::Finish)?;
    // Nothing is inside, and the gates are open until the next delivery.
    assert!(cores[0].deliver()?);
    let (task, join) = Task::new(async { (yield_now().await, 5).1 });
    let ticket = sent(cores[1].submit(0, 0, task))?;
    cores[1].detach(ticket)?;
    for core in &mut cores {
        core.run_tasks()?;
    }
    assert_eq!(join.take(), Some(Ok(5)));
    assert!(house.end(cores, outside).map_err(|(error, ..)| error)?.audit()?.is_sound);
    Ok(())
}
