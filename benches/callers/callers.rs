// Threads that submit jobs to two cores of a house and redeem each outcome, by handles of hosts/rust: callers handles THREADS OUTSTANDING ROUNDS. Each
// thread keeps so many jobs outstanding. And on one thread, which also runs the one core that there is: callers alone|handle OUTSTANDING ROUNDS, by the
// outside actor itself, and by a handle on it. A line for each round: the nanoseconds a job, and the sum of the answers.
use fairexec::linked::{Caller, Config, Core, House, Journal, Opened, Outcome, Outside, Step};
use fairexec::{Error, Mode};
use std::collections::VecDeque;
use std::thread;
use std::time::Instant;

/// Of all threads together.
const JOBS: u64 = 200_000;

/// The calls on submissions that an actor and a handle have alike.
trait Submits {
    type Ticket;
    fn submit(&mut self, to: u32, job: u64) -> Result<Self::Ticket, Error>;
    fn outcome(&mut self, ticket: &Self::Ticket) -> Result<Outcome<u64>, Error>;
}

macro_rules! submits {
    ($($name:ident: $ticket:ident),*) => {
        $(impl Submits for $name<u64> {
            type Ticket = fairexec::linked::$ticket;
            fn submit(&mut self, to: u32, job: u64) -> Result<Self::Ticket, Error> {
                $name::submit(self, to, 0, job).map_err(|(error, _)| error)
            }
            fn outcome(&mut self, ticket: &Self::Ticket) -> Result<Outcome<u64>, Error> {
                self.wait_for(ticket)
            }
        })*
    };
}

submits!(Outside: Ticket, Caller: CallerTicket);

/// Submits so many jobs, to the cores by turns, and redeems each. `rest` is what is done before the thread asks for an outcome.
fn drive<S: Submits>(by: &mut S, cores: u32, jobs: u64, outstanding: usize, mut rest: impl FnMut() -> Result<(), Error>) -> Result<u64, Error> {
    let (mut asked, mut sent, mut sum) = (VecDeque::new(), 0, 0);
    while sent < jobs || !asked.is_empty() {
        while sent < jobs && asked.len() < outstanding {
            asked.push_back(by.submit((sent % u64::from(cores)) as u32, sent)?);
            sent += 1;
        }
        rest()?;
        if let Some(ticket) = asked.pop_front() {
            match by.outcome(&ticket)? {
                Outcome::Done(answer) => sum += answer,
                told => panic!("{told:?}"),
            }
        }
    }
    Ok(sum)
}

fn opened(cores: u32) -> Result<Opened<u64>, Error> {
    House::open(&Config { cores, places: 1024, journal: Journal::Forget, ..Config::default() })
}

fn run(core: &mut Core<u64>) -> Result<(), Error> {
    core.run(|job, _| Step::Done(*job + 1))
}

fn by_threads(threads: u64, outstanding: usize) -> Result<(f64, u64), Error> {
    let (_house, cores, outside) = opened(2)?;
    let cores: Vec<_> = cores.into_iter().map(|mut core| thread::spawn(move || run(&mut core))).collect();
    let callers = outside.into_callers();
    let began = Instant::now();
    let all: Vec<_> =
        (0..threads).map(|_| callers.handle()).map(|mut caller| thread::spawn(move || drive(&mut caller, 2, JOBS / threads, outstanding, || Ok(())))).collect();
    let sum = all.into_iter().map(|it| it.join().expect("it ends")).sum::<Result<u64, _>>()?;
    let took = began.elapsed().as_nanos() as f64 / JOBS as f64;
    callers.handle().close_all(Mode::Finish)?;
    for core in cores {
        core.join().expect("it ends")?;
    }
    Ok((took, sum))
}

fn on_one_thread(by_handle: bool, outstanding: usize) -> Result<(f64, u64), Error> {
    let (_house, mut cores, outside) = opened(1)?;
    let core = &mut cores[0];
    // Rounds until nothing happens, so that the outcome is there and nobody sleeps.
    let rest = || {
        while core.round(|job, _| Step::Done(*job + 1))? {}
        Ok(())
    };
    if by_handle {
        let callers = outside.into_callers();
        timed(&mut callers.handle(), outstanding, rest)
    } else {
        let mut outside = outside;
        timed(&mut outside, outstanding, rest)
    }
}

fn timed<S: Submits>(by: &mut S, outstanding: usize, rest: impl FnMut() -> Result<(), Error>) -> Result<(f64, u64), Error> {
    let began = Instant::now();
    let sum = drive(by, 1, JOBS, outstanding, rest)?;
    Ok((began.elapsed().as_nanos() as f64 / JOBS as f64, sum))
}

fn main() -> Result<(), Error> {
    let words: Vec<String> = std::env::args().skip(1).collect();
    let numbers: Vec<usize> = words.iter().skip(1).map(|it| it.parse().expect("a number")).collect();
    for _ in 0..*numbers.last().expect("how many rounds") {
        let (took, sum) = match (words[0].as_str(), numbers.as_slice()) {
            ("handles", &[threads, outstanding, _]) => by_threads(threads as u64, outstanding)?,
            ("alone", &[outstanding, _]) => on_one_thread(false, outstanding)?,
            ("handle", &[outstanding, _]) => on_one_thread(true, outstanding)?,
            _ => panic!("handles THREADS OUTSTANDING ROUNDS, or alone or handle OUTSTANDING ROUNDS"),
        };
        println!("{took:.1} {sum}");
    }
    Ok(())
}
