// Times a job from one core to another through hosts/rust: across OUTSTANDING ROUNDS. Core 0 submits jobs to core 1, with so many outstanding,
// and redeems their outcomes; core 1 runs each once. A turn may have 64 runs, and a round time for as many, as a tick of tokio has 61. It prints a
// line for each round: tenths of nanoseconds a job, and the sum of the answers.
use fairexec::linked::{Config, House, Outcome, Step, Ticket};
use fairexec::{Error, Mode};
use std::collections::VecDeque;
use std::sync::mpsc;
use std::thread;
use std::time::Instant;

const JOBS: u64 = 100_000;

/// Nanoseconds for some 64 runs.
const ROUND: u64 = 10_000;

fn round(outstanding: usize) -> Result<(f64, u64), Error> {
    let (_house, mut cores, outside) = House::<u64>::open(&Config { cores: 2, places: 1024, burst: 64, notes: 1 << 20, ..Config::default() })?;
    let mut second = cores.pop().expect("there are two");
    let mut first = cores.pop().expect("there are two");
    second.set_round_time(ROUND);
    let (begins, begun) = mpsc::channel();
    let server = thread::spawn(move || {
        begins.send(()).expect("it waits");
        // It never sleeps, as the others here.
        while !second.is_drained() {
            second.round(|job, _| Step::Done(*job + 1))?;
        }
        Ok::<_, Error>(())
    });
    let began = Instant::now();
    // This thread sleeps until the other has begun, as that of tokio does. One that is pinned to another processor begins on this one, and would
    // wait some milliseconds for it.
    begun.recv().expect("it begins");
    let mut asked: VecDeque<Ticket> = VecDeque::new();
    let (mut sent, mut done, mut sum) = (0, 0, 0);
    while done < JOBS {
        while sent < JOBS && asked.len() < outstanding {
            asked.push_back(first.submit(1, 0, sent).map_err(|(error, _)| error)?);
            sent += 1;
        }
        if first.collect()? == 0 {
            std::hint::spin_loop();
        }
        while let Some(ticket) = asked.front() {
            let Ok(Outcome::Done(answer)) = first.redeem(ticket) else { break };
            asked.pop_front();
            sum += answer;
            done += 1;
        }
    }
    let took = began.elapsed().as_nanos() as f64;
    // Nobody asks for the answer of the close.
    let _ticket = first.close_core(1, Mode::Finish)?;
    server.join().expect("a core ends")?;
    drop(outside);
    Ok((took, sum))
}

fn main() -> Result<(), Error> {
    let [outstanding, rounds] = [1, 2].map(|it| std::env::args().nth(it).expect("two numbers").parse::<usize>().expect("a number"));
    for _ in 0..rounds {
        let (took, sum) = round(outstanding)?;
        println!("{:.0} {sum}", took * 10.0 / JOBS as f64);
    }
    Ok(())
}
