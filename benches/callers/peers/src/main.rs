// The same by others: callers_peers tokio|crossbeam THREADS OUTSTANDING ROUNDS prints what callers prints. By tokio a thread starts each job on a runtime of
// two workers by Handle::spawn, and waits for its JoinHandle by Handle::block_on. By crossbeam two threads serve a bounded channel each, and a job brings
// the sender of its thread's own channel, where answers come in any order.
use crossbeam_channel::{bounded, Receiver, Sender};
use std::collections::VecDeque;
use std::thread;
use std::time::Instant;
use tokio::runtime::{Builder, Handle};

const JOBS: u64 = 200_000;

/// Places of a channel of jobs.
const PLACES: usize = 1024;

type Job = (u64, Sender<u64>);

fn by_tokio(on: &Handle, jobs: u64, outstanding: usize) -> u64 {
    let (mut asked, mut sent, mut sum) = (VecDeque::new(), 0, 0);
    while sent < jobs || !asked.is_empty() {
        while sent < jobs && asked.len() < outstanding {
            let job = sent;
            asked.push_back(on.spawn(async move { job + 1 }));
            sent += 1;
        }
        if let Some(join) = asked.pop_front() {
            sum += on.block_on(join).expect("it ends");
        }
    }
    sum
}

fn by_crossbeam(servers: &[Sender<Job>], jobs: u64, outstanding: usize) -> u64 {
    let (answers, answered) = bounded(outstanding);
    let (mut sent, mut left, mut sum) = (0, 0, 0);
    while sent < jobs || left > 0 {
        while sent < jobs && left < outstanding {
            servers[(sent % 2) as usize].send((sent, answers.clone())).expect("it serves");
            sent += 1;
            left += 1;
        }
        sum += answered.recv().expect("it answers");
        left -= 1;
    }
    sum
}

fn serve(jobs: Receiver<Job>) {
    for (job, answers) in jobs {
        answers.send(job + 1).expect("it waits");
    }
}

fn on_threads(threads: u64, drive: impl Fn(u64) -> u64 + Send + Clone + 'static) -> (f64, u64) {
    let began = Instant::now();
    let all: Vec<_> = (0..threads)
        .map(|_| {
            let drive = drive.clone();
            thread::spawn(move || drive(JOBS / threads))
        })
        .collect();
    let sum = all.into_iter().map(|it| it.join().expect("it ends")).sum();
    (began.elapsed().as_nanos() as f64 / JOBS as f64, sum)
}

fn main() {
    let words: Vec<String> = std::env::args().skip(1).collect();
    let [threads, outstanding, rounds] = [1, 2, 3].map(|it| words[it].parse::<usize>().expect("a number"));
    for _ in 0..rounds {
        let (took, sum) = if words[0] == "tokio" {
            let runtime = Builder::new_multi_thread().worker_threads(2).build().expect("a runtime");
            let on = runtime.handle().clone();
            on_threads(threads as u64, move |jobs| by_tokio(&on, jobs, outstanding))
        } else {
            let (ends, servers): (Vec<_>, Vec<_>) = (0..2).map(|_| bounded(PLACES)).map(|(send, receive)| (send, thread::spawn(|| serve(receive)))).unzip();
            let told = on_threads(threads as u64, move |jobs| by_crossbeam(&ends, jobs, outstanding));
            servers.into_iter().for_each(|it| it.join().expect("it ends"));
            told
        };
        println!("{took:.1} {sum}");
    }
}
