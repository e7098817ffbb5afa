// The same by tokio: two threads with a LocalSet each, joined by channels. across_tokio OUTSTANDING ROUNDS prints what across prints. A job is a
// task of the second thread, and answers by a channel of its own.
use std::collections::VecDeque;
use std::thread;
use std::time::Instant;
use tokio::runtime::Builder;
use tokio::sync::{mpsc, oneshot};
use tokio::task::{spawn_local, LocalSet};

const JOBS: u64 = 100_000;

fn local<T>(future: impl std::future::Future<Output = T>) -> T {
    let runtime = Builder::new_current_thread().build().expect("a runtime");
    LocalSet::new().block_on(&runtime, future)
}

async fn serve(mut jobs: mpsc::UnboundedReceiver<(u64, oneshot::Sender<u64>)>) {
    while let Some((job, answers)) = jobs.recv().await {
        spawn_local(async move {
            let _ = answers.send(job + 1);
        });
    }
}

async fn drive(jobs: mpsc::UnboundedSender<(u64, oneshot::Sender<u64>)>, outstanding: usize) -> u64 {
    let mut asked = VecDeque::new();
    let (mut sent, mut sum) = (0, 0);
    while sent < JOBS || !asked.is_empty() {
        while sent < JOBS && asked.len() < outstanding {
            let (answers, answered) = oneshot::channel();
            jobs.send((sent, answers)).expect("it serves");
            asked.push_back(answered);
            sent += 1;
        }
        if let Some(answered) = asked.pop_front() {
            sum += answered.await.expect("it answers");
        }
    }
    sum
}

fn main() {
    let [outstanding, rounds] = [1, 2].map(|it| std::env::args().nth(it).expect("two numbers").parse::<usize>().expect("a number"));
    for _ in 0..rounds {
        let (send, receive) = mpsc::unbounded_channel();
        let server = thread::spawn(|| local(serve(receive)));
        let began = Instant::now();
        let sum = local(drive(send, outstanding));
        println!("{:.0} {sum}", began.elapsed().as_nanos() as f64 * 10.0 / JOBS as f64);
        server.join().expect("it ends");
    }
}
