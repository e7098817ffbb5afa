//! Tasks wait for everything that wakes one, on cores that sleep in between. `tests/rt` compiles this so that a core sleeps until it is rung: then a
//! ring that is lost ends no test.

use fairexec_rt::net::UnixStream;
use fairexec_rt::{chan, fs, sleep, spawn_local, submit, timeout, yield_now, Executor, Here, Queue};
use futures_lite::{AsyncReadExt, AsyncWriteExt};
use std::cell::RefCell;
use std::sync::atomic::{AtomicU64, Ordering};
use std::time::{Duration, Instant};

const CORES: u32 = 4;
const TASKS: u64 = 8;
const ROUNDS: u64 = 1500;

struct Dice(u64);

impl Dice {
    fn below(&mut self, most: u64) -> u64 {
        self.0 ^= self.0 << 13;
        self.0 ^= self.0 >> 7;
        self.0 ^= self.0 << 17;
        (self.0 >> 11) % most
    }
}

thread_local!(static CALLED: RefCell<u64> = const { RefCell::new(0) });

/// What a task has to wait by.
struct Waits {
    here: Here,
    there: chan::Sender<u64>,
    back: chan::Receiver<u64>,
    ours: UnixStream,
}

impl Waits {
    async fn new(here: &Here, other: u32) -> Waits {
        let (there, comes) = chan::across(1);
        let (goes, back) = chan::across(1);
        // It lives as long as the sender.
        let echoes = submit(other, Queue::FIRST, move || async move {
            spawn_local(Queue::FIRST, async move {
                while let Ok(it) = comes.recv().await {
                    goes.send(it + 1).await.unwrap();
                }
            });
        });
        echoes.await.unwrap();
        let (ours, theirs) = UnixStream::pair().unwrap();
        let theirs = theirs.into_std();
        let served = submit(other, Queue::FIRST, move || async move {
            let mut theirs = UnixStream::from_std(theirs).unwrap();
            spawn_local(Queue::new(1), async move {
                let mut byte = [0];
                while theirs.read(&mut byte).await.unwrap() == 1 {
                    theirs.write_all(&[byte[0].wrapping_add(1)]).await.unwrap();
                }
            });
        });
        served.await.unwrap();
        Waits { here: here.clone(), there, back, ours }
    }

    async fn round(&mut self, number: u64, dice: &mut Dice) {
        let other = dice.below(u64::from(CORES)) as u32;
        match dice.below(8) {
            0 | 1 => {
                let nap = Duration::from_nanos(dice.below(30_000));
                let call = submit(other, Queue::new(number as u32 % 2), move || async move {
                    if nap.as_nanos() % 2 == 0 {
                        sleep(nap).await;
                    }
                    CALLED.with_borrow_mut(|it| *it += 1);
                    number
                });
                assert_eq!(call.await, Ok(number));
            }
            2 => sleep(Duration::from_nanos(dice.below(100_000))).await,
            3 => {
                self.there.send(number).await.unwrap();
                assert_eq!(self.back.recv().await, Ok(number + 1));
            }
            4 => {
                self.ours.write_all(&[number as u8]).await.unwrap();
                let mut byte = [0];
                self.ours.read_exact(&mut byte).await.unwrap();
                assert_eq!(byte[0], (number as u8).wrapping_add(1));
            }
            5 => {
                let handle = self.here.handle();
                let call = fs::unblock(move || handle.submit(other, Queue::FIRST, move || async move { number }));
                assert_eq!(call.await.await, Ok(number));
            }
            6 => assert_eq!(spawn_local(Queue::new(1), async move { number }).await.unwrap(), number),
            _ => yield_now().await,
        }
    }
}

#[test]
fn whatever_a_task_waits_for_wakes_it() {
    static ENDED: AtomicU64 = AtomicU64::new(0);
    let began = Instant::now();
    let told = Executor::builder().cores(CORES).places(16).queue("first", 1000).queue("second", 100).run(|here| async move {
        let tasks: Vec<_> = (0..TASKS)
            .map(|task| {
                let here = here.clone();
                spawn_local(Queue::FIRST, async move {
                    let mut dice = Dice(0x9e37_79b9_7f4a_7c15 ^ (task << 32 | (u64::from(here.core()) + 1)));
                    let mut waits = Waits::new(&here, (here.core() + 1) % CORES).await;
                    for number in 0..ROUNDS {
                        // The timer that would end it wakes the core, too, and far too late.
                        let round = waits.round(number, &mut dice);
                        timeout(Duration::from_secs(60), round).await.unwrap_or_else(|_| panic!("round {number} of task {task} hangs"));
                    }
                    ENDED.fetch_add(1, Ordering::SeqCst);
                })
            })
            .collect();
        for it in tasks {
            it.await.unwrap();
        }
    });
    told.unwrap();
    assert_eq!(ENDED.load(Ordering::SeqCst), TASKS * u64::from(CORES));
    println!("{} rounds in {:?}", ROUNDS * TASKS * u64::from(CORES), began.elapsed());
}
