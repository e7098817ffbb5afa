//! Cores that wait for each other.

use crate::shared::lock;
use std::future::poll_fn;
use std::mem::take;
use std::sync::Mutex;
use std::task::{Poll, Waker};

#[derive(Default)]
struct State {
    // Those that came in this round, and how many rounds are over.
    came: u32,
    rounds: u64,
    waiting: Vec<Waker>,
}

/// Where all cores wait until the last one came, round by round.
#[derive(Default)]
pub(crate) struct Barrier(Mutex<State>);

impl Barrier {
    /// One core came. The round whose end it waits for, if it isn't the last one.
    fn come(&self, cores: u32) -> Option<u64> {
        let waiting = {
            let mut state = lock(&self.0);
            state.came += 1;
            if state.came < cores {
                return Some(state.rounds);
            }
            (state.came, state.rounds) = (0, state.rounds + 1);
            take(&mut state.waiting)
        };
        waiting.into_iter().for_each(Waker::wake);
        None
    }

    pub(crate) async fn wait(&self, cores: u32) {
        let Some(round) = self.come(cores) else { return };
        poll_fn(|cx| {
            let mut state = lock(&self.0);
            if state.rounds > round {
                return Poll::Ready(());
            }
            // A task that is polled once more leaves a second waker, which does no harm.
            state.waiting.push(cx.waker().clone());
            Poll::Pending
        })
        .await;
    }
}
