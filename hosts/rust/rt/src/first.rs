//! The first poll of a call. Most calls end by it, so a task is made of those alone that have to wait.

use crate::call::Started;
use crate::local::Local;
use crate::task;
use std::future::Future;
use std::panic::{catch_unwind, AssertUnwindSafe};
use std::pin::Pin;
use std::sync::atomic::{fence, AtomicBool, Ordering};
use std::sync::{Arc, OnceLock};
use std::task::{Context, Poll, Wake, Waker};

/// What the waker of a first poll wakes: the task that is made behind that poll.
///
/// Flag, look. Who calls the waker sets the flag, and then looks for the task. Who makes the task puts it here, and then looks at the flag. A fence
/// stands between the two on both sides, so one of them finds what the other one left, and the task is polled.
#[derive(Default)]
struct Wakes {
    is_called: AtomicBool,
    task: OnceLock<Waker>,
}

impl Wake for Wakes {
    fn wake(self: Arc<Self>) {
        self.wake_by_ref();
    }

    fn wake_by_ref(self: &Arc<Self>) {
        self.is_called.store(true, Ordering::SeqCst);
        fence(Ordering::SeqCst);
        self.task.get().into_iter().for_each(Waker::wake_by_ref);
    }
}

/// The waker of first polls. The next poll has the same, unless somebody kept it or called it.
pub(crate) struct First {
    wakes: Arc<Wakes>,
    waker: Waker,
}

impl Default for First {
    fn default() -> First {
        let wakes = Arc::<Wakes>::default();
        First { waker: Waker::from(Arc::clone(&wakes)), wakes }
    }
}

impl First {
    fn was_called(&self) -> bool {
        self.wakes.is_called.load(Ordering::SeqCst)
    }

    /// Whether nobody else has the waker, or had it and called it.
    fn is_new(&self) -> bool {
        Arc::strong_count(&self.wakes) == 2 && !self.was_called()
    }
}

impl Local {
    /// Polls a call in the run that goes on. If it has to wait, it becomes a task of this queue.
    pub(crate) fn start_now(&self, queue: u32, mut call: Started) {
        let first = self.first.take().unwrap_or_default();
        let told = catch_unwind(AssertUnwindSafe(|| Pin::new(&mut call).poll(&mut Context::from_waker(&first.waker))));
        match told {
            Ok(Poll::Pending) => self.goes_on(queue, call, &first),
            _ if first.is_new() => self.first.set(Some(first)),
            _ => {}
        }
    }

    /// Makes a task of a call that waits. It is polled once more now, or, if it was woken meanwhile, once its queue comes to it.
    fn goes_on(&self, queue: u32, call: Started, first: &First) {
        let (turn, waker) = task::detached(self, queue, call);
        // Nobody else puts one there.
        let _ = first.wakes.task.set(waker);
        fence(Ordering::SeqCst);
        if first.was_called() {
            self.hand_in(queue, turn);
        } else {
            self.run_within(queue, turn);
        }
    }
}
