//! Orders that a core delivered and whose jobs didn't run yet. An order that is no job has its outcome by its delivery, and so has a job that comes
//! back at once; no run rings for these.

use super::names::Name;

/// A job that didn't run behind so many looks waits in its queue, mostly.
const LOOKS: u32 = 8;

/// Of one sender.
#[derive(Clone, Default)]
struct Sender {
    // Orders that were delivered so far: the number of the last one.
    delivered: u64,
    // Those of them from this number on count, and so many have no run yet.
    first: u64,
    fresh: u32,
    looks: u32,
}

/// Of each sender of a core, by its number. The library doesn't tell which orders are jobs, but it tells the first run of each job.
pub(super) struct Fresh {
    senders: Vec<Sender>,
    // Whether one of them has some.
    has_some: bool,
}

impl Fresh {
    pub(super) fn new(actors: u32) -> Fresh {
        Fresh { senders: vec![Sender::default(); actors as usize], has_some: false }
    }

    /// So many orders were delivered.
    #[inline]
    pub(super) fn deliver(&mut self, sender: u32, count: u32) {
        let it = &mut self.senders[sender as usize];
        if it.fresh == 0 {
            (it.first, it.looks) = (it.delivered + 1, 0);
        }
        it.delivered += u64::from(count);
        it.fresh += count;
        self.has_some |= count > 0;
    }

    /// A job runs for the first time, or goes back to its sender, who is told by that.
    #[inline]
    pub(super) fn start(&mut self, name: Name) {
        let it = &mut self.senders[name.from as usize];
        debug_assert!(name.number <= it.delivered);
        if name.number >= it.first {
            it.fresh = it.fresh.saturating_sub(1);
        }
    }

    /// Calls `tell` with each sender that may have outcomes of which no run tells.
    ///
    /// If no queue has work, each job that is inside has had a run, so what is left was answered at its delivery. While some queue has work it may
    /// be a job that waits: it is told behind some looks, once, and if it was a job its sender looks once too often. Either way a sender that is
    /// told finds its outcomes, since they stood in the link before: `Lanes::wait_by` has the argument.
    #[inline]
    pub(super) fn look(&mut self, is_idle: bool, tell: impl FnMut(u32)) {
        if self.has_some {
            self.look_at_all(is_idle, tell);
        }
    }

    fn look_at_all(&mut self, is_idle: bool, mut tell: impl FnMut(u32)) {
        self.has_some = false;
        for (sender, it) in (0..).zip(&mut self.senders) {
            if it.fresh == 0 {
                continue;
            }
            it.looks += 1;
            if is_idle || it.looks > LOOKS {
                it.fresh = 0;
                tell(sender);
            }
            self.has_some |= it.fresh > 0;
        }
    }
}

#[cfg(test)]
mod tests {
    use super::{Fresh, LOOKS};
    use crate::linked::Name;

    fn told(fresh: &mut Fresh, is_idle: bool) -> Vec<u32> {
        let mut all = Vec::new();
        fresh.look(is_idle, |it| all.push(it));
        all
    }

    fn job(from: u32, number: u64) -> Name {
        Name { from, to: 0, number }
    }

    #[test]
    fn what_has_no_run_is_told_once_no_queue_has_work() {
        let mut fresh = Fresh::new(3);
        fresh.deliver(1, 3);
        fresh.deliver(2, 1);
        fresh.start(job(1, 1));
        fresh.start(job(1, 3));
        fresh.start(job(2, 1));
        assert_eq!(told(&mut fresh, true), [1]);
        assert_eq!(told(&mut fresh, true), []);
    }

    #[test]
    fn what_waits_is_told_behind_some_looks_and_hides_nothing() {
        let mut fresh = Fresh::new(1);
        fresh.deliver(0, 1);
        for _ in 0..LOOKS {
            assert_eq!(told(&mut fresh, false), []);
        }
        assert_eq!(told(&mut fresh, false), [0]);
        // The job of number 1 runs now, and order 2 has its answer.
        fresh.deliver(0, 1);
        fresh.start(job(0, 1));
        assert_eq!(told(&mut fresh, true), [0]);
    }
}
