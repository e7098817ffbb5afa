//! What stands behind the lock of all handles, and how one waits.
//!
//! Of those that wait one leads: it sleeps on the bell of the outside actor, which the cores ring, for 10 ms at most. It has the lock for each look and
//! not while it sleeps. The others follow: each sleeps on a condition variable of its own. Who collects redeems what came for those that wait, leaves
//! it with each of them, and wakes these alone. The leader that leaves names the next one.

use super::actor::Ticket;
use super::futures::lock;
use super::lanes::Lanes;
use super::names::Outcome;
use super::outside::Outside;
use crate::error::Error;
use std::collections::VecDeque;
use std::sync::{Arc, Condvar, Mutex, MutexGuard, PoisonError};
use std::time::{Duration, Instant};

/// One that waits.
struct Waiter<J> {
    number: u64,
    ticket: Ticket,
    leads: bool,
    // What it waits for, once that came.
    told: Option<Result<Outcome<J>, Error>>,
    wakes: Arc<Condvar>,
}

/// What stands behind the lock.
pub(super) struct Inside<J> {
    pub(super) outside: Outside<J>,
    // In the order in which they came. If there are some and none of them was told, one leads.
    waiters: VecDeque<Waiter<J>>,
    // How many came so far.
    came: u64,
}

/// What all handles share.
pub(super) struct Shared<J> {
    inside: Mutex<Inside<J>>,
    // They stand in the actor, too.
    lanes: Arc<Lanes<J>>,
    number: u32,
}

impl<J> Shared<J> {
    pub(super) fn new(outside: Outside<J>) -> Shared<J> {
        let (lanes, number) = (Arc::clone(&outside.actor.lanes), outside.actor.number);
        Shared { inside: Mutex::new(Inside { outside, waiters: VecDeque::new(), came: 0 }), lanes, number }
    }

    pub(super) fn into_outside(self) -> Outside<J> {
        self.inside.into_inner().unwrap_or_else(PoisonError::into_inner).outside
    }

    // Behind a panic the actor is as good as before, as it is without a lock.
    #[inline]
    pub(super) fn lock(&self) -> MutexGuard<'_, Inside<J>> {
        lock(&self.inside)
    }
}

impl<J> Inside<J> {
    /// Collects what the links show, and tells those that wait. How many outcomes there were. The jobs that come back and for which nobody asks go
    /// behind these, for the caller to drop without the lock.
    pub(super) fn collect(&mut self, back: &mut Vec<J>) -> Result<u64, Error> {
        let Inside { outside, waiters, .. } = self;
        let mut actor = outside.actor.enter();
        // The cores that were dropped. What they did before that is collected behind this.
        let left: u32 = if waiters.is_empty() { 0 } else { (0..actor.lanes.cores()).filter(|it| actor.lanes.has_left(*it)).map(|it| 1 << it).sum() };
        let count = actor.collect_and_keep(back, None)?;
        if count > 0 || left > 0 {
            for it in waiters.iter_mut().filter(|it| it.told.is_none()) {
                match actor.redeem(&it.ticket) {
                    Err(Error::Pending) if left & 1 << it.ticket.name().to == 0 => continue,
                    told => it.told = Some(told),
                }
                if it.leads {
                    actor.lanes.ring(actor.number);
                } else {
                    it.wakes.notify_one();
                }
            }
        }
        Ok(count)
    }

    /// Collects, and tells what one that doesn't wait yet asks for, or `None` if it has to wait.
    pub(super) fn look(&mut self, ticket: &Ticket, back: &mut Vec<J>) -> Option<Result<Outcome<J>, Error>> {
        match self.outside.actor.enter().redeem_early(ticket) {
            Err(Error::Pending) => {}
            told => return Some(told),
        }
        let has_left = self.outside.actor.lanes.has_left(ticket.name().to);
        if let Err(error) = self.collect(back) {
            return Some(Err(error));
        }
        match self.outside.redeem(ticket) {
            Err(Error::Pending) if !has_left => None,
            told => Some(told),
        }
    }

    /// One that waits, by its number. They stand in the order of their numbers.
    fn waiter(&mut self, number: u64) -> &mut Waiter<J> {
        let at = self.waiters.binary_search_by_key(&number, |it| it.number).expect("it waits");
        &mut self.waiters[at]
    }

    /// Takes it off. If it led, the one leads from now on who waits longest and wasn't told.
    fn remove(&mut self, number: u64) -> Option<Waiter<J>> {
        let at = self.waiters.binary_search_by_key(&number, |it| it.number).ok()?;
        let gone = self.waiters.remove(at)?;
        if gone.leads {
            if let Some(next) = self.waiters.iter_mut().find(|it| it.told.is_none()) {
                next.leads = true;
                next.wakes.notify_one();
            }
        }
        Some(gone)
    }
}

/// One that waits, as long as it does.
pub(super) struct Waiting<'a, J> {
    shared: &'a Shared<J>,
    number: u64,
    wakes: Arc<Condvar>,
}

impl<J> Drop for Waiting<'_, J> {
    fn drop(&mut self) {
        let gone = self.shared.lock().remove(self.number);
        // A job that came back is dropped behind the lock.
        drop(gone);
    }
}

impl<'a, J> Waiting<'a, J> {
    /// Nobody asked for this submission between the look that found nothing and this.
    pub(super) fn begin(shared: &'a Shared<J>, mut inside: MutexGuard<'_, Inside<J>>, ticket: &Ticket) -> Waiting<'a, J> {
        let (number, wakes) = (inside.came, Arc::new(Condvar::new()));
        let leads = !inside.waiters.iter().any(|it| it.leads);
        inside.came += 1;
        inside.waiters.push_back(Waiter { number, ticket: ticket.again(), leads, told: None, wakes: Arc::clone(&wakes) });
        Waiting { shared, number, wakes }
    }

    /// Waits until it is told, or until that time.
    pub(super) fn wait(&self, end: Option<Instant>) -> Result<Outcome<J>, Error> {
        let mut back = Vec::new();
        loop {
            let left = end.map_or(Duration::MAX, |end| end.saturating_duration_since(Instant::now()));
            let mut inside = self.shared.lock();
            let own = inside.waiter(self.number);
            if own.told.is_none() && (own.leads || left.is_zero()) {
                inside.collect(&mut back)?;
            }
            let own = inside.waiter(self.number);
            if let Some(told) = own.told.take() {
                return told;
            }
            if left.is_zero() {
                return Err(Error::Pending);
            }
            if own.leads {
                drop(inside);
                back.clear();
                self.lead(left);
            } else if end.is_some() {
                drop(self.wakes.wait_timeout(inside, left));
            } else {
                drop(self.wakes.wait(inside));
            }
        }
    }

    /// Sleeps until a core rings, for so long at most, unless the links show something or it was told by now.
    fn lead(&self, longest: Duration) {
        let Shared { lanes, number, .. } = self.shared;
        lanes.sleep(*number, longest, || {
            let mut inside = self.shared.lock();
            inside.waiter(self.number).told.is_some() || inside.outside.actor.enter().seat.shows()
        });
    }
}
